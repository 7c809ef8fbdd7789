//! Records that a gateway could well hear, and ways to damage them.

use crate::record::{Kind, Record, RECORD_LEN};
use crate::rules::proposer;
use crate::state::{Epoch, Name, NodeNo, Payload, State, FIRST_EPOCH, LAST_EPOCH, NO_EPOCH};

use super::random::Random;
use super::records;

/// Each kind, as often as a gateway should hear it out of the blue.
const KINDS: [(Kind, usize); 6] = [
    (Kind::Proposal, 4),
    (Kind::Vote, 2),
    (Kind::Clock, 2),
    (Kind::Propose, 3),
    (Kind::Cast, 1),
    (Kind::Minute, 1),
];
/// Kind bytes that are none.
const NO_KINDS: [u8; 6] = [0, 7, 8, 0x81, 0xFE, 0xFF];
/// Node numbers that no n allows.
const NO_NODES: [u32; 3] = [32, 128, 255];
/// Bytes 2 and 3, and the first and last byte of each field after them.
const FIELD_BORDERS: [usize; 10] = [2, 3, 4, 7, 8, 39, 40, 71, 72, 95];
/// How far a proposal's epoch may lie past its parent's.
const EPOCHS_AHEAD: usize = 4;
/// One record in so many is damaged twice, where the lowest row must win.
const TWICE: usize = 4;

/// A way to damage a record, going by the state of the gateway that hears it.
type Damage = fn(&mut Random, &State, &mut Record);

const DAMAGES: [Damage; 13] = [
    flip_a_bit,
    unknown_kind,
    another_kind,
    sender_past_n,
    own_sender,
    any_sender,
    border_byte,
    border_epoch,
    zero_name,
    held_name,
    unknown_names,
    held_parent,
    parent_of_itself,
];

/// A record that no row need refuse, of any kind, under a new name.
pub fn likely(random: &mut Random, state: &State, name: Name) -> Record {
    let payload = random.bytes();
    let other = other_node(random, state);
    match random.weighted(&KINDS) {
        Kind::Proposal => likely_proposal(random, state, name, payload),
        Kind::Vote => records::vote(other, any_held(random, state)),
        Kind::Clock => {
            let past = state.local.max(state.clock(other));
            records::clock(other, past.next())
        }
        Kind::Propose => records::propose(state.own, name, payload),
        Kind::Cast => records::cast(state.own),
        Kind::Minute => records::minute(state.own),
    }
}

/// The record damaged once, or now and then twice.
pub fn damage(random: &mut Random, state: &State, record: &mut Record) {
    random.one_of(&DAMAGES)(random, state, record);
    if random.once_in(TWICE) {
        random.one_of(&DAMAGES)(random, state, record);
    }
}

fn likely_proposal(random: &mut Random, state: &State, name: Name, payload: Payload) -> Record {
    let parent = state.blocks[random.below(state.count + 1)];
    let ahead = random.below(EPOCHS_AHEAD) as u32;
    let mut epoch = Epoch(parent.epoch.next().0.saturating_add(ahead));
    let proposed_by = |epoch| proposer(state.n, epoch).unwrap_or(state.own);
    // The own blocks are never heard from others.
    if proposed_by(epoch) == state.own {
        epoch = epoch.next();
    }
    records::proposal(epoch, proposed_by(epoch), name, parent.name, payload)
}

/// Another node's number; the own one where there is no other.
fn other_node(random: &mut Random, state: &State) -> NodeNo {
    let steps = random.below(state.n.max(2) as usize - 1) as u32 + 1;
    NodeNo((state.own.0 + steps) % state.n)
}

/// The name of a block held, or of the genesis.
fn any_held(random: &mut Random, state: &State) -> Name {
    state.blocks[random.below(state.count + 1)].name
}

fn flip_a_bit(random: &mut Random, _: &State, record: &mut Record) {
    let at = random.below(RECORD_LEN);
    flip(random, record, at);
}

fn border_byte(random: &mut Random, _: &State, record: &mut Record) {
    let at = random.one_of(&FIELD_BORDERS);
    flip(random, record, at);
}

/// Flips any bit of the byte that the record has there.
fn flip(random: &mut Random, record: &mut Record, at: usize) {
    let mut bytes = records::bytes(record);
    bytes[at] ^= 1 << random.below(u8::BITS as usize);
    if let Some(flipped) = Record::read(&bytes) {
        *record = flipped;
    }
}

fn unknown_kind(random: &mut Random, _: &State, record: &mut Record) {
    record.kind = random.one_of(&NO_KINDS);
}

fn another_kind(random: &mut Random, _: &State, record: &mut Record) {
    record.kind = random.weighted(&KINDS).number();
}

fn sender_past_n(random: &mut Random, state: &State, record: &mut Record) {
    let past = random.one_of(&NO_NODES);
    record.sender = NodeNo(random.one_of(&[state.n, state.n + 1, past]));
}

fn own_sender(_: &mut Random, state: &State, record: &mut Record) {
    record.sender = state.own;
}

fn any_sender(random: &mut Random, state: &State, record: &mut Record) {
    record.sender = NodeNo(random.below(state.n as usize) as u32);
}

fn border_epoch(random: &mut Random, state: &State, record: &mut Record) {
    let last_of_a_block = Epoch(LAST_EPOCH.0 - 1);
    record.epoch = random.one_of(&[
        NO_EPOCH,
        FIRST_EPOCH,
        state.bar,
        state.local,
        last_of_a_block,
        LAST_EPOCH,
    ]);
}

fn zero_name(_: &mut Random, _: &State, record: &mut Record) {
    record.name = Name::default();
}

fn held_name(random: &mut Random, state: &State, record: &mut Record) {
    record.name = any_held(random, state);
}

fn unknown_names(random: &mut Random, _: &State, record: &mut Record) {
    if record.kind == Kind::Vote.number() {
        record.name = random.bytes();
    } else {
        record.parent = random.bytes();
    }
}

fn held_parent(random: &mut Random, state: &State, record: &mut Record) {
    record.parent = any_held(random, state);
}

fn parent_of_itself(_: &mut Random, _: &State, record: &mut Record) {
    record.parent = record.name;
}
