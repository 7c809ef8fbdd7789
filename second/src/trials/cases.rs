//! Cases: states that are handed in, each with a record and an out buffer that
//! suit it more or less. The same ones for the same seed.

use std::io::{self, Write};

use crate::record::{Kind, Record, RECORD_LEN};
use crate::rules::{proposer, quorum, Firm};
use crate::state::{Epoch, Name, NodeNo, Place, State, GENESIS, LAST_EPOCH, NO_EPOCH};

use super::breaks::break_shape;
use super::damage::damage;
use super::random::Random;
use super::records;
use super::states::{any_state, Names, LAST_BLOCK_EPOCH};
use super::wire::{Case, OUT_AREA, RECORD_AREA};

/// A state is badly shaped once in so many times.
const BAD_SHAPE: usize = 4;
/// A state is left as it was built, whatever the record, once in so many times.
const UNSUITED: usize = 4;
/// A record is damaged once in so many times.
const DAMAGED: usize = 3;
/// A record or an out buffer has another length once in so many times.
const OTHER_LENGTH: usize = 16;
/// Of the usual choices for a record another is made once in so many times.
const UNUSUAL: usize = 8;

const KINDS: [(Kind, usize); 6] = [
    (Kind::Proposal, 5),
    (Kind::Vote, 5),
    (Kind::Clock, 4),
    (Kind::Propose, 5),
    (Kind::Cast, 5),
    (Kind::Minute, 3),
];

/// How far a proposal's epoch lies past its parent's.
const EPOCHS_AHEAD: [(u32, usize); 5] = [(0, 1), (1, 6), (2, 2), (3, 1), (300, 1)];

/// The case of this index.
pub fn case(seed: u64, index: u64) -> Case {
    let random = &mut Random::new(seed, index);
    let (mut state, names) = any_state(random);
    let kind = random.weighted(&KINDS);
    if !random.once_in(UNSUITED) {
        suit(random, &mut state, kind);
    }
    let mut record = record(random, &state, &names, kind);
    if random.once_in(DAMAGED) {
        damage(random, &state, &mut record);
    }
    if random.once_in(BAD_SHAPE) {
        break_shape(random, &mut state);
    }
    lend(random, state, &record)
}

/// Writes so many cases.
pub fn write_cases(count: u64, seed: u64, output: &mut impl Write) -> io::Result<()> {
    for index in 0..count {
        output.write_all(&case(seed, index).bytes())?;
    }
    Ok(())
}

/// Lays the record and an out buffer into their areas, among bytes of all sorts.
fn lend(random: &mut Random, state: State, record: &Record) -> Case {
    let mut area: [u8; RECORD_AREA] = random.bytes();
    record.write(&mut area[..RECORD_LEN]);
    Case {
        state,
        record_len: length(random, RECORD_AREA),
        record: area,
        out_len: length(random, OUT_AREA),
        out: random.bytes(),
    }
}

fn length(random: &mut Random, area: usize) -> usize {
    let any = random.below(area + 1);
    let others = [0, 1, RECORD_LEN - 1, RECORD_LEN + 1, area, any];
    if random.once_in(OTHER_LENGTH) {
        random.one_of(&others)
    } else {
        RECORD_LEN
    }
}

/// Brings a state nearer to one that takes this kind; it stays well shaped.
fn suit(random: &mut Random, state: &mut State, kind: Kind) {
    match kind {
        Kind::Propose => state.own = proposer(state.n, state.local).unwrap_or(state.own),
        Kind::Cast => suit_cast(random, state),
        Kind::Minute => {
            let own = &mut state.clocks[state.own.0 as usize];
            *own = random.one_of(&[NO_EPOCH, *own, state.local, state.local.next()]);
        }
        Kind::Proposal | Kind::Vote | Kind::Clock => {}
    }
}

/// The local epoch becomes that of a block on a firm one. The bar lies around its
/// parent's epoch, and mostly no vote was cast yet.
fn suit_cast(random: &mut Random, state: &mut State) {
    let firm = Firm::of(state);
    let on_firm = |place: &Place| firm.holds(state.row(*place).parent);
    let open: Vec<Place> = state.places().filter(on_firm).collect();
    if open.is_empty() {
        return;
    }
    let block = *state.row(random.one_of(&open));
    let parent_epoch = state.row(block.parent).epoch;
    let lower = Epoch(random.below(parent_epoch.0 as usize + 1) as u32);
    state.local = block.epoch;
    state.bar = random.weighted(&[
        (parent_epoch, 4),
        (lower, 2),
        (NO_EPOCH, 2),
        (parent_epoch.next(), 1),
        (state.bar, 1),
    ]);
    if !random.once_in(UNUSUAL) && state.voted == state.local {
        state.voted = Epoch(state.local.0 - 1);
    }
}

/// A record of this kind that the state may well take.
fn record(random: &mut Random, state: &State, names: &Names, kind: Kind) -> Record {
    let name = names.unknown(random);
    match kind {
        Kind::Proposal => proposal(random, state, names, name),
        Kind::Vote => vote(random, state, name),
        Kind::Clock => clock(random, state),
        Kind::Propose => records::propose(state.own, name, random.bytes()),
        Kind::Cast => records::cast(state.own),
        Kind::Minute => records::minute(state.own),
    }
}

/// A new block on any one held or on the genesis, seldom on an unknown one.
fn proposal(random: &mut Random, state: &State, names: &Names, name: Name) -> Record {
    let place = if random.once_in(UNUSUAL) {
        GENESIS
    } else {
        Place(random.below(state.count + 1))
    };
    let parent = *state.row(place);
    let unknown = names.unknown(random);
    let parent_name = if random.once_in(UNUSUAL) {
        random.one_of(&[unknown, name])
    } else {
        parent.name
    };
    let ahead = random.weighted(&EPOCHS_AHEAD);
    let ahead = Epoch(parent.epoch.0.saturating_add(ahead));
    let mut epoch = random.weighted(&[
        (ahead, 6),
        (state.local, 3),
        (state.local.next(), 1),
        (LAST_BLOCK_EPOCH, 1),
    ]);
    // The own blocks are never heard from others.
    if proposer(state.n, epoch) == Some(state.own) && !random.once_in(UNUSUAL) {
        epoch = epoch.next();
    }
    let sender = proposer(state.n, epoch).unwrap_or(state.own);
    records::proposal(epoch, sender, name, parent_name, random.bytes())
}

/// Mostly a vote that isn't counted yet, often the one that makes a block firm.
fn vote(random: &mut Random, state: &State, unknown: Name) -> Record {
    let firm = Firm::of(state);
    let nearly_firm = |place: &Place| {
        let block = state.row(*place);
        block.voters.count() + 1 == quorum(state.n) && firm.holds(block.parent)
    };
    let mut places: Vec<Place> = state.places().filter(nearly_firm).collect();
    if places.is_empty() || random.once_in(2) {
        places = state.places().collect();
    }
    if places.is_empty() || random.once_in(UNUSUAL) {
        let name = random.one_of(&[unknown, Name::default()]);
        return records::vote(other_node(random, state, |_| true), name);
    }
    let block = *state.row(random.one_of(&places));
    let again = random.once_in(UNUSUAL);
    let voter = other_node(random, state, |node| again || !block.voters.contains(node));
    records::vote(voter, block.name)
}

/// A node other than the own one, such a one if there is any.
fn other_node(random: &mut Random, state: &State, such: impl Fn(NodeNo) -> bool) -> NodeNo {
    let nodes = (0..state.n).map(NodeNo);
    let others: Vec<NodeNo> = nodes.filter(|node| *node != state.own).collect();
    let such: Vec<NodeNo> = others.iter().copied().filter(|node| such(*node)).collect();
    match (others.is_empty(), such.is_empty()) {
        (true, _) => state.own,
        (false, true) => random.one_of(&others),
        (false, false) => random.one_of(&such),
    }
}

/// A clock that others keep already, or one near the local epoch or the freshest.
fn clock(random: &mut Random, state: &State) -> Record {
    let after_freshest = state.row(Firm::of(state).freshest).epoch.next();
    let others = state.clocks[random.below(state.n as usize)];
    let epoch = random.weighted(&[
        (others, 6),
        (state.local, 2),
        (state.local.next(), 3),
        (after_freshest, 2),
        (after_freshest.next(), 1),
        (LAST_EPOCH, 1),
    ]);
    let again = random.once_in(UNUSUAL);
    let sender = other_node(random, state, |node| again || state.clock(node) < epoch);
    records::clock(sender, epoch)
}
