//! What a record does: the fourteen rows, the direct effect, the five steps.

use crate::answer::{Refusal, TAKEN};
use crate::record::{Kind, Record, RECORD_LEN};
use crate::rules::{first_votable, is_or_descends, new_local, proposer, Firm};
use crate::state::{
    well_shaped, Block, Epoch, NodeNo, Place, State, Voters, GENESIS, LAST_EPOCH, MAX_BLOCKS,
    NO_EPOCH,
};

/// The direct effect of a record that no row refuses.
enum Effect {
    AddBlock(Block),
    CountVote(Place, NodeNo),
    KeepClock(NodeNo, Epoch),
    Propose(Block),
    Cast(Place),
    Minute,
}

/// One record. A refused one leaves the state and the out buffer the same.
pub fn step(state: &mut State, record: &[u8], out: &mut [u8]) -> u8 {
    if !well_shaped(state) {
        return Refusal::State.number();
    }
    step_shaped(state, record, out)
}

/// [`step`] for a caller whose state came from the start and from steps alone,
/// and so is well shaped: row 1 isn't tested again.
pub fn step_shaped(state: &mut State, record: &[u8], out: &mut [u8]) -> u8 {
    match rows(state, record, out.len()) {
        Ok(effect) => {
            if let Some(sent) = direct_effect(state, effect) {
                sent.write(out);
            }
            five_steps(state);
            TAKEN
        }
        Err(refusal) => refusal.number(),
    }
}

fn refuse_if(applies: bool, refusal: Refusal) -> Result<(), Refusal> {
    if applies {
        Err(refusal)
    } else {
        Ok(())
    }
}

/// Rows 2 to 6, then the kind's own rows. Rows stand in the table's order
/// everywhere, since "the answer is the lowest number that applies".
fn rows(state: &State, record: &[u8], out_len: usize) -> Result<Effect, Refusal> {
    refuse_if(state.torn, Refusal::Torn)?;
    let record = Record::read(record).ok_or(Refusal::Length)?;
    refuse_if(out_len != RECORD_LEN, Refusal::Length)?;
    let kind = Kind::read(record.kind).ok_or(Refusal::Kind)?;
    refuse_if(!record.unused_zero(kind), Refusal::Filler)?;
    // Others' records never come under the own number, the host's own always do.
    let from_own = record.sender == state.own;
    let refused = record.sender.0 >= state.n || from_own == kind.is_heard();
    refuse_if(refused, Refusal::Sender)?;
    match kind {
        Kind::Proposal => proposal_rows(state, &record),
        Kind::Vote => vote_rows(state, &record),
        Kind::Clock => clock_rows(state, &record),
        Kind::Propose => propose_rows(state, &record),
        Kind::Cast => cast_rows(state),
        Kind::Minute => minute_rows(state),
    }
}

fn proposal_rows(state: &State, record: &Record) -> Result<Effect, Refusal> {
    let out_of_range = record.epoch == NO_EPOCH || record.epoch == LAST_EPOCH;
    refuse_if(out_of_range, Refusal::Epoch)?;
    refuse_if(state.find(&record.name).is_some(), Refusal::Name)?;
    let parent = state.find(&record.parent).ok_or(Refusal::Unknown)?;
    refuse_if(record.epoch <= state.row(parent).epoch, Refusal::Order)?;
    let in_turn = proposer(state.n, record.epoch) == Some(record.sender);
    refuse_if(!in_turn, Refusal::Turn)?;
    refuse_if(state.count >= MAX_BLOCKS, Refusal::Full)?;
    Ok(Effect::AddBlock(new_block(record, record.epoch, parent)))
}

fn vote_rows(state: &State, record: &Record) -> Result<Effect, Refusal> {
    let place = state.find(&record.name).ok_or(Refusal::Unknown)?;
    // The genesis is notarized by decree: its name counts as unknown to a vote.
    refuse_if(place == GENESIS, Refusal::Unknown)?;
    let counted = state.row(place).voters.contains(record.sender);
    refuse_if(counted, Refusal::Repeat)?;
    Ok(Effect::CountVote(place, record.sender))
}

fn clock_rows(state: &State, record: &Record) -> Result<Effect, Refusal> {
    refuse_if(record.epoch == NO_EPOCH, Refusal::Epoch)?;
    let kept = state.clock(record.sender);
    refuse_if(record.epoch <= kept, Refusal::Repeat)?;
    Ok(Effect::KeepClock(record.sender, record.epoch))
}

fn propose_rows(state: &State, record: &Record) -> Result<Effect, Refusal> {
    refuse_if(state.local == LAST_EPOCH, Refusal::Epoch)?;
    refuse_if(state.find(&record.name).is_some(), Refusal::Name)?;
    let parent = Firm::of(state).freshest;
    refuse_if(state.local <= state.row(parent).epoch, Refusal::Order)?;
    let in_turn = proposer(state.n, state.local) == Some(state.own);
    refuse_if(!in_turn, Refusal::Turn)?;
    refuse_if(state.proposed == state.local, Refusal::Repeat)?;
    refuse_if(state.count >= MAX_BLOCKS, Refusal::Full)?;
    Ok(Effect::Propose(new_block(record, state.local, parent)))
}

fn cast_rows(state: &State) -> Result<Effect, Refusal> {
    let place = first_votable(state).ok_or(Refusal::Nothing)?;
    Ok(Effect::Cast(place))
}

fn minute_rows(state: &State) -> Result<Effect, Refusal> {
    refuse_if(state.local == LAST_EPOCH, Refusal::Epoch)?;
    let said = state.clock(state.own) >= state.local.next();
    refuse_if(said, Refusal::Repeat)?;
    Ok(Effect::Minute)
}

/// A block of this record's name and payload, with no voters.
fn new_block(record: &Record, epoch: Epoch, parent: Place) -> Block {
    Block {
        name: record.name,
        payload: record.payload,
        voters: Voters::default(),
        epoch,
        parent,
    }
}

/// "First the direct effect"; returns the record to send, if the kind sends one.
fn direct_effect(state: &mut State, effect: Effect) -> Option<Record> {
    match effect {
        Effect::AddBlock(block) => {
            add_block(state, block);
            None
        }
        Effect::CountVote(place, voter) => {
            count_vote(state, place, voter);
            None
        }
        Effect::KeepClock(node, clock) => {
            keep_clock(state, node, clock);
            None
        }
        Effect::Propose(block) => Some(propose(state, block)),
        Effect::Cast(place) => Some(cast(state, place)),
        Effect::Minute => Some(minute(state)),
    }
}

fn add_block(state: &mut State, block: Block) {
    let place = state.count.saturating_add(1);
    if let Some(row) = state.blocks.get_mut(place) {
        *row = block;
        state.count = place;
    }
}

fn count_vote(state: &mut State, place: Place, voter: NodeNo) {
    if let Some(block) = state.blocks.get_mut(place.0) {
        block.voters.insert(voter);
    }
}

fn keep_clock(state: &mut State, node: NodeNo, clock: Epoch) {
    if let Some(kept) = state.clocks.get_mut(node.0 as usize) {
        *kept = clock;
    }
}

fn propose(state: &mut State, block: Block) -> Record {
    add_block(state, block);
    state.proposed = state.local;
    Record {
        kind: Kind::Proposal.number(),
        sender: state.own,
        epoch: block.epoch,
        name: block.name,
        parent: state.row(block.parent).name,
        payload: block.payload,
        ..Record::default()
    }
}

fn cast(state: &mut State, place: Place) -> Record {
    count_vote(state, place, state.own);
    state.voted = state.local;
    Record {
        kind: Kind::Vote.number(),
        sender: state.own,
        name: state.row(place).name,
        ..Record::default()
    }
}

fn minute(state: &mut State) -> Record {
    let clock = state.local.next();
    keep_clock(state, state.own, clock);
    Record {
        kind: Kind::Clock.number(),
        sender: state.own,
        epoch: clock,
        ..Record::default()
    }
}

/// "Then, always in this order": firm, freshest, local epoch, bar, final block.
fn five_steps(state: &mut State) {
    let firm = Firm::of(state);
    let local = new_local(state, firm.freshest);
    if local > state.local {
        state.local = local;
        state.bar = state.row(firm.freshest).epoch;
    }
    keep_final(state, firm.candidate);
}

/// The fifth step: the candidate is kept, or the kept one stays, or it tears.
fn keep_final(state: &mut State, candidate: Place) {
    if is_or_descends(state, candidate, state.kept) {
        state.kept = candidate;
    } else if !is_or_descends(state, state.kept, candidate) {
        state.torn = true;
    }
}
