//! Ways to break the shape of a state, one clause at a time.

use crate::state::{
    Block, Epoch, NodeNo, Place, State, FIRST_EPOCH, GENESIS, LAST_EPOCH, MAX_BLOCKS, MAX_NODES,
    NAME_LEN, NO_EPOCH, PAYLOAD_LEN,
};

use super::clauses::Clause;
use super::random::Random;
use super::states::LAST_BLOCK_EPOCH;

/// A state is broken in two ways or more once in so many times.
const SEVERAL: usize = 8;
const WAYS: [usize; 3] = [2, 3, 4];
/// What makes a number too large though its low bytes stay right.
const HIGH_BITS: [u32; 4] = [1 << 8, 1 << 16, 1 << 24, 1 << 31];
/// Where there are two ways to break a clause, the second comes once in so many times.
const OTHERWISE: usize = 3;

/// A way to break a clause; it does nothing where the state has no place for it.
pub type Break = fn(&mut Random, &mut State);

/// A way for each clause.
pub const BREAKS: [(Clause, Break); 14] = [
    (Clause::Nodes, nodes),
    (Clause::Own, own),
    (Clause::Count, count),
    (Clause::ZeroName, zero_name),
    (Clause::AlikeNames, alike_names),
    (Clause::ParentPlace, parent_place),
    (Clause::ParentEpoch, parent_epoch),
    (Clause::BlockEpoch, block_epoch),
    (Clause::Voters, voters),
    (Clause::Kept, kept),
    (Clause::Local, local),
    (Clause::UnusedPlaces, unused_places),
    (Clause::UnusedClocks, unused_clocks),
    (Clause::Genesis, genesis),
];

/// A way to leave something in a row that is all zero.
type Spoil = fn(&mut Random, &mut Block);

const SPOILS: [Spoil; 5] = [
    |random, row| row.name[random.below(NAME_LEN)] = any_bit(random),
    |random, row| row.payload[random.below(PAYLOAD_LEN)] = any_bit(random),
    |random, row| row.voters.insert(NodeNo(random.below(MAX_NODES) as u32)),
    |random, row| row.epoch = Epoch(1 << random.below(u32::BITS as usize)),
    |random, row| row.parent = Place(1 << random.below(u32::BITS as usize)),
];

/// Breaks a well-shaped state, mostly in one way only. No test of the shape says
/// when it is done, since such tests are what the state is for.
pub fn break_shape(random: &mut Random, state: &mut State) {
    let built = state.clone();
    if random.once_in(SEVERAL) {
        for _ in 0..random.one_of(&WAYS) {
            break_somehow(random, state);
        }
    }
    while *state == built {
        break_somehow(random, state);
    }
}

fn break_somehow(random: &mut Random, state: &mut State) {
    let (_, way) = random.one_of(&BREAKS);
    way(random, state);
}

fn any_bit(random: &mut Random) -> u8 {
    1 << random.below(u8::BITS as usize)
}

/// A number that is too large: the first such one, the next, the last, or one
/// that is right in its low bytes.
fn too_large(random: &mut Random, right: u32, first: u32) -> u32 {
    let high = right.wrapping_add(random.one_of(&HIGH_BITS));
    random.one_of(&[first, first.saturating_add(1), high, u32::MAX])
}

/// One of these, and the first and the last more often than those between.
fn edge_or_any(random: &mut Random, from: &[usize]) -> Option<usize> {
    let any = from[random.below(from.len().max(1))..].first()?;
    Some(random.one_of(&[*from.first()?, *from.last()?, *any]))
}

/// The place of a block held.
fn held(random: &mut Random, state: &State) -> Option<usize> {
    let held: Vec<usize> = state.places().map(|place| place.0).collect();
    edge_or_any(random, &held)
}

/// A number past those of the nodes that a set of voters and a clock could have.
fn past_nodes(random: &mut Random, state: &State) -> Option<NodeNo> {
    let past: Vec<usize> = (state.n as usize..MAX_NODES).collect();
    let node = edge_or_any(random, &past)?;
    Some(NodeNo(node as u32))
}

fn nodes(random: &mut Random, state: &mut State) {
    let large = too_large(random, state.n, MAX_NODES as u32 + 1);
    state.n = random.one_of(&[0, large, large]);
}

fn own(random: &mut Random, state: &mut State) {
    state.own = NodeNo(too_large(random, state.own.0, state.n));
}

fn count(random: &mut Random, state: &mut State) {
    let large = too_large(random, state.count as u32, MAX_BLOCKS as u32 + 1);
    state.count = large as usize;
}

/// A block's name is lost, or a row that was never filled counts as a block.
fn zero_name(random: &mut Random, state: &mut State) {
    if state.count < MAX_BLOCKS && random.once_in(OTHERWISE) {
        state.count += 1;
    } else if let Some(place) = held(random, state) {
        state.blocks[place].name = [0; NAME_LEN];
    }
}

fn alike_names(random: &mut Random, state: &mut State) {
    if let (Some(one), Some(other)) = (held(random, state), held(random, state)) {
        state.blocks[one].name = state.blocks[other].name;
    }
}

/// The parent at the block's own place or past it, also past the blocks held and
/// past the table; or at a later place whose epoch would do.
fn parent_place(random: &mut Random, state: &mut State) {
    let Some(place) = held(random, state) else {
        return;
    };
    let block = state.blocks[place];
    let later: Vec<usize> = (place..=MAX_BLOCKS).collect();
    let of_smaller_epoch = |later: &usize| state.blocks[*later].epoch < block.epoch;
    let smaller: Vec<usize> = later.iter().copied().filter(of_smaller_epoch).collect();
    let past_table = too_large(random, block.parent.0 as u32, MAX_BLOCKS as u32 + 1);
    let parents = [
        edge_or_any(random, &later),
        edge_or_any(random, &smaller),
        Some(past_table as usize),
    ];
    if let Some(parent) = random.one_of(&parents) {
        state.blocks[place].parent = Place(parent);
    }
}

/// A block's epoch no longer above its parent's: the block's is lowered, or the
/// parent's is raised.
fn parent_epoch(random: &mut Random, state: &mut State) {
    let on_blocks = state.places().map(|place| place.0);
    let on_blocks: Vec<usize> = on_blocks
        .filter(|place| (1..=MAX_BLOCKS).contains(&state.blocks[*place].parent.0))
        .collect();
    let Some(place) = edge_or_any(random, &on_blocks) else {
        return;
    };
    let block = state.blocks[place];
    let parent_epoch = state.row(block.parent).epoch;
    if random.once_in(2) {
        let lower = random.below(parent_epoch.0.max(1) as usize) as u32 + 1;
        state.blocks[place].epoch = random.one_of(&[parent_epoch, FIRST_EPOCH, Epoch(lower)]);
    } else {
        let higher = [block.epoch, block.epoch.next(), LAST_BLOCK_EPOCH];
        state.blocks[block.parent.0].epoch = random.one_of(&higher);
    }
}

fn block_epoch(random: &mut Random, state: &mut State) {
    if let Some(place) = held(random, state) {
        state.blocks[place].epoch = random.one_of(&[NO_EPOCH, LAST_EPOCH, LAST_EPOCH]);
    }
}

fn voters(random: &mut Random, state: &mut State) {
    if let (Some(place), Some(node)) = (held(random, state), past_nodes(random, state)) {
        state.blocks[place].voters.insert(node);
    }
}

fn kept(random: &mut Random, state: &mut State) {
    let first = (state.count as u32).saturating_add(1);
    let large = too_large(random, state.kept.0 as u32, first);
    let past_table = first.max(MAX_BLOCKS as u32 + 1);
    state.kept = Place(random.one_of(&[large, large, past_table]) as usize);
}

fn local(_: &mut Random, state: &mut State) {
    state.local = NO_EPOCH;
}

/// Something is left past the blocks, or a block counts no longer.
fn unused_places(random: &mut Random, state: &mut State) {
    let unused: Vec<usize> = (state.count.saturating_add(1)..=MAX_BLOCKS).collect();
    if state.count > 0 && random.once_in(OTHERWISE) {
        state.count -= 1;
    } else if let Some(place) = edge_or_any(random, &unused) {
        random.one_of(&SPOILS)(random, &mut state.blocks[place]);
    }
}

fn unused_clocks(random: &mut Random, state: &mut State) {
    if let Some(node) = past_nodes(random, state) {
        let clocks = [FIRST_EPOCH, state.local.max(FIRST_EPOCH), LAST_EPOCH];
        state.clocks[node.0 as usize] = random.one_of(&clocks);
    }
}

fn genesis(random: &mut Random, state: &mut State) {
    random.one_of(&SPOILS)(random, &mut state.blocks[GENESIS.0]);
}
