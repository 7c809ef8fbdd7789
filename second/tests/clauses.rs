//! The clauses of "well shaped" one by one, and the ways to break each.

mod common;

use common::*;
use second::trials::breaks::{break_shape, BREAKS};
use second::trials::clauses::{broken, Clause};
use second::trials::random::Random;
use second::trials::states::any_state;
use second::{well_shaped, Block, Epoch, NodeNo, Place, State, Voters};

const STATES: u64 = 3_000;

/// A change to a state.
type Change = fn(&mut State);

/// The clauses that a chain of so many blocks breaks with one thing changed.
fn broken_by(count: usize, change: impl FnOnce(&mut State)) -> Vec<Clause> {
    let mut state = chain_of(count);
    assert!(broken(&state).is_empty());
    change(&mut state);
    broken(&state)
}

#[test]
fn each_clause_can_be_the_only_one_broken() {
    let changes: [(Clause, Change); 14] = [
        (Clause::Nodes, |state| state.n = 33),
        (Clause::Own, |state| state.own = NodeNo(4)),
        (Clause::Count, |state| state.count = 65),
        (Clause::ZeroName, |state| state.blocks[64].name = ZERO),
        (Clause::AlikeNames, |state| {
            state.blocks[1].name = numbered(64)
        }),
        (Clause::ParentPlace, |state| {
            state.blocks[64].parent = Place(65)
        }),
        (Clause::ParentEpoch, |state| {
            state.blocks[64].epoch = Epoch(63)
        }),
        (Clause::BlockEpoch, |state| {
            state.blocks[64].epoch = Epoch(u32::MAX)
        }),
        (Clause::Voters, |state| {
            state.blocks[1].voters = Voters(0b1_0000)
        }),
        (Clause::Kept, |state| state.kept = Place(65)),
        (Clause::Local, |state| state.local = Epoch(0)),
        (Clause::UnusedPlaces, |state| {
            state.blocks[64].parent = Place(63);
            state.count = 63;
        }),
        (Clause::UnusedClocks, |state| state.clocks[4] = Epoch(1)),
        (Clause::Genesis, |state| {
            state.blocks[0].voters = Voters(1);
        }),
    ];
    for (index, (clause, change)) in changes.into_iter().enumerate() {
        assert_eq!(Clause::ALL[index], clause);
        assert_eq!(broken_by(64, change), [clause]);
    }
}

#[test]
fn some_breaks_break_two_clauses() {
    // No own number is below 0, and no epoch is smaller than 0 or than itself.
    let no_nodes = broken_by(3, |state| state.n = 0);
    assert_eq!(no_nodes, [Clause::Nodes, Clause::Own]);
    let own_parent = broken_by(3, |state| state.blocks[3].parent = Place(3));
    assert_eq!(own_parent, [Clause::ParentPlace, Clause::ParentEpoch]);
    let no_epoch = broken_by(3, |state| state.blocks[3].epoch = Epoch(0));
    assert_eq!(no_epoch, [Clause::ParentEpoch, Clause::BlockEpoch]);
}

#[test]
fn a_count_past_the_table_is_no_reason_to_look_past_it() {
    for count in [65, 66, 1 << 8, u32::MAX as usize] {
        assert_eq!(broken_by(64, |state| state.count = count), [Clause::Count]);
    }
    let few = broken_by(63, |state| state.count = usize::MAX);
    assert!(few.contains(&Clause::Count) && few.contains(&Clause::ZeroName));
}

#[test]
fn every_row_past_the_blocks_and_the_genesis_is_looked_at() {
    let contents = [
        Block {
            name: numbered(0),
            ..Block::ZERO
        },
        Block {
            payload: ONES,
            ..Block::ZERO
        },
        Block {
            voters: Voters(1 << 31),
            ..Block::ZERO
        },
        Block {
            epoch: Epoch(1 << 31),
            ..Block::ZERO
        },
        Block {
            parent: Place(1 << 31),
            ..Block::ZERO
        },
    ];
    for content in contents {
        for place in [3, 30, 64] {
            let unused = broken_by(2, |state| state.blocks[place] = content);
            assert_eq!(unused, [Clause::UnusedPlaces]);
        }
        let genesis = broken_by(0, |state| state.blocks[0] = content);
        assert_eq!(genesis, [Clause::Genesis]);
    }
}

#[test]
fn built_states_are_well_shaped_and_broken_ones_are_not() {
    for index in 0..STATES {
        let mut random = Random::new(7, index);
        let (mut state, _) = any_state(&mut random);
        assert!(well_shaped(&state), "{index}");
        assert_eq!(broken(&state), [], "{index}");
        break_shape(&mut random, &mut state);
        assert!(!well_shaped(&state), "{index}");
        assert_ne!(broken(&state), [], "{index}");
    }
}

#[test]
fn a_way_to_break_a_clause_breaks_it_or_does_nothing() {
    let mut alone = [0; BREAKS.len()];
    for index in 0..STATES / 4 {
        for (way, (clause, break_it)) in BREAKS.into_iter().enumerate() {
            let mut random = Random::new(8, index);
            let (built, _) = any_state(&mut random);
            let mut state = built.clone();
            break_it(&mut random, &mut state);
            let broken = broken(&state);
            assert_eq!(well_shaped(&state), broken.is_empty());
            assert!(state == built || broken.contains(&clause), "{clause:?}");
            alone[way] += usize::from(broken == [clause]);
        }
    }
    assert!(alone.iter().all(|times| *times >= 20), "{alone:?}");
}
