//! The start, and row 1: each clause of "well shaped" broken alone.

mod common;

use common::*;
use second::{final_list, well_shaped, Block, Epoch, NodeNo, Place, Refusal, State, Voters};

/// All six kinds, and bytes that no other row would let through.
fn any_record() -> Vec<Vec<u8>> {
    let whole = [
        proposal(2, 2, C, ZERO, PLAIN),
        vote(3, A),
        clock(1, 9),
        propose(0, C, PLAIN),
        cast(0),
        minute(0),
        [0xFF; 96],
    ];
    let mut records: Vec<Vec<u8>> = whole.iter().map(|record| record.to_vec()).collect();
    records.push(Vec::new());
    records
}

/// Expects 1 of every call on the session's state broken so.
#[track_caller]
fn broken(state: State) {
    assert!(!well_shaped(&state));
    let mut node = Node { state };
    for record in any_record() {
        node.refuse(&record, STATE);
        node.refuse_out(&record, 0, STATE);
    }
    let mut list = [UNTOUCHED; 2048];
    assert_eq!(final_list(&node.state, &mut list), Err(Refusal::State));
    assert_eq!(list, [UNTOUCHED; 2048]);
}

/// The session's state with one thing changed.
fn session_but(change: impl FnOnce(&mut State)) -> State {
    let mut state = Node::in_session(8).state;
    assert!(well_shaped(&state));
    change(&mut state);
    state
}

/// A chain of so many blocks with one thing changed.
fn chain_but(count: usize, change: impl FnOnce(&mut State)) -> State {
    let mut state = chain_of(count);
    change(&mut state);
    state
}

/// All ways for a row to hold just one thing that isn't zero.
fn single_contents() -> [Block; 5] {
    let zero = Block::ZERO;
    [
        Block {
            name: with_last_bit(),
            ..zero
        },
        Block {
            payload: ONES,
            ..zero
        },
        Block {
            voters: Voters(1),
            ..zero
        },
        Block {
            epoch: Epoch(1),
            ..zero
        },
        Block {
            parent: Place(1),
            ..zero
        },
    ]
}

fn with_last_bit() -> [u8; 32] {
    let mut name = ZERO;
    name[31] = 1;
    name
}

#[test]
fn the_fresh_state_is_local_1_and_all_else_zero() {
    let (answer, state) = State::start(32, 31);
    assert_eq!(answer, 0);
    let expected = State {
        n: 32,
        own: NodeNo(31),
        local: Epoch(1),
        ..State::zero()
    };
    assert_eq!(state, expected);
    assert!(well_shaped(&state));
}

#[test]
fn every_start_in_range_is_taken_and_no_other() {
    for n in 0..=40 {
        for own in 0..=40 {
            let (answer, state) = State::start(n, own);
            let in_range = (1..=32).contains(&n) && own < n;
            assert_eq!(answer, if in_range { 0 } else { START }, "{n} {own}");
            assert_eq!(well_shaped(&state), in_range, "{n} {own}");
        }
    }
}

#[test]
fn a_refused_start_gives_the_all_zero_state_which_every_call_refuses() {
    for (n, own) in [
        (0, 0),
        (33, 0),
        (255, 0),
        (256, 0),
        (u32::MAX, 1),
        (4, 4),
        (4, 5),
        (1, 256),
    ] {
        let (answer, state) = State::start(n, own);
        assert_eq!(answer, START, "{n} {own}");
        assert_eq!(state, State::zero());
        broken(state);
    }
}

#[test]
fn n_of_0_or_above_32() {
    for n in [0, 33, 200, u32::MAX] {
        broken(session_but(|state| state.n = n));
    }
}

#[test]
fn own_number_not_below_n() {
    for own in [4, 5, 31, 32, 300, u32::MAX] {
        broken(session_but(|state| state.own = NodeNo(own)));
    }
}

#[test]
fn more_than_64_blocks() {
    assert!(well_shaped(&chain_of(64)));
    for count in [65, 66, 1000, usize::MAX] {
        broken(chain_but(64, |state| state.count = count));
    }
}

#[test]
fn a_block_name_all_zero() {
    for place in 1..=3 {
        broken(chain_but(3, |state| state.blocks[place].name = ZERO));
    }
}

#[test]
fn two_block_names_alike() {
    for (one, other) in [(1, 2), (1, 64), (63, 64), (30, 7)] {
        broken(chain_but(64, |state| {
            state.blocks[one].name = state.blocks[other].name
        }));
    }
}

#[test]
fn a_parent_not_at_a_lower_place() {
    // Block 2 of the greatest epoch, so that only the places are wrong.
    for parent in [3, 4] {
        broken(chain_but(4, |state| {
            state.blocks[3].parent = Place(1);
            state.blocks[4].parent = Place(1);
            state.blocks[2].epoch = Epoch(9);
            assert!(well_shaped(state));
            state.blocks[2].parent = Place(parent);
        }));
    }
    for parent in [2, 5, 64, 65, usize::MAX] {
        broken(chain_but(4, |state| state.blocks[2].parent = Place(parent)));
    }
}

#[test]
fn a_parent_not_of_a_smaller_epoch() {
    for epoch in [3, 4, u32::MAX - 1] {
        broken(chain_but(3, |state| state.blocks[2].epoch = Epoch(epoch)));
    }
}

#[test]
fn a_block_epoch_out_of_range() {
    broken(chain_but(3, |state| state.blocks[1].epoch = Epoch(0)));
    assert!(well_shaped(
        &chain_but(3, |state| state.blocks[3].epoch = Epoch(u32::MAX - 1))
    ));
    broken(chain_but(3, |state| {
        state.blocks[3].epoch = Epoch(u32::MAX)
    }));
}

#[test]
fn a_voter_not_below_n() {
    assert!(well_shaped(
        &chain_but(3, |state| state.blocks[2].voters = Voters(0b1111))
    ));
    for voter in [4, 5, 31] {
        broken(chain_but(3, |state| {
            state.blocks[2].voters.insert(NodeNo(voter))
        }));
    }
    let all_32 = chain_but(3, |state| {
        state.n = 32;
        state.blocks[2].voters = Voters(u32::MAX);
    });
    assert!(well_shaped(&all_32));
}

#[test]
fn the_kept_final_place_past_the_blocks() {
    assert!(well_shaped(&session_but(|state| state.kept = Place(2))));
    for kept in [3, 64, 65, usize::MAX] {
        broken(session_but(|state| state.kept = Place(kept)));
    }
}

#[test]
fn local_epoch_0() {
    broken(session_but(|state| state.local = Epoch(0)));
}

#[test]
fn an_unused_table_place_not_zero() {
    for place in [3, 4, 63, 64] {
        for content in single_contents() {
            broken(session_but(|state| state.blocks[place] = content));
        }
    }
}

#[test]
fn an_unused_clock_not_zero() {
    for node in [4, 5, 31] {
        broken(session_but(|state| state.clocks[node] = Epoch(1)));
    }
    let used = session_but(|state| state.clocks[..4].fill(Epoch(u32::MAX)));
    assert!(well_shaped(&used));
}

#[test]
fn other_content_in_the_genesis_row() {
    for content in single_contents() {
        broken(session_but(|state| state.blocks[0] = content));
    }
}

#[test]
fn the_epochs_noted_and_the_tear_are_no_part_of_the_shape() {
    for epoch in [0, 7, u32::MAX] {
        assert!(well_shaped(&session_but(|state| {
            state.bar = Epoch(epoch);
            state.voted = Epoch(epoch);
            state.proposed = Epoch(epoch);
            state.torn = true;
        })));
    }
}
