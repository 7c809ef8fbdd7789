//! What a taken record does: direct effects and the five steps.

mod common;

use common::*;
use second::rules::{agreed_clock, is_or_descends, new_local, normal, notarized, quorum, Firm};
use second::state::GENESIS;
use second::{Block, Epoch, NodeNo, Place, State, Voters};

/// All four nodes' votes.
const ALL: Voters = Voters(0b1111);

/// Quorums of the scope: n and q.
const QUORUMS: [(u32, u8); 9] = [
    (1, 1),
    (2, 2),
    (3, 2),
    (4, 3),
    (5, 4),
    (6, 4),
    (7, 5),
    (31, 21),
    (32, 22),
];

fn freshest_of(state: &State) -> Place {
    Firm::of(state).freshest
}

/// A row hung under a parent place.
fn block(name: [u8; 32], epoch: u32, parent: usize, voters: Voters) -> Block {
    Block {
        name,
        payload: PLAIN,
        voters,
        epoch: Epoch(epoch),
        parent: Place(parent),
    }
}

/// A state of node 0 of 4 with these blocks, in the local epoch given.
fn state_of(local: u32, blocks: &[Block]) -> Node {
    let mut node = Node::start(4, 0);
    node.state.local = Epoch(local);
    node.state.blocks[1..=blocks.len()].copy_from_slice(blocks);
    node.state.count = blocks.len();
    assert!(second::well_shaped(&node.state));
    node
}

/// The place of the candidate where these blocks are held.
fn candidate_of(blocks: &[Block]) -> usize {
    Firm::of(&state_of(9, blocks).state).candidate.0
}

/// A state of node 0 that keeps these clocks, one of each node.
fn keeping(clocks: &[u32]) -> State {
    let mut state = Node::start(clocks.len() as u32, 0).state;
    for (kept, clock) in state.clocks.iter_mut().zip(clocks) {
        *kept = Epoch(*clock);
    }
    state
}

#[test]
fn kind_1_adds_the_block_with_no_voters_and_nothing_else() {
    let mut node = Node::in_session(8);
    let mut expected = node.state.clone();
    node.take(&proposal(3, 3, C, A, ONES));
    expected.count = 3;
    expected.blocks[3] = Block {
        payload: ONES,
        ..block(C, 3, 1, Voters(0))
    };
    assert_eq!(node.state, expected);
}

#[test]
fn kind_2_adds_a_voter_and_nothing_else() {
    let mut node = Node::in_session(1);
    let mut expected = node.state.clone();
    node.take(&vote(3, A));
    expected.blocks[1].voters.insert(NodeNo(3));
    assert_eq!(node.state, expected);
}

#[test]
fn kind_3_keeps_the_clock_and_nothing_else() {
    let mut node = Node::in_session(8);
    let mut expected = node.state.clone();
    node.take(&clock(2, 7));
    expected.clocks[2] = Epoch(7);
    assert_eq!(node.state, expected);
    node.take(&clock(2, 9));
    expected.clocks[2] = Epoch(9);
    assert_eq!(node.state, expected);
}

#[test]
fn kind_4_adds_a_block_of_the_local_epoch_on_the_freshest() {
    let mut node = Node::in_session(8);
    node.take_all(&[clock(1, 4), clock(2, 4), clock(3, 4)]);
    let mut expected = node.state.clone();
    node.take(&propose(0, D, ONES));
    expected.count = 3;
    expected.proposed = Epoch(4);
    expected.blocks[3] = Block {
        payload: ONES,
        ..block(D, 4, 2, Voters(0))
    };
    assert_eq!(node.state, expected);
}

#[test]
fn kind_5_counts_the_own_vote_at_the_lowest_place() {
    let mut node = Node::start(4, 0);
    node.take(&proposal(2, 2, B, ZERO, PLAIN));
    node.take(&proposal(1, 1, A, ZERO, PLAIN));
    node.take(&proposal(1, 1, A2, ZERO, ONES));
    let mut expected = node.state.clone();
    assert_eq!(node.take(&cast(0)), vote(0, A));
    expected.blocks[2].voters.insert(NodeNo(0));
    expected.voted = Epoch(1);
    assert_eq!(node.state, expected);
}

#[test]
fn kind_6_keeps_local_plus_1_as_own_clock() {
    let mut node = Node::in_session(8);
    let mut expected = node.state.clone();
    node.take(&minute(0));
    expected.clocks[0] = Epoch(4);
    assert_eq!(node.state, expected);
}

#[test]
fn quorums_of_the_scope() {
    for (n, q) in QUORUMS {
        assert_eq!(quorum(n), u32::from(q), "n = {n}");
    }
}

#[test]
fn quorums_at_work() {
    for (n, q) in QUORUMS {
        let mut node = Node::start(n, 0);
        if n == 1 {
            node.take(&propose(0, A, PLAIN));
        } else {
            node.take(&proposal(1, 1, A, ZERO, PLAIN));
        }
        for votes in 1..=q {
            assert!(!notarized(&node.state, Place(1)), "n = {n}");
            let record = if votes == 1 {
                cast(0)
            } else {
                vote(votes - 1, A)
            };
            node.take(&record);
        }
        assert!(notarized(&node.state, Place(1)), "n = {n}");
        assert_eq!(node.numbers(), (2, 1, 0), "n = {n}");
    }
}

#[test]
fn clock_quorums_at_work() {
    for (n, q) in QUORUMS {
        let mut node = Node::start(n, 0);
        for clocks in 1..=q {
            assert_eq!(node.numbers(), (1, 0, 0), "n = {n}");
            let record = if clocks == 1 {
                minute(0)
            } else {
                clock(clocks - 1, 2)
            };
            node.take(&record);
        }
        assert_eq!(node.numbers(), (2, 0, 0), "n = {n}");
    }
}

#[test]
fn a_clock_counts_for_lower_numbers_too() {
    let mut node = Node::start(4, 0);
    node.take_all(&[clock(1, 5), clock(2, 6)]);
    assert_eq!(node.numbers(), (1, 0, 0));
    // 5, 6 and 7: three have 5 or more, two 6 or more.
    node.take(&clock(3, 7));
    assert_eq!(agreed_clock(&node.state), Epoch(5));
    assert_eq!(node.numbers(), (5, 0, 0));
    // 7, 6 and 7, then 7 three times.
    node.take(&clock(1, 7));
    assert_eq!(node.numbers(), (6, 0, 0));
    node.take(&clock(2, 7));
    assert_eq!(node.numbers(), (7, 0, 0));
}

#[test]
fn a_hall_leaves_its_epoch_though_one_clock_has_moved_on() {
    let mut node = Node::in_session(8);
    node.take_all(&[clock(1, 7), clock(2, 7), clock(3, 7)]);
    assert_eq!(node.numbers(), (7, 2, 1));
    // Node 2's clock goes from 8 to 9, the own one is 8: two have 8 or more.
    node.take_all(&[clock(2, 8), clock(2, 9), minute(0)]);
    assert_eq!(node.numbers(), (7, 2, 1));
    // 8, 8, 9 and 7: three have 8 or more, one 9.
    node.take(&clock(1, 8));
    assert_eq!(node.numbers(), (8, 2, 1));
    // Epoch 8 of four nodes is the own turn.
    node.take(&propose(0, C, PLAIN));
}

#[test]
fn of_clocks_that_all_differ_the_qth_highest_is_agreed() {
    // 1 to 4: three have 2 or more. 1 to 7: five have 3 or more. 1 to 32: 22 have 11
    // or more. Which node has which makes no difference.
    for (n, step, agreed) in [(4, 3, 2), (7, 3, 3), (32, 5, 11)] {
        let mut clocks: Vec<u32> = (0..n).map(|node| node * step % n + 1).collect();
        for _ in 0..n {
            assert_eq!(agreed_clock(&keeping(&clocks)), Epoch(agreed), "{clocks:?}");
            clocks.rotate_left(1);
        }
        clocks.sort();
        assert_eq!(clocks, (1..=n).collect::<Vec<u32>>());
    }
}

#[test]
fn clocks_that_all_differ_move_the_local_epoch() {
    // Clock 2n from node 1, one less from each next node, q of them in all.
    for (n, q, lowest) in [(4, 3, 6), (7, 5, 10), (32, 22, 43)] {
        let mut node = Node::start(n, 0);
        for sender in 1..=q {
            assert_eq!(node.numbers(), (1, 0, 0), "n = {n}");
            node.take(&clock(sender, 2 * n + 1 - u32::from(sender)));
        }
        assert_eq!(node.numbers(), (lowest, 0, 0), "n = {n}");
    }
}

#[test]
fn one_short_of_a_quorum_moves_nothing_however_high_its_clocks() {
    for (n, q) in QUORUMS {
        let mut node = Node::start(n, 0);
        for sender in 1..q {
            node.take(&clock(sender, u32::MAX));
            assert_eq!(node.numbers(), (1, 0, 0), "n = {n}");
        }
        assert_eq!(agreed_clock(&node.state), Epoch(0), "n = {n}");
        // The own clock of 2 makes a quorum, which has 2 or more.
        node.take(&minute(0));
        assert_eq!(node.numbers(), (2, 0, 0), "n = {n}");
    }
}

#[test]
fn the_own_clock_counts_like_any_other() {
    let mut node = Node::start(4, 0);
    node.take_all(&[clock(1, 9), clock(2, 4)]);
    assert_eq!(node.numbers(), (1, 0, 0));
    // Own clocks of 2, 3 and 4 are the third highest; of 5 it is the second.
    for (own, local) in [(2, 2), (3, 3), (4, 4), (5, 4)] {
        node.take(&minute(0));
        assert_eq!(node.state.clocks[0], Epoch(own));
        assert_eq!(node.numbers(), (local, 0, 0));
    }
    node.refuse(&minute(0), REPEAT);
}

#[test]
fn one_two_and_three_nodes_agree_on_a_clock() {
    // Quorums of 1, 2 and 2: the only one, the lower, the one in the middle.
    let kept: [(&[u32], u32); 8] = [
        (&[0], 0),
        (&[9], 9),
        (&[9, 0], 0),
        (&[9, 4], 4),
        (&[4, 9], 4),
        (&[0, 9, 0], 0),
        (&[0, 9, 4], 4),
        (&[6, 9, 4], 6),
    ];
    for (clocks, agreed) in kept {
        assert_eq!(agreed_clock(&keeping(clocks)), Epoch(agreed), "{clocks:?}");
    }
}

#[test]
fn clocks_reach_the_last_epoch() {
    let last = u32::MAX;
    let mut node = Node::start(4, 0);
    node.take_all(&[clock(1, last), clock(2, last), clock(3, last - 1)]);
    assert_eq!(node.numbers(), (last - 1, 0, 0));
    node.take(&minute(0));
    assert_eq!(node.numbers(), (last, 0, 0));
    node.take(&clock(3, last));
    assert_eq!(node.numbers(), (last, 0, 0));
}

#[test]
fn without_a_quorum_of_clocks_the_agreed_one_is_0() {
    assert_eq!(agreed_clock(&Node::start(4, 0).state), Epoch(0));
    assert_eq!(agreed_clock(&keeping(&[0, 9, 9, 0])), Epoch(0));
}

#[test]
fn clocks_of_numbers_at_or_above_n_do_not_count() {
    let mut state = keeping(&[9, 9, 3, 0]);
    state.clocks[4..].fill(Epoch(9));
    assert_eq!(agreed_clock(&state), Epoch(3));
}

#[test]
fn an_agreed_clock_of_any_count_is_worked_out() {
    let mut state = keeping(&[7; 32]);
    // Past 32 there are no clocks: quorums of 22 and 32 find enough, one of 33 doesn't.
    for (n, agreed) in [(0, 0), (33, 7), (48, 7), (49, 0), (u32::MAX, 0)] {
        state.n = n;
        assert_eq!(agreed_clock(&state), Epoch(agreed), "n = {n}");
    }
}

#[test]
fn an_agreed_clock_stays_agreed_and_local_never_falls() {
    let mut node = Node::start(4, 0);
    node.take_all(&[clock(1, 3), clock(2, 3), clock(3, 3)]);
    // Two move on: three still have 3 or more.
    node.take_all(&[clock(3, 9), clock(2, 4)]);
    assert_eq!(agreed_clock(&node.state), Epoch(3));
    assert_eq!(node.numbers(), (3, 0, 0));
}

#[test]
fn a_clock_below_the_local_epoch_is_taken() {
    let mut node = Node::in_session(8);
    node.take_all(&[clock(1, 1), clock(2, 1), clock(3, 1)]);
    assert_eq!(agreed_clock(&node.state), Epoch(1));
    assert_eq!(node.numbers(), (3, 2, 1));
}

#[test]
fn the_greatest_of_three_is_the_local_epoch() {
    // An agreed clock of 9 waits in the state beside a freshest epoch of 5.
    let mut node = state_of(1, &[block(A, 5, 0, ALL)]);
    node.state.clocks[..4].fill(Epoch(9));
    node.take(&clock(1, 10));
    assert_eq!(node.numbers(), (9, 5, 0));
    let mut node = state_of(1, &[block(A, 5, 0, ALL)]);
    node.state.clocks[..4].fill(Epoch(3));
    node.take(&clock(1, 4));
    assert_eq!(node.numbers(), (6, 5, 0));
}

#[test]
fn the_old_local_epoch_may_be_the_greatest() {
    let mut node = state_of(9, &[block(A, 5, 0, ALL)]);
    node.state.clocks[..4].fill(Epoch(8));
    assert_eq!(new_local(&node.state, Place(1)), Epoch(9));
}

#[test]
fn the_bar_moves_only_when_the_local_epoch_rises() {
    let mut node = state_of(9, &[block(A, 5, 0, Voters(0b0011))]);
    node.take(&vote(2, A));
    // A got the freshest, but the local epoch is past it.
    assert_eq!(freshest_of(&node.state), Place(1));
    assert_eq!(node.numbers(), (9, 0, 0));
    node.take_all(&[clock(1, 10), clock(2, 10), clock(3, 10)]);
    assert_eq!(node.numbers(), (10, 5, 0));
}

#[test]
fn a_bar_above_the_freshest_falls_when_the_local_epoch_rises() {
    let mut node = Node::in_session(8);
    node.state.bar = Epoch(77);
    node.take_all(&[clock(1, 5), clock(2, 5)]);
    assert_eq!(node.numbers(), (3, 77, 1));
    node.take(&clock(3, 5));
    assert_eq!(node.numbers(), (5, 2, 1));
}

#[test]
fn the_local_epoch_reaches_the_last_and_does_not_wrap() {
    let last_block = u32::MAX - 1;
    let mut node = state_of(1, &[block(A, last_block, 0, Voters(0b0011))]);
    node.take(&vote(2, A));
    assert_eq!(node.numbers(), (u32::MAX, last_block, 0));
    node.take(&vote(3, A));
    assert_eq!(node.numbers(), (u32::MAX, last_block, 0));
}

#[test]
fn of_equal_epochs_the_lowest_place_is_freshest() {
    let node = state_of(
        9,
        &[
            block(A, 1, 0, ALL),
            block(B, 3, 0, Voters(0)),
            block(C, 3, 1, ALL),
            block(D, 3, 0, ALL),
        ],
    );
    assert_eq!(freshest_of(&node.state), Place(3));
}

#[test]
fn a_lower_epoch_at_a_higher_place_is_not_fresher() {
    let node = state_of(9, &[block(A, 5, 0, ALL), block(B, 4, 0, ALL)]);
    assert_eq!(freshest_of(&node.state), Place(1));
}

#[test]
fn with_no_firm_block_the_genesis_is_freshest() {
    let node = state_of(9, &[block(A, 5, 0, Voters(0b11))]);
    assert_eq!(freshest_of(&node.state), GENESIS);
    assert!(notarized(&node.state, GENESIS));
}

#[test]
fn firm_reads_down_all_ancestors() {
    let mut blocks = vec![block(numbered(1), 1, 0, ALL)];
    for place in 2..=64 {
        blocks.push(block(numbered(place), place, place as usize - 1, ALL));
    }
    assert!(Firm::of(&state_of(65, &blocks).state).holds(Place(64)));
    blocks[0].voters = Voters(0b11);
    let firm = Firm::of(&state_of(65, &blocks).state);
    assert!((1..=64).all(|place| !firm.holds(Place(place))));
    assert!(firm.holds(GENESIS));
}

#[test]
fn normal_is_the_parents_epoch_plus_1() {
    let node = state_of(
        9,
        &[
            block(A, 1, 0, ALL),
            block(B, 2, 1, ALL),
            block(C, 4, 2, ALL),
        ],
    );
    let normals = [0, 1, 2, 3].map(|place| normal(&node.state, Place(place)));
    assert_eq!(normals, [false, true, true, false]);
}

#[test]
fn the_candidate_is_the_parent_of_the_last_normal_block() {
    let blocks = [
        block(A, 1, 0, ALL),
        block(B, 2, 1, ALL),
        block(C, 4, 2, ALL),
        block(D, 8, 0, ALL),
    ];
    // C and D are no normal blocks, so that B stays the last one.
    let candidates = [0, 1, 2, 3, 4].map(|held| candidate_of(&blocks[..held]));
    assert_eq!(candidates, [0, 0, 1, 1, 1]);
}

#[test]
fn the_highest_epoch_gives_the_candidate_whatever_its_place() {
    let first = [
        block(A, 4, 0, ALL),
        block(B, 5, 1, ALL),
        block(C, 1, 0, ALL),
        block(D, 2, 3, ALL),
    ];
    assert_eq!(candidate_of(&first), 1);
    let last = [
        block(C, 1, 0, ALL),
        block(D, 2, 1, ALL),
        block(A, 4, 0, ALL),
        block(B, 5, 3, ALL),
    ];
    assert_eq!(candidate_of(&last), 3);
}

#[test]
fn the_candidate_need_not_be_on_the_freshest_chain() {
    // C of epoch 3 is freshest and stands on A beside B.
    let blocks = [
        block(A, 1, 0, ALL),
        block(B, 2, 1, ALL),
        block(C, 3, 1, ALL),
    ];
    assert_eq!(freshest_of(&state_of(9, &blocks).state), Place(3));
    assert_eq!(candidate_of(&blocks), 1);
}

#[test]
fn of_equal_epochs_the_lowest_place_gives_the_candidate() {
    for [first, second] in [[1, 2], [2, 1]] {
        let mut blocks = [
            block(A, 1, 0, ALL),
            block(A2, 1, 0, ALL),
            block(B, 2, first, ALL),
            block(D2, 2, second, ALL),
        ];
        assert_eq!(candidate_of(&blocks), first);
        // Where B isn't firm, the other one is the lowest place.
        blocks[2].voters = Voters(0b11);
        assert_eq!(candidate_of(&blocks), second);
    }
}

#[test]
fn a_normal_block_that_is_not_firm_gives_no_candidate() {
    let mut blocks = [
        block(A, 1, 0, ALL),
        block(B, 2, 1, ALL),
        block(C, 3, 2, Voters(0b11)),
    ];
    assert_eq!(candidate_of(&blocks), 1);
    blocks[2].voters = Voters(0b111);
    assert_eq!(candidate_of(&blocks), 2);
    // B and C have all votes they need, but A lacks one.
    blocks[0].voters = Voters(0b11);
    assert_eq!(candidate_of(&blocks), 0);
}

#[test]
fn with_no_firm_normal_block_the_genesis_is_the_candidate() {
    assert_eq!(candidate_of(&[]), 0);
    // The genesis is no normal block; A's epoch isn't 1, nor C's 3.
    let blocks = [
        block(A, 2, 0, ALL),
        block(B, 3, 1, Voters(0)),
        block(C, 4, 1, ALL),
    ];
    assert_eq!(candidate_of(&blocks), 0);
}

#[test]
fn descent_goes_by_the_tables_parents_firm_or_not() {
    let node = state_of(
        9,
        &[
            block(A, 1, 0, Voters(0)),
            block(B, 2, 1, ALL),
            block(C, 3, 0, ALL),
        ],
    );
    assert!(is_or_descends(&node.state, Place(2), Place(1)));
    assert!(is_or_descends(&node.state, Place(2), Place(2)));
    assert!(is_or_descends(&node.state, Place(2), GENESIS));
    assert!(!is_or_descends(&node.state, Place(1), Place(2)));
    assert!(!is_or_descends(&node.state, Place(3), Place(1)));
}

#[test]
fn the_final_block_moves_along_the_chain() {
    let mut node = Node::in_session(8);
    node.take(&proposal(3, 3, C, B, PLAIN));
    node.take_all(&[vote(1, C), vote(2, C), vote(3, C)]);
    assert_eq!(node.final_names(), [A, B]);
    assert_eq!(node.state.kept, Place(2));
}

#[test]
fn several_blocks_get_final_at_once() {
    let mut node = Node::start(4, 0);
    node.take(&proposal(1, 1, A, ZERO, PLAIN));
    node.take(&proposal(2, 2, B, A, PLAIN));
    node.take(&proposal(3, 3, C, B, PLAIN));
    for name in [C, B] {
        node.take_all(&[vote(1, name), vote(2, name), vote(3, name)]);
    }
    node.take_all(&[vote(1, A), vote(2, A)]);
    assert_eq!(node.numbers(), (1, 0, 0));
    node.take(&vote(3, A));
    assert_eq!(node.numbers(), (4, 3, 2));
    assert_eq!(node.final_names(), [A, B]);
}

#[test]
fn two_proposals_for_one_epoch_and_for_epochs_long_past_are_stored() {
    let mut node = Node::in_session(8);
    node.take_all(&[clock(1, 99), clock(2, 99), clock(3, 99)]);
    node.take(&proposal(1, 1, A2, ZERO, ONES));
    node.take(&proposal(1, 1, E2, ZERO, ONES));
    assert_eq!(node.state.count, 4);
    assert_eq!(node.numbers(), (99, 2, 1));
}

#[test]
fn voted_forbids_only_where_it_equals_the_local_epoch() {
    for (voted, answer) in [(0, 0), (1, 13), (2, 0), (u32::MAX, 0)] {
        let mut node = Node::in_session(1);
        node.state.voted = Epoch(voted);
        match answer {
            0 => assert_eq!(node.take(&cast(0)), vote(0, A)),
            refusal => node.refuse(&cast(0), refusal),
        }
    }
}

#[test]
fn a_cast_on_a_block_with_the_own_vote_is_taken() {
    let mut node = Node::in_session(2);
    node.state.voted = Epoch(0);
    let mut expected = node.state.clone();
    assert_eq!(node.take(&cast(0)), vote(0, A));
    expected.voted = Epoch(1);
    assert_eq!(node.state, expected);
}

#[test]
fn a_local_epoch_behind_the_freshest_catches_up_on_any_record() {
    let mut node = state_of(1, &[block(A, 1, 0, ALL), block(B, 2, 1, ALL)]);
    node.take(&clock(3, 1));
    assert_eq!(node.numbers(), (3, 2, 1));
}

#[test]
fn a_kept_block_that_is_not_firm_is_taken_as_it_stands() {
    // The kept C lies beside the candidate A: the next record tears.
    let blocks = [
        block(A, 1, 0, ALL),
        block(B, 2, 1, ALL),
        block(C, 1, 0, Voters(0)),
    ];
    let mut node = state_of(3, &blocks);
    node.state.kept = Place(3);
    node.take(&clock(1, 1));
    assert!(node.state.torn);
    assert_eq!(node.final_names(), [C]);
    // Kept at B, which descends from the candidate A, it stays.
    let mut node = state_of(3, &blocks);
    node.state.kept = Place(2);
    node.take(&clock(1, 1));
    assert!(!node.state.torn);
    assert_eq!(node.final_names(), [A, B]);
}

#[test]
fn alone_a_node_fills_its_table_and_finalizes() {
    let mut node = Node::start(1, 0);
    for number in 1..=64 {
        node.take(&propose(0, numbered(number), PLAIN));
        node.take(&cast(0));
        assert_eq!(node.numbers(), (number + 1, number, number as usize - 1));
    }
    node.refuse(&propose(0, A, PLAIN), FULL);
    let expected: Vec<_> = (1..=63).map(numbered).collect();
    assert_eq!(node.final_names(), expected);
}
