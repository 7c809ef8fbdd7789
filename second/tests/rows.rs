//! The answer table: rows 2 to 14 for every kind they name, and their order.

mod common;

use common::*;
use second::{Epoch, NodeNo, Place, State, Voters};

const LAST: u32 = u32::MAX;

/// Where each kind's used fields lie, after kind and sender.
fn used_bytes(kind: u8) -> Vec<std::ops::Range<usize>> {
    let (epoch, name, parent, payload) = (4..8, 8..40, 40..72, 72..96);
    match kind {
        1 => vec![epoch, name, parent, payload],
        2 => vec![name],
        3 => vec![epoch],
        4 => vec![name, payload],
        _ => vec![],
    }
}

/// A record of each kind that the fresh node 0 of 4 refuses under no row up to 6.
fn plain_records() -> [Bytes; 6] {
    [
        proposal(1, 1, A, ZERO, PLAIN),
        vote(1, A),
        clock(1, 1),
        propose(0, A, PLAIN),
        cast(0),
        minute(0),
    ]
}

/// Node 0 of 4 in its own turn: local epoch 4, nothing heard.
fn own_turn() -> Node {
    let mut node = Node::start(4, 0);
    node.take_all(&[clock(1, 4), clock(2, 4), clock(3, 4)]);
    assert_eq!(node.numbers(), (4, 0, 0));
    node
}

/// Node 0 of 4 with 64 blocks, in the local epoch given.
fn full(local: u32) -> Node {
    let mut state = chain_of(64);
    state.local = Epoch(local);
    Node { state }
}

fn changed(mut node: Node, change: impl FnOnce(&mut State)) -> Node {
    change(&mut node.state);
    node
}

#[test]
fn row_2_a_torn_state_refuses_every_kind() {
    let mut node = Node::torn();
    for record in plain_records() {
        node.refuse(&record, TORN);
    }
}

#[test]
fn row_4_every_kind_byte_but_1_to_6() {
    let mut node = Node::start(4, 0);
    node.refuse(&record(0, 0, 0, ZERO, ZERO, PLAIN), KIND);
    for kind in 7..=255 {
        node.refuse(&record(kind, 1, 1, A, ZERO, PLAIN), KIND);
    }
}

#[test]
fn row_5_every_unused_byte_of_every_kind() {
    let mut node = Node::start(4, 0);
    for record in plain_records() {
        let used = used_bytes(record[0]);
        for at in (2..96).filter(|at| !used.iter().any(|field| field.contains(at))) {
            node.refuse(&with_byte(record, at, 1), FILLER);
            node.refuse(&with_byte(record, at, 0x80), FILLER);
        }
    }
}

#[test]
fn row_5_does_not_look_at_used_bytes() {
    for record in plain_records() {
        for at in used_bytes(record[0]).into_iter().flatten() {
            let mut state = Node::start(4, 0).state;
            let answer = second::step(&mut state, &with_byte(record, at, 0x77), &mut [0; 96]);
            assert_ne!(answer, FILLER, "kind {} byte {at}", record[0]);
        }
    }
}

#[test]
fn row_6_sender_at_or_above_n() {
    let mut node = Node::start(4, 0);
    for record in plain_records() {
        for sender in [4, 5, 31, 32, 255] {
            node.refuse(&with_byte(record, 1, sender), SENDER);
        }
    }
}

#[test]
fn row_6_own_number_for_kinds_1_to_3() {
    let mut node = Node::start(4, 0);
    for record in &plain_records()[..3] {
        node.refuse(&with_byte(*record, 1, 0), SENDER);
    }
}

#[test]
fn row_6_anothers_number_for_kinds_4_to_6() {
    let mut node = Node::start(4, 0);
    for record in &plain_records()[3..] {
        for sender in [1, 2, 3] {
            node.refuse(&with_byte(*record, 1, sender), SENDER);
        }
    }
}

#[test]
fn row_6_at_n_1_kinds_1_to_3_are_never_taken() {
    let mut node = Node::start(1, 0);
    for record in &plain_records()[..3] {
        for sender in 0..=255 {
            node.refuse(&with_byte(*record, 1, sender), SENDER);
        }
    }
}

#[test]
fn row_7_kind_1_epoch_0_or_the_last() {
    let mut node = Node::start(4, 0);
    node.refuse(&proposal(1, 0, A, ZERO, PLAIN), EPOCH);
    node.refuse(&proposal(3, LAST, A, ZERO, PLAIN), EPOCH);
    // The last but one is a block's epoch: 4,294,967,294 mod 4 is 2.
    node.take(&proposal(2, LAST - 1, A, ZERO, PLAIN));
}

#[test]
fn row_7_kind_3_only_epoch_0() {
    let mut node = Node::start(4, 0);
    node.refuse(&clock(1, 0), EPOCH);
    node.take(&clock(1, LAST));
    assert_eq!(node.state.clocks[1], Epoch(LAST));
}

#[test]
fn row_7_kinds_4_and_6_in_the_last_local_epoch() {
    let mut node = Node::start(4, 3);
    node.take_all(&[clock(0, LAST), clock(1, LAST), clock(2, LAST)]);
    assert_eq!(node.numbers(), (LAST, 0, 0));
    node.refuse(&propose(3, A, PLAIN), EPOCH);
    node.refuse(&minute(3), EPOCH);
    // Kind 5 has no row 7.
    node.refuse(&cast(3), NOTHING);
}

#[test]
fn row_8_kind_1_name_all_zero_or_held() {
    let mut node = Node::in_session(8);
    node.refuse(&proposal(3, 3, ZERO, B, PLAIN), NAME);
    node.refuse(&proposal(3, 3, A, B, PLAIN), NAME);
    node.refuse(&proposal(3, 3, B, B, PLAIN), NAME);
}

#[test]
fn row_8_kind_4_name_all_zero_or_held() {
    let mut node = own_turn();
    node.take(&proposal(1, 1, A, ZERO, PLAIN));
    node.refuse(&propose(0, ZERO, PLAIN), NAME);
    node.refuse(&propose(0, A, ONES), NAME);
    node.take(&propose(0, B, ONES));
}

#[test]
fn row_9_kind_1_unknown_parent() {
    let mut node = Node::in_session(8);
    node.refuse(&proposal(3, 3, C, D, PLAIN), UNKNOWN);
    node.refuse(&proposal(3, 3, C, with_first_byte(B, 0), PLAIN), UNKNOWN);
    node.refuse(&proposal(3, 3, C, with_last_byte(B, 0), PLAIN), UNKNOWN);
}

#[test]
fn row_9_kind_1_parent_is_its_own_new_name() {
    Node::in_session(8).refuse(&proposal(3, 3, C, C, PLAIN), UNKNOWN);
}

#[test]
fn row_9_kind_2_name_unknown_or_genesis() {
    let mut node = Node::in_session(8);
    node.refuse(&vote(3, C), UNKNOWN);
    node.refuse(&vote(3, ZERO), UNKNOWN);
}

#[test]
fn row_10_kind_1_epoch_not_above_the_parents() {
    let mut node = Node::in_session(8);
    node.refuse(&proposal(2, 2, C, B, PLAIN), ORDER);
    node.refuse(&proposal(1, 1, C, B, PLAIN), ORDER);
    node.take(&proposal(3, 3, C, B, PLAIN));
}

#[test]
fn row_10_kind_4_local_not_above_the_freshest() {
    // No run reaches these: the local epoch at the freshest block's, and below.
    for local in [1, 2] {
        let mut node = changed(Node::in_session(8), |state| state.local = Epoch(local));
        node.refuse(&propose(0, C, PLAIN), ORDER);
    }
}

#[test]
fn row_11_kind_1_not_the_senders_turn() {
    let mut node = Node::in_session(8);
    for sender in [1, 2] {
        node.refuse(&proposal(sender, 3, C, B, PLAIN), TURN);
    }
    node.take(&proposal(3, 3, C, B, PLAIN));
    // Epoch 4 is the own turn, in which nothing is heard.
    node.refuse(&proposal(1, 4, D, B, PLAIN), TURN);
}

#[test]
fn row_11_kind_4_not_the_own_turn() {
    Node::in_session(8).refuse(&propose(0, C, PLAIN), TURN);
    Node::start(4, 0).refuse(&propose(0, C, PLAIN), TURN);
    Node::start(4, 1).take(&propose(1, C, PLAIN));
}

#[test]
fn row_12_kind_2_vote_already_counted() {
    let mut node = Node::in_session(8);
    for sender in [1, 2] {
        node.refuse(&vote(sender, A), REPEAT);
        node.refuse(&vote(sender, B), REPEAT);
    }
    node.take(&vote(3, A));
    node.refuse(&vote(3, A), REPEAT);
}

#[test]
fn row_12_kind_3_not_above_that_senders_clock() {
    let mut node = Node::start(4, 0);
    node.take(&clock(1, 7));
    node.refuse(&clock(1, 7), REPEAT);
    node.refuse(&clock(1, 6), REPEAT);
    node.take(&clock(2, 6));
    node.take(&clock(1, 8));
}

#[test]
fn row_12_kind_4_already_proposed_in_this_epoch() {
    let mut node = own_turn();
    node.take(&propose(0, A, PLAIN));
    assert_eq!(node.state.proposed, Epoch(4));
    node.refuse(&propose(0, B, PLAIN), REPEAT);
    // Epoch 8 is the next own turn.
    node.take_all(&[clock(1, 8), clock(2, 8), clock(3, 8)]);
    node.take(&propose(0, B, PLAIN));
}

#[test]
fn row_12_kind_6_own_clock_local_plus_1_or_more() {
    let mut node = Node::start(4, 0);
    node.take(&minute(0));
    node.refuse(&minute(0), REPEAT);
    changed(Node::start(4, 0), |state| state.clocks[0] = Epoch(9)).refuse(&minute(0), REPEAT);
    // A clock at the local epoch isn't one for the next.
    let mut node = changed(Node::start(4, 0), |state| state.clocks[0] = Epoch(1));
    node.take(&minute(0));
    assert_eq!(node.state.clocks[0], Epoch(2));
}

#[test]
fn row_13_no_block_at_all() {
    Node::start(4, 0).refuse(&cast(0), NOTHING);
}

#[test]
fn row_13_no_block_of_the_local_epoch() {
    let mut node = Node::start(4, 0);
    node.take(&proposal(2, 2, B, ZERO, PLAIN));
    node.refuse(&cast(0), NOTHING);
}

#[test]
fn row_13_parent_not_firm() {
    let mut node = Node::start(4, 0);
    node.take(&proposal(1, 1, A, ZERO, PLAIN));
    node.take(&proposal(2, 2, B, A, PLAIN));
    node.take_all(&[clock(1, 2), clock(2, 2), clock(3, 2)]);
    node.refuse(&cast(0), NOTHING);
}

#[test]
fn row_13_parent_below_the_bar() {
    let mut node = Node::in_session(8);
    node.take(&proposal(3, 3, C, A, PLAIN));
    node.refuse(&cast(0), NOTHING);
}

#[test]
fn row_13_already_voted_in_this_epoch() {
    let mut node = Node::in_session(2);
    node.take(&proposal(1, 1, A2, ZERO, ONES));
    node.refuse(&cast(0), NOTHING);
}

#[test]
fn row_14_kind_1_64_blocks_held() {
    let mut node = full(1);
    node.refuse(&proposal(1, 65, A, numbered(64), PLAIN), FULL);
    node.refuse(&proposal(1, 1, A, ZERO, PLAIN), FULL);
    node.take(&vote(1, numbered(64)));
}

#[test]
fn row_14_kind_4_64_blocks_held() {
    full(4).refuse(&propose(0, A, PLAIN), FULL);
}

#[test]
fn the_64th_block_is_taken() {
    for record in [proposal(1, 1, A, ZERO, PLAIN), propose(0, A, PLAIN)] {
        let mut state = chain_of(63);
        state.local = Epoch(4);
        let mut node = Node { state };
        node.take(&record);
        assert_eq!(node.state.count, 64);
        assert_eq!(node.state.find(&A), Some(Place(64)));
        node.refuse(&proposal(1, 1, B, ZERO, PLAIN), FULL);
    }
}

#[test]
fn order_1_before_2_before_3() {
    let mut node = changed(Node::torn(), |state| state.local = Epoch(0));
    node.refuse_out(&[], 95, STATE);
    node.state.local = Epoch(4);
    node.refuse_out(&[], 95, TORN);
    node.refuse(&[0xFF; 97], TORN);
    node.refuse(&[0xFF; 96], TORN);
}

#[test]
fn order_3_before_4_before_5() {
    let mut node = Node::start(4, 0);
    node.refuse(&[0xFF; 95], LENGTH);
    node.refuse_out(&[0xFF; 96], 97, LENGTH);
    node.refuse(&[0xFF; 96], KIND);
    let unknown = record(9, 1, 1, A, ZERO, PLAIN);
    node.refuse(&with_byte(unknown, 2, 1), KIND);
    node.refuse(&with_byte(unknown, 3, 1), KIND);
}

#[test]
fn order_5_before_6_before_7() {
    let mut node = Node::start(4, 0);
    node.refuse(&with_byte(proposal(9, 0, ZERO, C, PLAIN), 3, 1), FILLER);
    node.refuse(&proposal(9, 0, ZERO, C, PLAIN), SENDER);
    node.refuse(&proposal(0, 0, ZERO, C, PLAIN), SENDER);
    node.refuse(&proposal(1, 0, ZERO, C, PLAIN), EPOCH);
    node.refuse(&with_byte(clock(0, 0), 8, 1), FILLER);
    node.refuse(&clock(0, 0), SENDER);
    node.refuse(&clock(1, 0), EPOCH);
}

#[test]
fn order_6_before_7_for_kinds_4_and_6() {
    let mut node = changed(Node::start(4, 0), |state| state.local = Epoch(LAST));
    node.refuse(&propose(1, ZERO, PLAIN), SENDER);
    node.refuse(&minute(1), SENDER);
    node.refuse(&propose(0, ZERO, PLAIN), EPOCH);
    node.refuse(&minute(0), EPOCH);
}

#[test]
fn order_8_to_14_for_kind_1() {
    let mut node = full(1);
    let held = numbered(64);
    // Each of these breaks all rows from its own on.
    node.refuse(&proposal(1, LAST, held, C, PLAIN), EPOCH);
    node.refuse(&proposal(1, 2, held, C, PLAIN), NAME);
    node.refuse(&proposal(1, 2, ZERO, C, PLAIN), NAME);
    node.refuse(&proposal(1, 2, A, C, PLAIN), UNKNOWN);
    node.refuse(&proposal(1, 2, A, held, PLAIN), ORDER);
    node.refuse(&proposal(1, 66, A, held, PLAIN), TURN);
    node.refuse(&proposal(2, 66, A, held, PLAIN), FULL);
}

#[test]
fn order_7_to_14_for_kind_4() {
    let held = numbered(1);
    let mut node = full(LAST);
    node.state.blocks[1].voters = Voters(0b111);
    node.state.proposed = Epoch(LAST);
    node.refuse(&propose(0, held, PLAIN), EPOCH);
    // Local 1 is at the freshest block's, not the own turn, and proposed in.
    (node.state.local, node.state.proposed) = (Epoch(1), Epoch(1));
    node.refuse(&propose(0, held, PLAIN), NAME);
    node.refuse(&propose(0, A, PLAIN), ORDER);
    (node.state.local, node.state.proposed) = (Epoch(2), Epoch(2));
    node.refuse(&propose(0, A, PLAIN), TURN);
    (node.state.local, node.state.proposed) = (Epoch(4), Epoch(4));
    node.refuse(&propose(0, A, PLAIN), REPEAT);
    node.state.proposed = Epoch(3);
    node.refuse(&propose(0, A, PLAIN), FULL);
}

#[test]
fn order_8_before_12_for_kind_4() {
    let mut node = own_turn();
    node.take(&propose(0, A, PLAIN));
    node.refuse(&propose(0, A, PLAIN), NAME);
}

#[test]
fn order_6_before_9_before_12_for_kind_2() {
    let mut node = Node::in_session(8);
    node.refuse(&vote(0, C), SENDER);
    node.refuse(&vote(0, A), SENDER);
    node.refuse(&vote(1, C), UNKNOWN);
    node.refuse(&vote(1, A), REPEAT);
}

#[test]
fn the_own_number_decides_row_6_not_0() {
    let mut node = Node::start(4, 2);
    assert_eq!(node.state.own, NodeNo(2));
    node.refuse(&clock(2, 1), SENDER);
    node.take(&clock(0, 1));
    node.refuse(&minute(0), SENDER);
    node.take(&minute(2));
}

fn with_first_byte(mut name: [u8; 32], byte: u8) -> [u8; 32] {
    name[0] = byte;
    name
}

fn with_last_byte(mut name: [u8; 32], byte: u8) -> [u8; 32] {
    name[31] = byte;
    name
}
