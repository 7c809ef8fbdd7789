//! The out buffer, byte for byte.

mod common;

use common::*;

#[test]
fn propose_writes_a_proposal_on_the_freshest_block() {
    let mut node = Node::in_session(8);
    node.take_all(&[clock(1, 4), clock(2, 4), clock(3, 4)]);
    let payload = std::array::from_fn(|i| i as u8 + 1);
    let out = node.take(&propose(0, D, payload));
    let mut expected = vec![1, 0, 0, 0, 4, 0, 0, 0];
    expected.extend([0x0D; 32]);
    expected.extend([0x0B; 32]);
    expected.extend(1..=24);
    assert_eq!(out[..], expected);
}

#[test]
fn propose_on_genesis_writes_a_zero_parent() {
    let mut node = Node::start(4, 1);
    let out = node.take(&propose(1, A, ONES));
    assert_eq!(out, proposal(1, 1, A, ZERO, ONES));
}

#[test]
fn propose_writes_the_epoch_low_byte_first() {
    let mut node = Node::start(1, 0);
    node.state.local.0 = 0x0403_0201;
    let out = node.take(&propose(0, A, PLAIN));
    assert_eq!(out[..8], [1, 0, 0, 0, 1, 2, 3, 4]);
}

#[test]
fn cast_writes_a_vote_under_the_own_number() {
    let mut node = Node::start(4, 3);
    node.take(&proposal(1, 1, A, ZERO, ONES));
    let out = node.take(&cast(3));
    let mut expected = vec![2, 3, 0, 0, 0, 0, 0, 0];
    expected.extend([0x0A; 32]);
    expected.extend([0; 56]);
    assert_eq!(out[..], expected);
}

#[test]
fn minute_writes_a_clock_of_local_plus_1() {
    let mut node = Node::start(32, 31);
    node.state.local.0 = 0xFFFF_FFFE;
    let out = node.take(&minute(31));
    let mut expected = vec![3, 31, 0, 0, 0xFF, 0xFF, 0xFF, 0xFF];
    expected.extend([0; 88]);
    assert_eq!(out[..], expected);
}

#[test]
fn what_is_sent_is_of_the_local_epoch_before_the_five_steps() {
    // Alone, the node's own clock moves it on at once: sent is 2, then local 2.
    let mut node = Node::start(1, 0);
    assert_eq!(node.take(&minute(0)), clock(0, 2));
    assert_eq!(node.numbers(), (2, 0, 0));
    assert_eq!(node.take(&minute(0)), clock(0, 3));
}

#[test]
fn kinds_1_to_3_leave_the_out_buffer() {
    let mut node = Node::start(4, 0);
    for record in [proposal(1, 1, A, ZERO, ONES), vote(1, A), clock(1, 1)] {
        assert_eq!(node.take(&record), [UNTOUCHED; 96]);
    }
}

#[test]
fn what_one_node_sends_another_takes() {
    let mut sender = Node::start(4, 1);
    let mut hearer = Node::start(4, 0);
    for asked in [propose(1, A, ONES), cast(1), minute(1)] {
        let sent = sender.take(&asked);
        hearer.take(&sent);
    }
    assert_eq!(sender.state.blocks, hearer.state.blocks);
    assert_eq!(sender.state.clocks, hearer.state.clocks);
}
