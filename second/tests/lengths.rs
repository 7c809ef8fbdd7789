//! Row 3: every length of a record and of an out buffer.

mod common;

use common::*;
use second::step;

/// The six kinds, each as it would be taken, with the node that takes it.
fn takable() -> Vec<(Node, Bytes)> {
    let own_turn = || Node::start(4, 1);
    vec![
        (Node::start(4, 0), proposal(1, 1, A, ZERO, PLAIN)),
        (Node::in_session(1), vote(1, A)),
        (Node::start(4, 0), clock(1, 1)),
        (own_turn(), propose(1, A, PLAIN)),
        (Node::in_session(1), cast(0)),
        (Node::start(4, 0), minute(0)),
    ]
}

#[test]
fn a_record_of_any_other_length_is_3() {
    for (mut node, record) in takable() {
        let mut long = record.to_vec();
        long.resize(200, 0);
        for length in (0..=200).filter(|length| *length != 96) {
            node.refuse(&long[..length], LENGTH);
        }
        node.take(&long[..96]);
    }
}

#[test]
fn an_out_buffer_of_any_other_length_is_3() {
    for (mut node, record) in takable() {
        for length in (0..=200).filter(|length| *length != 96) {
            node.refuse_out(&record, length, LENGTH);
        }
        node.take(&record);
    }
}

#[test]
fn out_buffers_of_0_95_96_and_97_bytes() {
    for (node, record) in takable() {
        for (length, answer) in [(0, LENGTH), (95, LENGTH), (96, 0), (97, LENGTH)] {
            let mut state = node.state.clone();
            let mut out = vec![UNTOUCHED; length];
            assert_eq!(step(&mut state, &record, &mut out), answer, "{length}");
            assert_eq!(state == node.state, answer != 0, "{length}");
        }
    }
}

#[test]
fn both_of_another_length_is_3_too() {
    let mut node = Node::start(4, 0);
    node.refuse_out(&[], 0, LENGTH);
    node.refuse_out(&[0xFF; 97], 95, LENGTH);
}
