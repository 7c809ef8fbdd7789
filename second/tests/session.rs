//! The session at node 0 of 4, its continuation P1 to P10, and the torn case.

mod common;

use common::*;
use second::replay;

/// After P7: clock 5 from 1, 2 and 3.
fn after_p7() -> Node {
    let mut node = Node::in_session(8);
    node.take_all(&[clock(1, 5), clock(2, 5), clock(3, 5)]);
    node
}

/// After P9: E refused a vote, F voted for.
fn after_p9() -> Node {
    let mut node = after_p7();
    node.take(&proposal(1, 5, E, A, PLAIN));
    node.take(&proposal(1, 5, F, B, PLAIN));
    node.take(&cast(0));
    node
}

#[test]
fn the_session_to_the_letter() {
    let mut output = Vec::new();
    replay(&recording(4, 0, &session())[..], &mut output).unwrap();
    let text = String::from_utf8(output).unwrap();
    assert_eq!(text, format!("{SESSION_LINES}end 8\n"));
}

#[test]
fn p1_after_record_4_the_final_list_is_empty() {
    assert!(Node::in_session(4).final_names().is_empty());
}

#[test]
fn p2_after_record_8_the_final_list_is_a_alone() {
    assert_eq!(Node::in_session(8).final_names(), [A]);
}

#[test]
fn p3_vote_b_from_2_again_is_12() {
    Node::in_session(8).refuse(&vote(2, B), REPEAT);
}

#[test]
fn p4_vote_c_from_3_is_9() {
    Node::in_session(8).refuse(&vote(3, C), UNKNOWN);
}

#[test]
fn p5_epoch_2_on_b_is_10() {
    Node::in_session(8).refuse(&proposal(2, 2, C, B, PLAIN), ORDER);
}

#[test]
fn p6_epoch_5_on_b_from_2_is_11() {
    Node::in_session(8).refuse(&proposal(2, 5, C, B, PLAIN), TURN);
}

#[test]
fn p7_clock_5_from_three_moves_the_local_epoch() {
    let mut node = Node::in_session(8);
    node.take(&clock(1, 5));
    node.take(&clock(2, 5));
    assert_eq!(node.numbers(), (3, 2, 1));
    node.take(&clock(3, 5));
    assert_eq!(node.numbers(), (5, 2, 1));
}

#[test]
fn p8_e_is_stored_but_below_the_bar() {
    let mut node = after_p7();
    node.take(&proposal(1, 5, E, A, PLAIN));
    node.refuse(&cast(0), NOTHING);
}

#[test]
fn p9_cast_votes_f() {
    let mut node = after_p7();
    node.take(&proposal(1, 5, E, A, PLAIN));
    node.take(&proposal(1, 5, F, B, PLAIN));
    assert_eq!(node.take(&cast(0)), vote(0, F));
}

#[test]
fn p10_f_is_firm_but_no_normal_block() {
    let mut node = after_p9();
    node.take(&vote(1, F));
    assert_eq!(node.numbers(), (5, 2, 1));
    node.take(&vote(2, F));
    assert_eq!(node.numbers(), (6, 5, 1));
    assert_eq!(node.final_names(), [A]);
}

#[test]
fn torn_when_e2_is_firm() {
    let mut node = Node::in_session(8);
    let (last, before) = tearing()
        .split_last()
        .map(|(l, b)| (*l, b.to_vec()))
        .unwrap();
    node.take_all(&before);
    assert!(!node.state.torn);
    assert_eq!(node.numbers(), (3, 2, 1));
    // The record that tears is taken and has its whole effect.
    node.take(&last);
    assert!(node.state.torn);
    assert_eq!(node.numbers(), (4, 3, 1));
    assert_eq!(node.final_names(), [A]);
    node.refuse(&vote(3, A), TORN);
}

#[test]
fn the_torn_run_line_by_line() {
    let mut records = session();
    records.extend(tearing());
    records.push(vote(3, A));
    let mut output = Vec::new();
    replay(&recording(4, 0, &records)[..], &mut output).unwrap();
    let output = String::from_utf8(output).unwrap();
    let lines: Vec<&str> = output.lines().collect();
    assert_eq!(
        lines[8..19],
        [
            "9 0 3 2 1",
            "10 0 3 2 1",
            "11 0 3 2 1",
            "12 0 3 2 1",
            "13 0 3 2 1",
            "14 0 3 2 1",
            "15 0 3 2 1",
            "16 0 3 2 1",
            "17 0 3 2 1",
            "18 0 3 2 1",
            "19 0 3 2 1",
        ]
    );
    assert_eq!(lines[19..], ["20 0 4 3 1", "21 2 4 3 1", "end 21"]);
}
