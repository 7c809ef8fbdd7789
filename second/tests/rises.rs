//! What let a local epoch rise, told apart.

mod common;

use common::*;
use second::trials::rises::{Rise, Rises};
use second::Epoch;

/// What this record lets the local epoch rise by.
fn rise(node: &mut Node, record: &Bytes) -> Option<Rise> {
    let local = node.state.local;
    node.take(record);
    Rise::since(local, &node.state)
}

#[test]
fn by_a_block() {
    // Vote B from 2 is the session's last record: B is firm, epoch 3.
    let mut node = Node::in_session(7);
    assert_eq!(rise(&mut node, &vote(2, B)), Some(Rise::ByBlock));
    assert_eq!(rise(&mut node, &vote(3, B)), None);
}

#[test]
fn by_equal_clocks() {
    let mut node = Node::in_session(8);
    assert_eq!(rise(&mut node, &clock(1, 5)), None);
    assert_eq!(rise(&mut node, &clock(2, 5)), None);
    assert_eq!(rise(&mut node, &clock(3, 5)), Some(Rise::ByEqualClocks));
    // A fourth clock past theirs doesn't make the quorum's differ.
    node.state.clocks[0] = Epoch(9);
    assert_eq!(
        Rise::since(Epoch(4), &node.state),
        Some(Rise::ByEqualClocks)
    );
}

#[test]
fn by_clocks_that_differ() {
    let mut node = Node::in_session(8);
    node.take_all(&[clock(1, 7), clock(2, 6)]);
    // 7, 6 and 5, then 7, 6 and 9.
    let rises = [5, 9].map(|epoch| rise(&mut node, &clock(3, epoch)));
    assert_eq!(rises, [Some(Rise::ByClocksThatDiffer); 2]);
    assert_eq!(node.numbers(), (6, 2, 1));
}

#[test]
fn each_is_counted_and_missed_until_then() {
    let mut node = Node::in_session(7);
    let mut rises = Rises::default();
    let mut missing: Vec<Vec<String>> = Vec::new();
    let clocks = [
        clock(1, 5),
        clock(2, 5),
        clock(3, 5),
        clock(1, 7),
        clock(2, 6),
    ];
    for record in [&[vote(2, B)][..], &clocks, &[clock(3, 8)]].concat() {
        let local = node.state.local;
        node.take(&record);
        rises.count(local, &node.state);
        missing.push(rises.missing().collect());
    }
    let times: Vec<u64> = rises.all().map(|(_, times)| times).collect();
    assert_eq!(times, [1, 1, 1]);
    assert_eq!(missing[0].len(), 2);
    assert_eq!(missing[5], ["the local epoch rose by clocks that differ"]);
    assert!(missing[6].is_empty());
}
