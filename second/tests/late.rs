//! Finals that came late: A of epoch 1, B of 2 and C of 3 on it, in any order.

mod common;

use common::*;
use second::rules::Firm;
use second::trials::late::came_late;
use second::Place;

/// The votes of 1, 2 and 3 for a block.
fn votes(name: [u8; 32]) -> [Bytes; 3] {
    [1, 2, 3].map(|sender| vote(sender, name))
}

/// The local epoch is 3 by clocks. A is firm; B and C on it have no votes.
fn before_the_votes() -> Node {
    let mut node = Node::start(4, 0);
    node.take(&proposal(1, 1, A, ZERO, PLAIN));
    node.take_all(&votes(A));
    node.take(&proposal(2, 2, B, A, PLAIN));
    node.take_all(&[clock(1, 3), clock(2, 3), clock(3, 3)]);
    node.take(&proposal(3, 3, C, A, PLAIN));
    assert_eq!(node.numbers(), (3, 1, 0));
    node
}

/// C is firm, B lacks its third vote.
fn before_the_third_vote() -> Node {
    let mut node = before_the_votes();
    node.take_all(&votes(B)[..2]);
    node.take_all(&votes(C));
    node
}

/// Does this record make a final block come late?
fn comes_late(node: &mut Node, record: &Bytes) -> bool {
    let kept = node.state.kept;
    node.take(record);
    came_late(kept, &node.state)
}

#[test]
fn a_is_final_once_b_is_notarized_though_c_is_fresher() {
    let mut node = before_the_third_vote();
    // Only C is firm on A, and it is no normal block.
    assert_eq!(node.numbers(), (4, 3, 0));
    assert!(node.final_names().is_empty());
    node.take(&vote(3, B));
    assert_eq!(node.numbers(), (4, 3, 1));
    assert_eq!(node.final_names(), [A]);
    // The freshest chain is A, C as before.
    let freshest = Firm::of(&node.state).freshest;
    assert_eq!(freshest, Place(3));
    assert_eq!(node.state.row(freshest).parent, Place(1));
}

#[test]
fn b_before_c_and_c_before_b_end_alike() {
    let mut b_first = before_the_votes();
    b_first.take_all(&votes(B));
    assert_eq!(b_first.numbers(), (3, 1, 1));
    b_first.take_all(&votes(C));
    let mut c_first = before_the_votes();
    c_first.take_all(&votes(C));
    assert_eq!(c_first.numbers(), (4, 3, 0));
    c_first.take_all(&votes(B));
    assert_eq!(b_first.final_names(), [A]);
    assert_eq!(b_first.state, c_first.state);
}

#[test]
fn the_third_votes_of_b_and_c_end_alike_in_either_order() {
    let ends = [[B, C], [C, B]].map(|names| {
        let mut node = before_the_votes();
        node.take_all(&[vote(1, B), vote(1, C), vote(2, C), vote(2, B)]);
        node.take_all(&names.map(|name| vote(3, name)));
        assert_eq!(node.final_names(), [A]);
        node.state
    });
    assert_eq!(ends[0], ends[1]);
}

#[test]
fn below_a_later_normal_block_it_changes_nothing() {
    let mut node = before_the_third_vote();
    // D of epoch 4, the own turn, follows on C: A and C are final.
    node.take(&propose(0, D, PLAIN));
    node.take_all(&votes(D));
    assert_eq!(node.numbers(), (5, 4, 2));
    assert!(!comes_late(&mut node, &vote(3, B)));
    assert_eq!(node.final_names(), [A, C]);
    assert!(!node.state.torn);
}

#[test]
fn a_normal_block_beside_the_freshest_chain_tears() {
    // After the session F of epoch 5 on B is freshest, and A stays the candidate.
    let mut node = Node::in_session(8);
    node.take_all(&[clock(1, 5), clock(2, 5), clock(3, 5)]);
    node.take(&proposal(1, 5, F, B, PLAIN));
    node.take_all(&votes(F));
    assert_eq!(node.numbers(), (6, 5, 1));
    // D' has B's epoch and a higher place. E' has a later one: D' is the candidate.
    for record in tearing() {
        assert!(!node.state.torn);
        assert!(!comes_late(&mut node, &record));
    }
    assert!(node.state.torn);
    assert_eq!(node.numbers(), (6, 5, 1));
    assert_eq!(node.final_names(), [A]);
}

#[test]
fn a_final_block_that_comes_late_is_told_apart() {
    let mut node = before_the_third_vote();
    assert!(comes_late(&mut node, &vote(3, B)));
    // It is kept already, still beside the freshest chain.
    assert!(!comes_late(&mut node, &clock(1, 4)));
    node.take(&propose(0, D, PLAIN));
    node.take_all(&votes(D)[..2]);
    // With D the freshest chain itself gives C.
    assert!(!comes_late(&mut node, &vote(3, D)));
    assert_eq!(node.final_names(), [A, C]);
}

#[test]
fn a_final_block_that_comes_in_time_is_not_late() {
    let mut node = Node::in_session(7);
    assert!(!comes_late(&mut node, &vote(2, B)));
    assert_eq!(node.final_names(), [A]);
}
