//! The scope's "Easy errors here", each as a test that the error would fail.

mod common;

use common::*;
use second::rules::Firm;
use second::Place;

#[test]
fn own_votes_do_not_make_firm_while_an_ancestor_lacks_them() {
    let mut node = Node::start(4, 0);
    node.take(&proposal(1, 1, A, ZERO, PLAIN));
    node.take(&proposal(2, 2, B, A, PLAIN));
    for sender in 1..=3 {
        node.take(&vote(sender, B));
    }
    assert!(!Firm::of(&node.state).holds(Place(2)));
    assert_eq!(node.numbers(), (1, 0, 0));
    // The ancestor's last vote makes both firm at once.
    node.take(&vote(1, A));
    node.take(&vote(2, A));
    assert_eq!(node.numbers(), (1, 0, 0));
    node.take(&vote(3, A));
    assert!(Firm::of(&node.state).holds(Place(2)));
    assert_eq!(node.numbers(), (3, 2, 1));
}

#[test]
fn the_bar_is_fixed_when_the_epoch_begins() {
    let mut node = Node::in_session(8);
    node.take_all(&[clock(1, 5), clock(2, 5), clock(3, 5)]);
    // C of epoch 3 gets firm within epoch 5: fresher than B, the bar stays at 2.
    node.take(&proposal(3, 3, C, B, PLAIN));
    node.take_all(&[vote(1, C), vote(2, C), vote(3, C)]);
    assert_eq!(Firm::of(&node.state).freshest, Place(3));
    assert_eq!(node.numbers(), (5, 2, 2));
    // F's parent B is no longer the freshest, but it is at the bar.
    node.take(&proposal(1, 5, F, B, PLAIN));
    assert_eq!(node.take(&cast(0)), vote(0, F));
}

#[test]
fn the_final_block_does_not_move_back() {
    let mut node = Node::in_session(8);
    node.take_all(&[clock(1, 5), clock(2, 5), clock(3, 5)]);
    node.take(&proposal(1, 5, E, A, PLAIN));
    node.take_all(&[vote(1, E), vote(2, E), vote(3, E)]);
    // E's chain has A as its last normal block, but B beside it is a later one.
    assert_eq!(node.numbers(), (6, 5, 1));
    assert_eq!(node.final_names(), [A]);
    // Handed in, a kept block that descends from the candidate A stays too.
    node.state.kept = Place(2);
    node.take(&vote(3, B));
    assert_eq!(node.final_names(), [A, B]);
    assert!(!node.state.torn);
}

#[test]
fn a_proposal_for_another_epoch_is_stored_only_not_voted_on() {
    let mut node = Node::in_session(8);
    node.take(&proposal(1, 9, E, B, PLAIN));
    node.take(&proposal(2, 2, D, A, PLAIN));
    assert_eq!(node.state.count, 4);
    assert_eq!(node.numbers(), (3, 2, 1));
    node.refuse(&cast(0), NOTHING);
}

#[test]
fn at_n_5_three_voters_are_not_enough() {
    let mut node = Node::start(5, 0);
    node.take(&proposal(1, 1, A, ZERO, PLAIN));
    node.take_all(&[vote(1, A), vote(2, A), vote(3, A)]);
    assert_eq!(node.numbers(), (1, 0, 0));
    node.take(&vote(4, A));
    assert_eq!(node.numbers(), (2, 1, 0));
}
