//! The hall's own rules: answers 20, 21 and 22 with their neighbours, yes and no.

mod common;

use common::*;
use second::record::RECORD_LEN;
use second::state::{Name, NodeNo};
use second::{final_names, well_shaped, Hall, State};

/// A hall under test: each call says which answer it expects.
struct Desk {
    hall: Hall,
}

impl Desk {
    fn start(n: u8, honest: u8) -> Desk {
        let hall = Hall::start(n, honest).unwrap();
        Desk { hall }
    }

    /// Four gateways, of which 3 is faulty. Gateway 1 proposed A, 0 and 1 hold it,
    /// 1 voted for it.
    fn after_a() -> Desk {
        let mut desk = Desk::start(4, 0b0111);
        desk.take(1, &propose(1, A, PLAIN));
        desk.take(1, &cast(1));
        desk.take(0, &proposal(1, 1, A, ZERO, PLAIN));
        desk
    }

    /// Gateway 0 alone of four is honest, and torn. It voted for A and B.
    fn torn() -> Desk {
        let mut desk = Desk::start(4, 0b0001);
        for record in session().iter().chain(&tearing()) {
            desk.take(0, record);
        }
        assert!(desk.gateway(0).torn);
        desk
    }

    fn gateway(&self, node: u32) -> &State {
        self.hall.gateway(NodeNo(node)).unwrap()
    }

    fn hear(&mut self, to: u8, record: &[u8]) -> (u8, Bytes) {
        let mut out = [UNTOUCHED; RECORD_LEN];
        let answer = self.hall.hear(NodeNo(to.into()), record, &mut out);
        (answer, out)
    }

    #[track_caller]
    fn take(&mut self, to: u8, record: &[u8]) -> Bytes {
        let (answer, out) = self.hear(to, record);
        assert_eq!(answer, 0);
        out
    }

    /// Expects this refusal, and that nothing changes.
    #[track_caller]
    fn refuse(&mut self, to: u8, record: &[u8], answer: u8) {
        let states = |desk: &Desk| -> Vec<Option<State>> {
            let nodes = (0..8).map(NodeNo);
            nodes.map(|node| desk.hall.gateway(node).cloned()).collect()
        };
        let before = (states(self), self.hall.agree());
        assert_eq!(self.hear(to, record), (answer, [UNTOUCHED; RECORD_LEN]));
        assert!((states(self), self.hall.agree()) == before);
    }

    /// In a hall of six the votes of 1, 2 and 3 make a gateway's own a quorum: it
    /// gets a block of epoch 1 on genesis and one of epoch 2 on that.
    fn finalise(&mut self, who: u8, first: Name, second: Name) {
        for (epoch, name, parent) in [(1, first, ZERO), (2, second, first)] {
            self.take(who, &proposal(epoch as u8, epoch, name, parent, PLAIN));
            self.take(who, &cast(who));
            for sender in 1..=3 {
                self.take(who, &vote(sender, name));
            }
        }
        assert_eq!(final_names(self.gateway(who.into())), [first]);
    }
}

#[test]
fn a_start_is_fresh_for_each_honest_number() {
    let hall = Hall::start(8, 0b1010_0101).unwrap();
    assert_eq!(hall.counts(), (8, 4));
    for node in 0..=255 {
        let expected = [0, 2, 5, 7]
            .contains(&node)
            .then(|| State::start(8, node).1);
        assert!(hall.gateway(NodeNo(node)) == expected.as_ref(), "{node}");
    }
}

#[test]
fn refusal_20_for_every_number_that_is_not_honest() {
    let mut desk = Desk::start(8, 0b1010_0101);
    for to in 0..=255 {
        if [0, 2, 5, 7].contains(&to) {
            desk.refuse(to, &cast(to), NOTHING);
            desk.refuse(to, &[], LENGTH);
            continue;
        }
        for record in [cast(to), cast(0), minute(to), clock(1, 3), [0xFF; 96]] {
            desk.refuse(to, &record, RECEIVER);
        }
        for length in [0, 1, 95] {
            desk.refuse(to, &minute(to)[..length], RECEIVER);
        }
    }
}

#[test]
fn refusal_20_comes_before_21_and_22() {
    let mut desk = Desk::after_a();
    for to in [3, 4, 255] {
        desk.refuse(to, &vote(0, A), RECEIVER);
        desk.refuse(to, &proposal(1, 1, A, ZERO, ONES), RECEIVER);
        desk.refuse(to, &propose(3, A, ONES), RECEIVER);
    }
    desk.refuse(2, &vote(0, A), NEVER_CAST);
    desk.refuse(2, &proposal(1, 1, A, ZERO, ONES), RENAMED);
}

#[test]
fn refusal_21_until_the_sender_cast_the_vote() {
    let mut desk = Desk::after_a();
    desk.refuse(1, &vote(0, A), NEVER_CAST);
    assert_eq!(desk.take(0, &cast(0)), vote(0, A));
    desk.take(1, &vote(0, A));
    desk.refuse(1, &vote(0, A), REPEAT);
}

#[test]
fn refusal_21_reads_the_senders_table() {
    let mut desk = Desk::after_a();
    // 1 cast it and 0 holds A: taken. 2 doesn't hold A yet: 9.
    desk.refuse(2, &vote(1, A), UNKNOWN);
    desk.take(0, &vote(1, A));
    // 0's table shows the vote of 1, but not its own.
    desk.refuse(1, &vote(0, A), NEVER_CAST);
    // 2 doesn't even hold A.
    desk.refuse(0, &vote(2, A), NEVER_CAST);
    // Nobody holds B.
    desk.refuse(0, &vote(1, B), NEVER_CAST);
    desk.refuse(0, &vote(3, B), UNKNOWN);
}

#[test]
fn refusal_21_for_the_other_block_of_an_epoch() {
    let mut desk = Desk::after_a();
    desk.take(0, &proposal(1, 1, A2, ZERO, ONES));
    assert_eq!(desk.take(0, &cast(0)), vote(0, A));
    desk.take(2, &proposal(1, 1, A, ZERO, PLAIN));
    desk.take(2, &proposal(1, 1, A2, ZERO, ONES));
    desk.refuse(2, &vote(0, A2), NEVER_CAST);
    desk.take(2, &vote(0, A));
}

#[test]
fn refusal_21_is_not_for_faulty_numbers() {
    let mut desk = Desk::after_a();
    desk.take(0, &vote(3, A));
    for sender in [4, 8, 32, 255] {
        desk.refuse(0, &vote(sender, A), SENDER);
    }
}

#[test]
fn refusal_21_or_6_under_the_receivers_own_number() {
    let mut desk = Desk::after_a();
    desk.refuse(0, &vote(0, A), NEVER_CAST);
    desk.refuse(0, &vote(0, B), NEVER_CAST);
    desk.take(0, &cast(0));
    desk.refuse(0, &vote(0, A), SENDER);
    desk.refuse(0, &vote(0, B), NEVER_CAST);
    desk.refuse(1, &vote(1, A), SENDER);
}

#[test]
fn refusal_21_for_the_genesis() {
    let mut desk = Desk::after_a();
    for sender in [0, 1, 2] {
        desk.refuse(0, &vote(sender, ZERO), NEVER_CAST);
    }
    desk.refuse(0, &vote(3, ZERO), UNKNOWN);
}

#[test]
fn refusal_21_looks_past_other_damage() {
    let mut desk = Desk::after_a();
    for at in [2, 3, 4, 7, 40, 71, 72, 95] {
        desk.refuse(0, &with_byte(vote(2, A), at, 1), NEVER_CAST);
        desk.refuse(0, &with_byte(vote(1, A), at, 1), FILLER);
        desk.refuse(0, &with_byte(vote(3, A), at, 1), FILLER);
    }
    // With any byte of its name changed it is a vote that was never cast.
    for at in 8..40 {
        desk.refuse(0, &with_byte(vote(1, A), at, 0xFF), NEVER_CAST);
    }
}

#[test]
fn refusal_21_is_for_whole_votes_only() {
    let mut desk = Desk::after_a();
    for length in 0..96 {
        desk.refuse(0, &vote(2, A)[..length], LENGTH);
    }
    desk.refuse(0, &[&vote(2, A)[..], &[0]].concat(), LENGTH);
    desk.refuse(0, &with_byte(vote(2, A), 0, 0), KIND);
    desk.refuse(0, &with_byte(vote(2, A), 0, 7), KIND);
    // A clock under an honest number need not have been said.
    desk.take(0, &clock(2, 9));
}

#[test]
fn refusals_21_and_22_come_before_2() {
    let mut desk = Desk::torn();
    desk.refuse(0, &vote(0, C), NEVER_CAST);
    desk.refuse(0, &vote(0, A2), NEVER_CAST);
    desk.refuse(0, &vote(0, A), TORN);
    desk.refuse(0, &vote(1, C), TORN);
    desk.refuse(0, &proposal(1, 1, A, ZERO, ONES), RENAMED);
    desk.refuse(0, &proposal(1, 1, A, ZERO, PLAIN), TORN);
    desk.refuse(0, &propose(0, A, PLAIN), RENAMED);
    desk.refuse(0, &propose(0, C, PLAIN), TORN);
    desk.refuse(0, &vote(0, C)[..95], TORN);
}

#[test]
fn a_torn_sender_still_shows_its_votes() {
    // Four of six are faulty and a quorum. Gateway 0 votes, then they tear it.
    let mut desk = Desk::start(6, 0b10_0001);
    desk.take(0, &proposal(1, 1, A, ZERO, PLAIN));
    desk.take(0, &cast(0));
    tear(&mut desk);
    desk.take(5, &proposal(1, 1, A, ZERO, PLAIN));
    desk.take(5, &vote(0, A));
    desk.refuse(5, &vote(0, B), NEVER_CAST);
}

/// Gateway 0 of six ends torn with A as its final block, by the votes of 1 to 4.
fn tear(desk: &mut Desk) {
    let blocks = [
        (1, A, ZERO, PLAIN),
        (2, B, A, PLAIN),
        (1, A2, ZERO, ONES),
        (2, D2, A2, ONES),
        (3, E2, D2, ONES),
    ];
    for (epoch, name, parent, payload) in blocks {
        desk.hear(0, &proposal(epoch as u8, epoch, name, parent, payload));
        for sender in 1..=4 {
            desk.take(0, &vote(sender, name));
        }
    }
    assert!(desk.gateway(0).torn);
    assert_eq!(final_names(desk.gateway(0)), [A]);
}

#[test]
fn refusal_22_for_another_epoch_parent_or_payload() {
    let mut desk = Desk::after_a();
    let others = [
        proposal(1, 5, A, ZERO, PLAIN),
        proposal(1, 1, A, B, PLAIN),
        proposal(1, 1, A, A, PLAIN),
        proposal(1, 1, A, ZERO, ONES),
        with_byte(proposal(1, 1, A, ZERO, PLAIN), 95, 1),
        with_byte(proposal(1, 1, A, ZERO, PLAIN), 71, 1),
        with_byte(proposal(1, 1, A, ZERO, PLAIN), 7, 1),
    ];
    for other in &others {
        // In another's table, in the receiver's own, in the proposer's.
        desk.refuse(2, other, RENAMED);
        desk.refuse(0, other, RENAMED);
        desk.refuse(1, other, RENAMED);
    }
    desk.take(2, &proposal(1, 1, A, ZERO, PLAIN));
    desk.refuse(2, &proposal(1, 1, A, ZERO, PLAIN), NAME);
    desk.refuse(1, &proposal(1, 1, A, ZERO, PLAIN), SENDER);
    // Under another name all of them may come.
    desk.take(2, &proposal(1, 5, B, ZERO, PLAIN));
    desk.take(2, &proposal(1, 1, C, ZERO, ONES));
}

#[test]
fn the_same_block_is_taken_by_all() {
    let mut desk = Desk::start(8, 0xFF);
    desk.take(1, &propose(1, A, ONES));
    for to in [0, 2, 3, 4, 5, 6, 7] {
        desk.take(to, &proposal(1, 1, A, ZERO, ONES));
    }
    for to in 0..8 {
        assert_eq!(desk.gateway(to).count, 1);
    }
}

#[test]
fn refusal_22_looks_past_other_damage() {
    let mut desk = Desk::after_a();
    for (at, value, answer) in [
        (1, 0, TURN),
        (1, 2, SENDER),
        (1, 4, SENDER),
        (2, 1, FILLER),
        (3, 1, FILLER),
    ] {
        let same = proposal(1, 1, A, ZERO, PLAIN);
        let other = proposal(1, 1, A, ZERO, ONES);
        desk.refuse(2, &with_byte(same, at, value), answer);
        desk.refuse(2, &with_byte(other, at, value), RENAMED);
    }
    // Epochs that no block has are other epochs.
    desk.refuse(2, &proposal(0, 0, A, ZERO, PLAIN), RENAMED);
    desk.refuse(2, &proposal(3, u32::MAX, A, ZERO, PLAIN), RENAMED);
    desk.refuse(2, &proposal(0, 0, B, ZERO, PLAIN), EPOCH);
    // For kind 4 the sender and the unused fields don't matter either.
    desk.refuse(2, &with_byte(propose(2, A, ONES), 1, 0), RENAMED);
    desk.refuse(2, &with_byte(propose(2, A, ONES), 4, 1), RENAMED);
    desk.refuse(2, &with_byte(propose(2, A, ONES), 40, 1), RENAMED);
    desk.refuse(2, &with_byte(propose(2, A, PLAIN), 40, 1), FILLER);
}

#[test]
fn refusal_22_is_for_whole_records_of_kinds_1_and_4_only() {
    let mut desk = Desk::after_a();
    for length in 0..96 {
        desk.refuse(2, &proposal(1, 1, A, ZERO, ONES)[..length], LENGTH);
        desk.refuse(2, &propose(2, A, ONES)[..length], LENGTH);
    }
    for (kind, answer) in [(0, KIND), (3, FILLER), (5, FILLER), (6, FILLER), (7, KIND)] {
        let other = with_byte(proposal(1, 1, A, ZERO, ONES), 0, kind);
        desk.refuse(2, &other, answer);
    }
    let vote_with_payload = with_byte(proposal(1, 1, A, ZERO, ONES), 0, 2);
    desk.refuse(2, &vote_with_payload, FILLER);
}

#[test]
fn the_zero_name_is_8_and_not_22() {
    let mut desk = Desk::after_a();
    desk.refuse(2, &proposal(1, 1, ZERO, ZERO, PLAIN), NAME);
    desk.refuse(0, &proposal(1, 1, ZERO, A, ONES), NAME);
    desk.refuse(1, &propose(1, ZERO, ONES), NAME);
    desk.refuse(2, &propose(2, ZERO, PLAIN), NAME);
}

#[test]
fn a_refused_block_leaves_its_name_free() {
    let mut desk = Desk::after_a();
    desk.refuse(3, &proposal(1, 1, B, ZERO, PLAIN), RECEIVER);
    desk.refuse(2, &proposal(2, 1, B, ZERO, PLAIN), SENDER);
    desk.refuse(2, &proposal(0, 1, B, ZERO, PLAIN), TURN);
    desk.take(2, &proposal(1, 1, B, ZERO, ONES));
    desk.refuse(0, &proposal(1, 1, B, ZERO, PLAIN), RENAMED);
}

#[test]
fn refusal_22_for_an_own_block_in_the_own_table() {
    let mut desk = Desk::start(4, 0b1111);
    desk.take(1, &propose(1, A, PLAIN));
    // The same block of epoch 1 on genesis again; then another payload.
    desk.refuse(1, &propose(1, A, PLAIN), NAME);
    desk.refuse(1, &propose(1, A, ONES), RENAMED);
    desk.refuse(1, &propose(1, B, PLAIN), REPEAT);
    // In epoch 2 it would be another block.
    for sender in [0, 2, 3] {
        desk.take(1, &clock(sender, 2));
    }
    desk.refuse(1, &propose(1, A, PLAIN), RENAMED);
    desk.refuse(1, &propose(1, B, PLAIN), TURN);
}

#[test]
fn refusal_22_for_an_own_block_in_anothers_table() {
    let mut desk = Desk::start(4, 0b1111);
    desk.take(0, &proposal(1, 1, A, ZERO, PLAIN));
    // Gateway 2 in epoch 1 would add just that block, though it isn't its turn.
    desk.refuse(2, &propose(2, A, PLAIN), TURN);
    desk.refuse(2, &propose(2, A, ONES), RENAMED);
    for sender in [0, 1, 3] {
        desk.take(2, &clock(sender, 2));
    }
    // In epoch 2 it is another, also in gateway 2's turn.
    desk.refuse(2, &propose(2, A, PLAIN), RENAMED);
    desk.take(2, &propose(2, B, PLAIN));
    // Gateway 1 takes the block that gateway 0 heard of as its own.
    desk.take(1, &propose(1, A, PLAIN));
}

/// Gateway 0 of four holds C, of epoch 3 on genesis. Gateway 3 is in epoch 3, its
/// turn, and A lacks one vote there.
fn before_a_is_firm() -> Desk {
    let mut desk = Desk::start(4, 0b1001);
    desk.take(0, &proposal(3, 3, C, ZERO, PLAIN));
    desk.take(3, &proposal(1, 1, A, ZERO, PLAIN));
    desk.take(3, &cast(3));
    desk.take(3, &vote(1, A));
    for sender in [0, 1, 2] {
        desk.take(3, &clock(sender, 3));
    }
    assert_eq!(desk.gateway(3).local.0, 3);
    desk
}

#[test]
fn refusal_22_for_an_own_block_on_another_parent() {
    // On genesis it is the same block; on A, once that is firm, another.
    let mut desk = before_a_is_firm();
    desk.take(3, &propose(3, C, PLAIN));
    let mut desk = before_a_is_firm();
    desk.take(3, &vote(2, A));
    assert_eq!(desk.gateway(3).local.0, 3);
    desk.refuse(3, &propose(3, C, PLAIN), RENAMED);
    desk.take(3, &propose(3, D, PLAIN));
    // What gateway 3 proposed on A is no block on genesis.
    desk.refuse(0, &proposal(3, 3, D, ZERO, PLAIN), RENAMED);
    desk.refuse(0, &proposal(3, 3, D, A, PLAIN), UNKNOWN);
}

#[test]
fn a_full_table_answers_14_after_22() {
    let mut desk = Desk::start(4, 0b0011);
    for number in 0..64 {
        desk.take(0, &proposal(1, 1, numbered(number), ZERO, PLAIN));
    }
    desk.refuse(0, &proposal(1, 1, A, ZERO, PLAIN), FULL);
    desk.take(1, &proposal(2, 2, A, ZERO, PLAIN));
    desk.refuse(0, &proposal(1, 1, A, ZERO, PLAIN), RENAMED);
    desk.refuse(0, &proposal(2, 2, A, ZERO, PLAIN), FULL);
}

#[test]
fn no_once_two_lists_fork() {
    let mut desk = Desk::start(6, 0b11_0001);
    desk.finalise(4, A, B);
    assert!(desk.hall.agree());
    // The third list is empty, the fork is between the other two.
    desk.finalise(5, C, D);
    assert!(!desk.hall.agree());
    assert!(final_names(desk.gateway(0)).is_empty());
    // It stays, whatever comes, also for refused records.
    desk.refuse(1, &[], RECEIVER);
    desk.finalise(0, A, B);
    assert!(!desk.hall.agree());
}

#[test]
fn yes_while_one_list_begins_the_other() {
    let mut desk = Desk::start(6, 0b11_0001);
    desk.finalise(4, A, B);
    desk.finalise(5, A, B);
    desk.take(4, &proposal(3, 3, C, B, PLAIN));
    desk.take(4, &cast(4));
    for sender in 1..=3 {
        desk.take(4, &vote(sender, C));
    }
    assert_eq!(final_names(desk.gateway(4)), [A, B]);
    assert_eq!(final_names(desk.gateway(5)), [A]);
    assert!(desk.hall.agree());
}

#[test]
fn the_lists_of_torn_nodes_count() {
    // Gateway 5 follows what tore gateway 0: the fork is with the torn one's list.
    let mut desk = Desk::start(6, 0b10_0001);
    tear(&mut desk);
    assert!(desk.hall.agree());
    for (epoch, name, parent) in [(1, A2, ZERO), (2, D2, A2)] {
        desk.take(5, &proposal(epoch as u8, epoch, name, parent, ONES));
        for sender in 1..=4 {
            desk.take(5, &vote(sender, name));
        }
    }
    assert_eq!(final_names(desk.gateway(5)), [A2]);
    assert!(!desk.hall.agree());
    // Had it followed the torn one's blocks, they would agree.
    let mut desk = Desk::start(6, 0b10_0001);
    tear(&mut desk);
    for (epoch, name, parent) in [(1, A, ZERO), (2, B, A)] {
        desk.take(5, &proposal(epoch as u8, epoch, name, parent, PLAIN));
        for sender in 1..=4 {
            desk.take(5, &vote(sender, name));
        }
    }
    assert_eq!(final_names(desk.gateway(5)), [A]);
    assert!(desk.hall.agree() && well_shaped(desk.gateway(0)));
}

#[test]
fn a_hall_of_one() {
    // Its own vote is a quorum, and nobody else is heard.
    let mut desk = Desk::start(1, 1);
    for name in [A, B] {
        desk.take(0, &propose(0, name, PLAIN));
        assert_eq!(desk.take(0, &cast(0)), vote(0, name));
    }
    assert_eq!(final_names(desk.gateway(0)), [A]);
    desk.refuse(0, &vote(0, A), SENDER);
    desk.refuse(0, &vote(0, C), NEVER_CAST);
    desk.refuse(0, &proposal(0, 3, C, B, PLAIN), SENDER);
    desk.refuse(0, &proposal(0, 1, A, ZERO, ONES), RENAMED);
    desk.refuse(1, &cast(0), RECEIVER);
}
