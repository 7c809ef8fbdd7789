//! The hall's three bundled recordings: their bytes, their text, their lists.

mod common;

use std::fs;

use common::*;
use second::hall::STRETCH_LEN;
use second::state::NodeNo;
use second::trials::hall_examples::example;
use second::{final_names, Hall};

/// The hall at the end of a recording.
fn played(recording: &[u8]) -> Hall {
    let mut hall = Hall::start(recording[0], recording[1]).unwrap();
    for stretch in recording[2..].chunks(STRETCH_LEN) {
        hall.hear(NodeNo(stretch[0].into()), &stretch[1..], &mut [0; 96]);
    }
    hall
}

fn list_at(hall: &Hall, node: u32) -> Vec<[u8; 32]> {
    final_names(hall.gateway(NodeNo(node)).unwrap())
}

#[test]
fn the_bundled_files_are_the_examples() {
    for name in ["session", "sharp", "liar"] {
        let bundled = fs::read(format!("../recordings/hall-{name}.rec")).unwrap();
        assert!(bundled == example(name).unwrap(), "{name}");
    }
    assert!(example("other").is_none());
}

#[test]
fn node_0_hears_and_does_the_session() {
    let recording = example("session").unwrap();
    assert_eq!(recording[..2], [4, 0b1111]);
    let stretches = recording[2..].chunks(STRETCH_LEN);
    let at_node_0: Vec<Bytes> = stretches
        .filter(|stretch| stretch[0] == 0)
        .map(|stretch| stretch[1..].try_into().unwrap())
        .collect();
    assert_eq!(at_node_0, session());
}

#[test]
fn the_session_as_a_hall() {
    let recording = example("session").unwrap();
    // Every vote is heard after it was cast, and the honest keep to the rules:
    // all 32 records are taken.
    let expected: String = (1..=32).map(|line| format!("{line} 0 yes\n")).collect();
    assert_eq!(hall_lines(&recording), expected);
    let hall = played(&recording);
    for node in 0..4 {
        assert_eq!(list_at(&hall, node), [A], "node {node}");
    }
}

#[test]
fn a_third_faulty_makes_a_fork() {
    let recording = example("sharp").unwrap();
    assert_eq!(recording[..2], [3, 0b011]);
    let expected = "\
1 0 yes
2 0 yes
3 0 yes
4 0 yes
5 0 yes
6 0 yes
7 0 yes
8 0 yes
9 0 yes
10 0 yes
11 0 yes
12 0 yes
13 0 yes
14 0 no
";
    // 1 to 6: propose A, cast, vote A from 2: a quorum of two, epoch 2. B heard,
    // cast, vote B from 2: A is final at gateway 1; gateway 0's list is empty.
    // 7 and 8: two clocks of 2 at gateway 0: epoch 2, bar 0, as genesis is freshest.
    // 9 to 11: the other B on genesis heard, cast, voted for: epoch 3, nothing final,
    // as a block of epoch 2 on genesis isn't normal.
    // 12 to 14: propose C, cast, vote C from 2: C is normal, the other B is final.
    assert_eq!(hall_lines(&recording), expected);
    let hall = played(&recording);
    assert_eq!(list_at(&hall, 1), [A]);
    assert_eq!(list_at(&hall, 0), [[0x1B; 32]]);
    assert!(hall.gateway(NodeNo(2)).is_none());
}

#[test]
fn no_record_of_the_fork_can_be_left_out() {
    let recording = example("sharp").unwrap();
    let stretches: Vec<&[u8]> = recording[2..].chunks(STRETCH_LEN).collect();
    for left_out in 0..stretches.len() {
        let mut shorter = stretches.clone();
        shorter.remove(left_out);
        let shorter = [&recording[..2], &shorter.concat()].concat();
        assert!(!hall_lines(&shorter).contains("no"), "{left_out}");
    }
}

#[test]
fn a_liar_among_four() {
    let recording = example("liar").unwrap();
    assert_eq!(recording[..2], [4, 0b0111]);
    let expected = "\
1 0 yes
2 0 yes
3 21 yes
4 0 yes
5 0 yes
6 0 yes
7 0 yes
8 0 yes
9 0 yes
10 22 yes
11 0 yes
12 0 yes
13 0 yes
14 20 yes
15 0 yes
16 0 yes
17 0 yes
";
    // 1 and 2: gateway 1 proposes A, gateway 2 hears it.
    // 3 to 5: vote A from 1, which it hasn't cast; it casts; the same vote again.
    // 6 and 7: gateway 2 casts, and with 3's vote has three: epoch 2.
    // 8 and 9: the same at gateway 1 with the votes of 2 and 3.
    // 10: A's name for a block of epoch 3; gateways 1 and 2 hold A with epoch 1.
    // 11 to 13: gateway 2 proposes B, gateway 1 hears it and casts.
    // 14: a record for gateway 3.
    // 15 to 17: the votes for B at gateway 2, its own second: B is firm, A final.
    assert_eq!(hall_lines(&recording), expected);
    let hall = played(&recording);
    assert_eq!(list_at(&hall, 2), [A]);
    assert_eq!(list_at(&hall, 1), Vec::<[u8; 32]>::new());
    assert_eq!(hall.gateway(NodeNo(0)).unwrap().count, 0);
}

#[test]
fn a_fork_stays_when_a_third_list_agrees_with_both() {
    let recording = example("late").unwrap();
    // Five records for each block. The 15th makes C firm at gateway 4: [A, B]. The
    // 25th makes the other B firm at gateway 5: [A]. The 30th makes the list there
    // [A, other B]: the fork. The 40th makes it [A] at gateway 0.
    let yes = (1..=29).map(|line| format!("{line} 0 yes\n"));
    let no = (30..=40).map(|line| format!("{line} 0 no\n"));
    assert_eq!(hall_lines(&recording), yes.chain(no).collect::<String>());
    let hall = played(&recording);
    assert_eq!(list_at(&hall, 4), [A, B]);
    assert_eq!(list_at(&hall, 5), [A, [0x1B; 32]]);
    assert_eq!(list_at(&hall, 0), [A]);
}
