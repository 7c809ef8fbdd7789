//! The gateway's three bundled recordings: their bytes and their text.

mod common;

use std::fs;

use common::*;
use second::trials::compare::own_text;
use second::trials::examples::example;

/// The session, then a hall that leaves epoch 7 though one clock has moved on.
fn stuck() -> Vec<Bytes> {
    let mut records = session();
    records.extend([
        clock(1, 7),
        clock(2, 7),
        clock(3, 7),
        clock(2, 8),
        clock(2, 9),
        minute(0),
        clock(1, 8),
        clock(1, 9),
        clock(3, 9),
    ]);
    records
}

/// C is firm before B gets its third vote, which makes A final; then D follows on C.
fn late() -> Vec<Bytes> {
    vec![
        proposal(1, 1, A, ZERO, PLAIN),
        cast(0),
        vote(1, A),
        vote(2, A),
        proposal(2, 2, B, A, PLAIN),
        vote(1, B),
        vote(2, B),
        clock(1, 3),
        clock(2, 3),
        clock(3, 3),
        proposal(3, 3, C, A, PLAIN),
        cast(0),
        vote(1, C),
        vote(2, C),
        vote(3, B),
        propose(0, D, PLAIN),
        cast(0),
        vote(1, D),
        vote(2, D),
    ]
}

/// What `replay` prints for an example.
fn text_of(name: &str) -> String {
    let text = own_text(&example(name).unwrap()).unwrap();
    String::from_utf8(text).unwrap()
}

#[test]
fn the_bundled_files_are_the_examples() {
    for name in ["session", "stuck", "late"] {
        let bundled = fs::read(format!("../recordings/{name}.rec")).unwrap();
        assert!(bundled == example(name).unwrap(), "{name}");
    }
    assert!(example("other").is_none());
}

#[test]
fn the_examples_byte_by_byte() {
    assert!(example("session").unwrap() == recording(4, 0, &session()));
    assert!(example("stuck").unwrap() == recording(4, 0, &stuck()));
    assert!(example("late").unwrap() == recording(4, 0, &late()));
}

#[test]
fn a_stuck_hall_line_by_line() {
    let after = "\
9 0 3 2 1
10 0 3 2 1
11 0 7 2 1
12 0 7 2 1
13 0 7 2 1
14 0 7 2 1
15 0 8 2 1
16 0 8 2 1
17 0 9 2 1
end 17
";
    // A quorum of four is three. Kept clocks of nodes 0 to 3, and the third highest:
    // 9 to 11: 0 7 0 0, 0 7 7 0, 0 7 7 7: it is 0, 0, then 7; B of epoch 2 is freshest.
    // 12 to 14: 0 7 8 7, 0 7 9 7, 8 7 9 7: it is 7.
    // 15: 8 8 9 7: it is 8, which two nodes keep.
    // 16 and 17: 8 9 9 7, 8 9 9 9: it is 8, then 9.
    assert_eq!(text_of("stuck"), format!("{SESSION_LINES}{after}"));
}

#[test]
fn a_late_final_block_line_by_line() {
    let text = "\
1 0 1 0 0
2 0 1 0 0
3 0 1 0 0
4 0 2 1 0
5 0 2 1 0
6 0 2 1 0
7 0 2 1 0
8 0 2 1 0
9 0 2 1 0
10 0 3 1 0
11 0 3 1 0
12 0 3 1 0
13 0 3 1 0
14 0 4 3 0
15 0 4 3 1
16 0 4 3 1
17 0 4 3 1
18 0 4 3 1
19 0 5 4 2
end 19
";
    // A quorum of four is three. 1 to 4: as in the session, A is firm: epoch 2, bar 1.
    // 5 to 7: B of epoch 2 on A is heard and has two votes, none of its own node.
    // 8 to 10: with the third clock of 3 the epoch is 3; A is freshest, so the bar is 1.
    // 11 to 14: C of epoch 3 on A, whose epoch is at the bar: the own vote, then those of
    // 1 and 2. It is firm: epoch 4, bar 3. Of normal blocks only A is firm: no final block.
    // 15: B's third vote. B is firm and normal, epoch 2: A is final. C is still freshest.
    // 16 to 19: epoch 4 is node 0's turn: D on C, its own vote, then those of 1 and 2. It
    // is firm: epoch 5, bar 4. D is normal, of epoch 4: C is final, which stands on A.
    assert_eq!(text_of("late"), text);
}
