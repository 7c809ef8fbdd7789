//! The program `replay`: its lines, its ends, its reading.

mod common;
mod streams;

use std::io::{ErrorKind, Read};

use common::*;
use second::replay;
use streams::{Broken, Closed, Trickle};

fn lines(input: &[u8]) -> String {
    let mut output = Vec::new();
    replay(input, &mut output).unwrap();
    String::from_utf8(output).unwrap()
}

#[test]
fn setup_15_for_a_refused_start() {
    for (n, own) in [
        (0, 0),
        (33, 0),
        (255, 0),
        (255, 254),
        (4, 4),
        (4, 5),
        (1, 1),
        (32, 255),
    ] {
        assert_eq!(lines(&[n, own]), "setup 15\n", "{n} {own}");
        assert_eq!(
            lines(&recording(n, own, &session())),
            "setup 15\n",
            "{n} {own}"
        );
    }
}

#[test]
fn setup_15_for_under_two_bytes() {
    assert_eq!(lines(&[]), "setup 15\n");
    assert_eq!(lines(&[4]), "setup 15\n");
    assert_eq!(lines(&[1]), "setup 15\n");
}

#[test]
fn two_bytes_alone_give_end_0() {
    assert_eq!(lines(&[4, 0]), "end 0\n");
    assert_eq!(lines(&[32, 31]), "end 0\n");
}

#[test]
fn a_short_last_record_answers_3_and_counts() {
    for length in 1..96 {
        let mut input = recording(4, 0, &session());
        input.extend(&vote(3, A)[..length]);
        let output = lines(&input);
        assert!(
            output.ends_with("8 0 3 2 1\n9 3 3 2 1\nend 9\n"),
            "{length}"
        );
    }
}

#[test]
fn a_short_only_record_answers_3() {
    assert_eq!(lines(&[4, 0, 1]), "1 3 1 0 0\nend 1\n");
}

#[test]
fn a_short_last_record_answers_2_once_torn() {
    let mut records = session();
    records.extend(tearing());
    let mut input = recording(4, 0, &records);
    input.push(1);
    assert!(lines(&input).ends_with("20 0 4 3 1\n21 2 4 3 1\nend 21\n"));
}

#[test]
fn refused_records_get_lines_with_the_unchanged_numbers() {
    let mut records = session();
    records.extend([vote(2, B), vote(3, C), [0xFF; 96]]);
    let output = lines(&recording(4, 0, &records));
    assert!(output.ends_with("8 0 3 2 1\n9 12 3 2 1\n10 9 3 2 1\n11 4 3 2 1\nend 11\n"));
}

#[test]
fn recordings_longer_than_a_piece_keep_their_count() {
    for count in [1023, 1024, 1025, 2048, 5000] {
        let clocks: Vec<Bytes> = (1..=count).map(|epoch| clock(1, epoch)).collect();
        let mut input = recording(4, 0, &clocks);
        let output = lines(&input);
        assert_eq!(output.lines().count(), count as usize + 1);
        assert!(output.ends_with(&format!("{count} 0 1 0 0\nend {count}\n")));
        input.push(0);
        let short = count + 1;
        assert!(lines(&input).ends_with(&format!("{short} 3 1 0 0\nend {short}\n")));
    }
}

#[test]
fn how_the_bytes_arrive_makes_no_difference() {
    let mut input = recording(4, 0, &session());
    input.push(7);
    let mut output = Vec::new();
    replay(Trickle::of(&input), &mut output).unwrap();
    assert_eq!(String::from_utf8(output).unwrap(), lines(&input));
}

#[test]
fn an_input_error_is_passed_on() {
    let error = replay(Broken, &mut Vec::new()).unwrap_err();
    assert_eq!(error.kind(), ErrorKind::ConnectionReset);
    let error = replay([4, 0].as_slice().chain(Broken), &mut Vec::new()).unwrap_err();
    assert_eq!(error.kind(), ErrorKind::ConnectionReset);
}

#[test]
fn a_closed_output_ends_it() {
    let recorded = recording(4, 0, &session());
    for input in [&recorded[..], &[4, 0], &[]] {
        let error = replay(input, Closed).unwrap_err();
        assert_eq!(error.kind(), ErrorKind::BrokenPipe);
    }
}
