//! The program `hall`: its heads, its lines, its ends, its reading.

mod common;
mod streams;

use std::io::{ErrorKind, Read};

use common::*;
use second::hall;
use second::trials::hall_examples::example;
use streams::{Broken, Closed, Trickle};

#[test]
fn every_head_is_good_or_refused() {
    for n in 0..=255u8 {
        for honest in 0..=255u8 {
            let good = (1..=8).contains(&n) && u16::from(honest) < 1 << n;
            let expected = if good { "" } else { "setup 15\n" };
            assert_eq!(hall_lines(&[n, honest]), expected, "{n} {honest}");
        }
    }
}

#[test]
fn nothing_is_played_after_a_refused_head() {
    let told = [(0, cast(0)), (1, propose(1, A, PLAIN))];
    for [n, honest] in [[0, 0], [9, 1], [255, 0], [1, 2], [4, 0x10], [7, 0x80]] {
        let input = hall_recording(n, honest, &told);
        assert_eq!(hall_lines(&input), "setup 15\n", "{n} {honest}");
        assert_eq!(hall_lines(&input[..3]), "setup 15\n", "{n} {honest}");
    }
}

#[test]
fn a_head_cut_short_is_refused() {
    assert_eq!(hall_lines(&[]), "setup 15\n");
    for n in 0..=255 {
        assert_eq!(hall_lines(&[n]), "setup 15\n");
    }
}

#[test]
fn a_line_is_number_answer_and_yes() {
    let told = [(1, propose(1, A, PLAIN)), (1, cast(1)), (0, cast(0))];
    let input = hall_recording(4, 0b1111, &told);
    assert_eq!(hall_lines(&input), "1 0 yes\n2 0 yes\n3 13 yes\n");
}

#[test]
fn a_receiver_alone_is_a_record_of_no_byte() {
    assert_eq!(hall_lines(&[4, 1, 0]), "1 3 yes\n");
    assert_eq!(hall_lines(&[4, 1, 1]), "1 20 yes\n");
    assert_eq!(hall_lines(&[4, 1, 255]), "1 20 yes\n");
    let mut input = hall_recording(4, 1, &[(0, minute(0))]);
    input.push(0);
    assert_eq!(hall_lines(&input), "1 0 yes\n2 3 yes\n");
}

#[test]
fn a_short_last_record_answers_3_or_20() {
    for length in 0..96 {
        for (to, answer) in [(0, 3), (1, 20), (4, 20), (200, 20)] {
            let mut input = hall_recording(4, 1, &[(0, minute(0))]);
            input.push(to);
            input.extend(&clock(1, 2)[..length]);
            let expected = format!("1 0 yes\n2 {answer} yes\n");
            assert_eq!(hall_lines(&input), expected, "{length} to {to}");
        }
    }
}

#[test]
fn a_short_last_record_answers_2_once_torn() {
    // Gateway 0 alone is honest, so the session's votes are all of faulty ones.
    let told = session().into_iter().chain(tearing());
    let told: Vec<(u8, Bytes)> = told.map(|record| (0, record)).collect();
    let mut input = hall_recording(4, 1, &told);
    for length in 0..96 {
        input.truncate(2 + 20 * 97);
        input.push(0);
        input.extend(&clock(1, 2)[..length]);
        let lines = hall_lines(&input);
        assert!(lines.ends_with("20 0 yes\n21 2 yes\n"), "{length}");
    }
}

#[test]
fn with_nobody_honest_every_record_answers_20() {
    let records = [
        proposal(1, 1, A, ZERO, PLAIN),
        vote(0, A),
        vote(0, ZERO),
        clock(2, 7),
        propose(1, A, PLAIN),
        cast(0),
        minute(0),
        [0xFF; 96],
    ];
    for n in 1..=8 {
        let to_each = |to| records.map(|record| (to, record));
        let told: Vec<(u8, Bytes)> = (0..=255).flat_map(to_each).collect();
        let mut input = hall_recording(n, 0, &told);
        input.push(0);
        let expected: String = (1..=256 * 8 + 1)
            .map(|at| format!("{at} 20 yes\n"))
            .collect();
        assert!(hall_lines(&input) == expected, "n = {n}");
    }
}

#[test]
fn recordings_longer_than_a_piece_keep_their_count() {
    for count in [1023, 1024, 1025, 2048, 5000] {
        let clocks = (1..=count).map(|epoch| (epoch as u8 % 2, clock(3, epoch)));
        let told: Vec<(u8, Bytes)> = clocks.collect();
        let mut input = hall_recording(4, 0b11, &told);
        let lines = hall_lines(&input);
        assert_eq!(lines.lines().count(), count as usize);
        assert!(lines.ends_with(&format!("\n{count} 0 yes\n")));
        input.push(1);
        let short = count + 1;
        assert!(hall_lines(&input).ends_with(&format!("\n{count} 0 yes\n{short} 3 yes\n")));
    }
}

#[test]
fn how_the_bytes_arrive_makes_no_difference() {
    for name in ["session", "sharp", "liar"] {
        let mut input = example(name).unwrap();
        input.extend([0, 1, 2]);
        for end in [input.len(), input.len() - 2, input.len() - 3, 60, 2, 1, 0] {
            let mut output = Vec::new();
            hall(Trickle::of(&input[..end]), &mut output).unwrap();
            let output = String::from_utf8(output).unwrap();
            assert_eq!(output, hall_lines(&input[..end]), "{name} {end}");
        }
    }
}

#[test]
fn an_input_error_is_passed_on() {
    let error = hall(Broken, &mut Vec::new()).unwrap_err();
    assert_eq!(error.kind(), ErrorKind::ConnectionReset);
    let error = hall([4, 1].as_slice().chain(Broken), &mut Vec::new()).unwrap_err();
    assert_eq!(error.kind(), ErrorKind::ConnectionReset);
}

#[test]
fn a_closed_output_ends_it() {
    for input in [&example("liar").unwrap()[..], &[4, 1, 0], &[]] {
        let error = hall(input, Closed).unwrap_err();
        assert_eq!(error.kind(), ErrorKind::BrokenPipe);
    }
}
