//! A run: its refusals, its answer, its list buffer.

mod common;

use common::*;
use second::run;

/// The answer and the list buffer of a run with a buffer of this length.
fn run_with(n: u32, own: u32, records: &[u8], list_len: usize) -> (u64, Vec<u8>) {
    let mut list = vec![UNTOUCHED; list_len];
    let answer = run(n, own, records, &mut list);
    (answer, list)
}

/// Expects a refusal: count 0 and nothing written.
#[track_caller]
fn refused(n: u32, own: u32, records: &[u8], list_len: usize, refusal: u8) {
    let (answer, list) = run_with(n, own, records, list_len);
    assert_eq!(answer, u64::from(refusal) * 65_536);
    assert_eq!(list, vec![UNTOUCHED; list_len]);
}

#[test]
fn the_session_runs_to_a_alone() {
    for list_len in [2048, 2049, 4096] {
        let (answer, list) = run_with(4, 0, &session().concat(), list_len);
        assert_eq!(answer, 1);
        assert_eq!(list[..32], A);
        assert_eq!(list[32..], vec![UNTOUCHED; list_len - 32]);
    }
}

#[test]
fn no_record_at_all_answers_0() {
    assert_eq!(run_with(4, 0, &[], 2048), (0, vec![UNTOUCHED; 2048]));
}

#[test]
fn a_slice_that_is_no_multiple_of_96_is_3() {
    let records = session().concat();
    for length in [1, 95, 97, 191, records.len() - 1] {
        refused(4, 0, &records[..length], 2048, LENGTH);
    }
}

#[test]
fn a_list_buffer_under_2048_bytes_is_3_always() {
    for list_len in [0, 32, 2047] {
        refused(4, 0, &session().concat(), list_len, LENGTH);
        refused(4, 0, &[], list_len, LENGTH);
    }
}

#[test]
fn a_refused_start_is_15() {
    let starts = [
        (0, 0),
        (33, 0),
        (255, 0),
        (256, 0),
        (260, 0),
        (4, 4),
        (4, 255),
        (4, 256),
        (4, 260),
    ];
    for (n, own) in starts {
        refused(n, own, &session().concat(), 2048, START);
        refused(n, own, &[], 2048, START);
    }
    refused(u32::MAX, u32::MAX, &[], 2048, START);
}

#[test]
fn order_3_before_15() {
    refused(0, 0, &[0; 95], 2048, LENGTH);
    refused(256, 0, &[], 2047, LENGTH);
    refused(4, 4, &[0; 1], 0, LENGTH);
}

#[test]
fn refused_records_are_passed_over() {
    let mut records = vec![[0xFF; 96], vote(1, A)];
    for record in session() {
        records.push(record);
        records.push(with_byte(record, 2, 1));
        records.push([0; 96]);
    }
    let (answer, list) = run_with(4, 0, &records.concat(), 2048);
    assert_eq!(answer, 1);
    assert_eq!(list[..32], A);
}

#[test]
fn a_torn_run_answers_like_any_other() {
    let mut records = session();
    records.extend(tearing());
    // Once torn, what would have finalized B is passed over.
    records.push(proposal(3, 3, C, B, PLAIN));
    records.extend([vote(1, C), vote(2, C), vote(3, C)]);
    let (answer, list) = run_with(4, 0, &records.concat(), 2048);
    assert_eq!(answer, 1);
    assert_eq!(list[..32], A);
    assert_eq!(list[32..], [UNTOUCHED; 2016]);
}

#[test]
fn the_longest_final_list_of_a_run() {
    let mut records = Vec::new();
    for number in 1..=64 {
        records.extend(propose(0, numbered(number), PLAIN));
        records.extend(cast(0));
    }
    let (answer, list) = run_with(1, 0, &records, 2048);
    assert_eq!(answer, 63);
    let names: Vec<u8> = (1..=63).flat_map(numbered).collect();
    assert_eq!(list[..2016], names);
    assert_eq!(list[2016..], [UNTOUCHED; 32]);
}

#[test]
fn the_highest_counts_are_taken() {
    assert_eq!(run_with(32, 31, &minute(31), 2048).0, 0);
}
