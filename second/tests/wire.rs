//! Cases and replies as bytes, each part at its own place.

mod common;

use common::*;
use second::trials::cases::{case, write_cases};
use second::trials::compare_states::difference;
use second::trials::wire::{step_cases, Case, Reply, CASE_LEN, REPLY_LEN, STATE_LEN};
use second::{Epoch, NodeNo, Place, State, Voters};

/// Where the parts of a state begin.
const CLOCKS: usize = 65 * 96;
const NUMBERS: usize = CLOCKS + 32 * 4;
const TORN_BYTE: usize = NUMBERS + 8 * 4;
/// Where the parts of a case begin, after the state.
const RECORD: usize = TORN_BYTE + 1;
const OUT: usize = RECORD + 4 + 256;
/// Where the parts of a reply begin, after the answer and the state.
const REPLY_OUT: usize = 1 + RECORD;
const LIST: usize = REPLY_OUT + 128;

/// A state whose every field has a number of its own.
fn telling_state() -> State {
    let mut state = chain_of(64);
    state.n = 0x0403_0201;
    state.own = NodeNo(0x1413_1211);
    state.local = Epoch(0x2423_2221);
    state.bar = Epoch(0x3433_3231);
    state.voted = Epoch(0x4443_4241);
    state.proposed = Epoch(0x5453_5251);
    state.count = 0x6463_6261;
    state.kept = Place(0x7473_7271);
    state.torn = true;
    state.clocks[31] = Epoch(0x8483_8281);
    let row = &mut state.blocks[2];
    row.name = A;
    row.payload = ONES;
    row.voters = Voters(1 << 3 | 1 << 31);
    row.epoch = Epoch(0x9493_9291);
    row.parent = Place(0xA4A3_A2A1);
    state
}

fn telling_case() -> Case {
    Case {
        state: telling_state(),
        record_len: 97,
        record: [0xAB; 256],
        out_len: 95,
        out: [0xCD; 128],
    }
}

/// The session's state with a record, among bytes that belong to nothing.
fn session_case(records: usize, record: Bytes) -> Case {
    let mut area = [UNTOUCHED; 256];
    area[..96].copy_from_slice(&record);
    Case {
        state: Node::in_session(records).state,
        record_len: 96,
        record: area,
        out_len: 96,
        out: [UNTOUCHED; 128],
    }
}

#[track_caller]
fn check_telling_state(bytes: &[u8]) {
    let row = &bytes[2 * 96..3 * 96];
    assert_eq!(row[..32], A);
    assert_eq!(row[32..56], ONES);
    let mut voters = [0; 32];
    (voters[3], voters[31]) = (1, 1);
    assert_eq!(row[56..88], voters);
    assert_eq!(row[88..92], [0x91, 0x92, 0x93, 0x94]);
    assert_eq!(row[92..], [0xA1, 0xA2, 0xA3, 0xA4]);
    assert_eq!(bytes[NUMBERS - 4..NUMBERS], [0x81, 0x82, 0x83, 0x84]);
    for (index, number) in bytes[NUMBERS..TORN_BYTE].chunks(4).enumerate() {
        let low = (index << 4) as u8 + 1;
        assert_eq!(number, [low, low + 1, low + 2, low + 3]);
    }
    assert_eq!(bytes[TORN_BYTE], 1);
}

#[test]
fn the_lengths_are_those_agreed_on() {
    assert_eq!((STATE_LEN, CASE_LEN, REPLY_LEN), (6401, 6793, 8580));
}

#[test]
fn a_case_has_each_part_at_its_place() {
    let bytes = telling_case().bytes();
    assert_eq!(bytes.len(), CASE_LEN);
    check_telling_state(&bytes[..STATE_LEN]);
    assert_eq!(bytes[RECORD..RECORD + 4], [97, 0, 0, 0]);
    assert_eq!(bytes[RECORD + 4..OUT], [0xAB; 256]);
    assert_eq!(bytes[OUT..OUT + 4], [95, 0, 0, 0]);
    assert_eq!(bytes[OUT + 4..], [0xCD; 128]);
}

#[test]
fn a_reply_has_each_part_at_its_place() {
    let bytes = Reply::to(&telling_case()).bytes();
    assert_eq!(bytes.len(), REPLY_LEN);
    assert_eq!(bytes[0], STATE);
    check_telling_state(&bytes[1..=STATE_LEN]);
    assert_eq!(bytes[REPLY_OUT..LIST], [0xCD; 128]);
    assert_eq!(bytes[LIST..LIST + 2], [STATE, 0]);
    assert_eq!(bytes[LIST + 2..], [0x55; 2048]);
}

#[test]
fn what_is_laid_out_is_read_back() {
    for index in 0..500 {
        let case = case(3, index);
        assert!(Case::read(&case.bytes()).as_ref() == Some(&case), "{index}");
    }
    assert_eq!(Case::read(&telling_case().bytes()), Some(telling_case()));
}

#[test]
fn only_a_whole_case_is_read() {
    let bytes = telling_case().bytes();
    assert_eq!(Case::read(&[]), None);
    assert_eq!(Case::read(&bytes[..CASE_LEN - 1]), None);
    assert_eq!(Case::read(&[&bytes[..], &[0]].concat()), None);
}

#[test]
fn lengths_are_cut_to_their_areas() {
    let mut bytes = telling_case().bytes();
    bytes[RECORD..RECORD + 4].copy_from_slice(&[1, 1, 0, 0]);
    bytes[OUT..OUT + 4].copy_from_slice(&[0, 0, 0, 1]);
    let case = Case::read(&bytes).unwrap();
    assert_eq!((case.record_len, case.out_len), (256, 128));
    assert_eq!(case.record(), [0xAB; 256]);
}

#[test]
fn any_byte_but_zero_is_a_voter_or_a_tear() {
    let mut bytes = session_case(8, cast(0)).bytes();
    bytes[96 + 56 + 3] = 0x80;
    bytes[TORN_BYTE] = 2;
    let state = Case::read(&bytes).unwrap().state;
    assert!(state.torn && state.blocks[1].voters.contains(NodeNo(3)));
}

#[test]
fn a_taken_record_replies_the_new_state_and_what_is_sent() {
    let case = session_case(5, cast(0));
    let reply = Reply::to(&case);
    let mut node = Node::in_session(5);
    let sent = node.take(&cast(0));
    assert_eq!(reply.answer, 0);
    assert_eq!(reply.state, node.state);
    assert_eq!(reply.out[..96], sent);
    assert_eq!(reply.out[96..], [UNTOUCHED; 32]);
    assert_eq!((reply.list_answer, reply.list_count), (0, 0));
}

#[test]
fn the_list_is_that_of_the_state_that_comes_back() {
    let reply = Reply::to(&session_case(7, vote(2, B)));
    assert_eq!((reply.answer, reply.list_answer), (0, 0));
    assert_eq!(reply.list_count, 1);
    assert_eq!(reply.list[..32], A);
    assert_eq!(reply.list[32..], [0x55; 2016]);
}

#[test]
fn the_lengths_lent_are_those_of_the_case() {
    for (record_len, out_len, answer) in [
        (96, 96, 0),
        (0, 96, LENGTH),
        (95, 96, LENGTH),
        (97, 96, LENGTH),
        (96, 0, LENGTH),
        (96, 95, LENGTH),
        (96, 128, LENGTH),
    ] {
        let case = Case {
            record_len,
            out_len,
            ..session_case(5, cast(0))
        };
        let reply = Reply::to(&case);
        assert_eq!(reply.answer, answer, "{record_len} {out_len}");
        let unchanged = reply.state == case.state && reply.out == case.out;
        assert_eq!(unchanged, answer != 0);
    }
}

#[test]
fn cases_are_stepped_until_one_is_short() {
    let mut cases = Vec::new();
    write_cases(3, 5, &mut cases).unwrap();
    let replies: Vec<Vec<u8>> = (0..3).map(|at| Reply::to(&case(5, at)).bytes()).collect();
    for (length, replied) in [
        (0, 0),
        (1, 0),
        (CASE_LEN - 1, 0),
        (CASE_LEN, 1),
        (3 * CASE_LEN - 1, 2),
        (3 * CASE_LEN, 3),
    ] {
        let mut output = Vec::new();
        step_cases(&cases[..length], &mut output).unwrap();
        assert!(output == replies[..replied].concat(), "{length}");
    }
}

#[test]
fn equal_replies_have_no_difference() {
    let reply = Reply::to(&session_case(7, vote(2, B))).bytes();
    assert_eq!(difference(&reply, &reply), None);
}

#[test]
fn the_first_part_that_differs_is_named() {
    let expected = Reply::to(&session_case(7, vote(2, B))).bytes();
    let zero = "00".repeat(24);
    let payload = format!(
        "place 64, payload: expected {zero}, replied 01{}",
        &zero[2..]
    );
    for (at, part) in [
        (0, "answer: expected 0, replied 1"),
        (1 + 64 * 96 + 32, payload.as_str()),
        (1 + 96 + 88 + 1, "place 1, epoch: expected 1, replied 257"),
        (1 + 2 * 96 + 92, "place 2, parent: expected 1, replied 0"),
        (
            1 + CLOCKS + 31 * 4 + 3,
            "clock of node 31: expected 0, replied 16777216",
        ),
        (1 + NUMBERS, "n: expected 4, replied 5"),
        (1 + NUMBERS + 7 * 4, "kept place: expected 1, replied 0"),
        (1 + TORN_BYTE, "torn: expected 0, replied 1"),
        (REPLY_OUT + 127, "out byte 127: expected 238, replied 239"),
        (LIST, "final list, answer: expected 0, replied 1"),
        (LIST + 1, "final list, count: expected 1, replied 0"),
    ] {
        let mut replied = expected.clone();
        replied[at] ^= 1;
        assert_eq!(difference(&expected, &replied).as_deref(), Some(part));
        // Whatever else differs after it.
        for byte in &mut replied[at + 32..] {
            *byte ^= 0xFF;
        }
        assert_eq!(difference(&expected, &replied).as_deref(), Some(part));
    }
}

#[test]
fn a_name_of_the_list_is_shown_whole() {
    let expected = Reply::to(&session_case(7, vote(2, B))).bytes();
    let mut replied = expected.clone();
    replied[LIST + 2 + 32 + 31] = 0;
    let untouched = "55".repeat(31);
    let shown = format!("final list, name 1: expected {untouched}55, replied {untouched}00");
    assert_eq!(difference(&expected, &replied), Some(shown));
}

#[test]
fn a_reply_that_breaks_off_or_goes_on_differs() {
    let expected = Reply::to(&session_case(7, vote(2, B))).bytes();
    let short = "reply: expected 8580 bytes, there are 100";
    assert_eq!(
        difference(&expected, &expected[..100]).as_deref(),
        Some(short)
    );
    let long = [&expected[..], &[0]].concat();
    assert!(difference(&expected, &long).is_some());
}
