//! Scripts of calls, read and answered by a small model of its own.

mod common;

use std::collections::BTreeSet;
use std::sync::LazyLock;

use common::*;
use second::trials::script::{print_answers, write_script};
use second::{final_list, step, State};

/// As many as forks at every index need.
const CALLS: u64 = 520;
const SEED: u64 = 1;

static SCRIPT: LazyLock<Vec<u8>> = LazyLock::new(|| script(CALLS, SEED));
static TEXT: LazyLock<String> = LazyLock::new(|| answers(&SCRIPT));

fn script(count: u64, seed: u64) -> Vec<u8> {
    let mut script = Vec::new();
    write_script(count, seed, &mut script).unwrap();
    script
}

fn answers(script: &[u8]) -> String {
    let mut text = Vec::new();
    print_answers(script, &mut text).unwrap();
    String::from_utf8(text).unwrap()
}

/// Reads a script by the layout that it is documented to have.
struct Reader<'a>(&'a [u8]);

impl<'a> Reader<'a> {
    fn take(&mut self, length: usize) -> &'a [u8] {
        let (part, rest) = self.0.split_at(length);
        self.0 = rest;
        part
    }

    fn byte(&mut self) -> u8 {
        self.take(1)[0]
    }

    fn number(&mut self) -> u32 {
        let bytes = self.take(4);
        let value = |at: usize| u32::from(bytes[at]) << (8 * at);
        value(0) + value(1) + value(2) + value(3)
    }

    fn lent(&mut self) -> (u8, &'a [u8]) {
        let offset = self.byte();
        let length = self.number() as usize;
        (offset, self.take(length))
    }
}

/// A run as it is worded: all the lengths, then the start, then record by record.
fn model_run(n: u32, own: u32, records: &[u8], list: &mut [u8]) -> u64 {
    if !records.len().is_multiple_of(96) || list.len() < 2048 {
        return 3 * 65_536;
    }
    if n == 0 || n > 32 || own >= n {
        return 15 * 65_536;
    }
    let mut state = State::start(n, own).1;
    for record in records.chunks(96) {
        step(&mut state, record, &mut [0; 96]);
    }
    final_list(&state, list).unwrap() as u64
}

/// The relation name by name, as long as both have one.
fn model_relation(a: &[u8], b: &[u8]) -> u64 {
    if !a.len().is_multiple_of(32) || !b.len().is_multiple_of(32) {
        return 4 << 60;
    }
    let (mut a_names, mut b_names) = (a.chunks(32), b.chunks(32));
    for index in 0.. {
        match (a_names.next(), b_names.next()) {
            (None, None) => return 0,
            (Some(_), None) => return 1 << 60,
            (None, Some(_)) => return 2 << 60,
            (Some(x), Some(y)) if x != y => return (3 << 60) + index,
            _ => {}
        }
    }
    unreachable!("a list ends")
}

fn model_answers(script: &[u8]) -> String {
    let mut reader = Reader(script);
    let mut text = String::new();
    for number in 1.. {
        if reader.0.is_empty() {
            break;
        }
        if reader.byte() == 1 {
            let (n, own) = (reader.number(), reader.number());
            let (_, records) = reader.lent();
            let (_, length, first) = (reader.byte(), reader.number(), reader.byte());
            let bytes = (0..length).map(|at| (u32::from(first) + at) as u8);
            let mut list: Vec<u8> = bytes.collect();
            let answer = model_run(n, own, records, &mut list);
            let hex: String = list.iter().map(|byte| format!("{byte:02x}")).collect();
            text += &format!("{number} run {answer} {length}:{hex}\n");
        } else {
            let ((_, a), (_, b)) = (reader.lent(), reader.lent());
            text += &format!("{number} relation {}\n", model_relation(a, b));
        }
    }
    text
}

/// The words of each line, up to a list buffer's bytes.
fn lines(text: &str) -> Vec<(&str, u64, &str)> {
    text.lines()
        .map(|line| {
            let mut words = line.split([' ', ':']).skip(1);
            let call = words.next().unwrap();
            let answer = words.next().unwrap().parse().unwrap();
            (call, answer, words.next().unwrap_or_default())
        })
        .collect()
}

#[test]
fn the_answers_are_the_models() {
    let script = script(100, SEED + 1);
    let (answered, modelled) = (answers(&script), model_answers(&script));
    assert_eq!(answered.lines().count(), 100);
    assert!(answered == modelled);
}

#[test]
fn runs_of_every_kind_come_up() {
    let runs: Vec<_> = lines(&TEXT)
        .into_iter()
        .filter(|(call, ..)| *call == "run")
        .collect();
    let lengths: BTreeSet<&str> = runs.iter().map(|(.., length)| *length).collect();
    let expected = ["0", "1", "2047", "2048", "2049", "4096"];
    assert_eq!(lengths, BTreeSet::from(expected));
    let times = |wanted: fn(u64) -> bool| runs.iter().filter(|run| wanted(run.1)).count();
    assert!(times(|answer| answer == 3 << 16) > 30);
    assert!(times(|answer| answer == 15 << 16) > 30);
    assert!(times(|answer| answer == 0) > 30);
    assert!(times(|answer| (1..=64).contains(&answer)) > 30);
    assert!(times(|answer| (20..=64).contains(&answer)) > 0);
}

#[test]
fn relations_of_every_kind_and_forks_at_every_index_come_up() {
    let relations = lines(&TEXT).into_iter().filter(|(call, ..)| *call != "run");
    let codes: BTreeSet<u64> = relations.map(|(_, code, _)| code).collect();
    let mut expected = BTreeSet::from([0, 1 << 60, 2 << 60, 4 << 60]);
    expected.extend((0..=64).map(|index| (3 << 60) + index));
    assert_eq!(codes, expected);
}

#[test]
fn numbers_and_offsets_of_every_kind_come_up() {
    let mut reader = Reader(&SCRIPT);
    let (mut numbers, mut offsets) = (BTreeSet::new(), BTreeSet::new());
    let mut odd_lengths = BTreeSet::new();
    while !reader.0.is_empty() {
        if reader.byte() == 1 {
            numbers.extend([reader.number(), reader.number()]);
            let (offset, records) = reader.lent();
            odd_lengths.insert(records.len() % 96);
            offsets.extend([offset, reader.byte()]);
            reader.take(5);
        } else {
            offsets.extend([reader.lent().0, reader.lent().0]);
        }
    }
    let borders = BTreeSet::from([0, 32, 33, 255, 256, u32::MAX]);
    assert!(numbers.is_superset(&borders), "{numbers:?}");
    assert!(numbers.iter().any(|number| (257..=288).contains(number)));
    assert_eq!(offsets, (0..16).collect());
    assert!(odd_lengths.len() > 20, "{odd_lengths:?}");
}

#[test]
fn a_seed_gives_the_same_script() {
    assert!(script(60, 9) == script(60, 9));
    assert!(script(60, 9) != script(60, 10));
    assert!(script(60, 9).starts_with(&script(40, 9)));
    assert!(script(0, 9).is_empty());
}

#[test]
fn a_relation_and_a_run_are_answered() {
    let mut script = vec![2, 0, 64, 0, 0, 0];
    script.extend([A, B].concat());
    script.extend([7, 64, 0, 0, 0]);
    script.extend([A, C].concat());
    script.extend([1, 4, 0, 0, 0, 0, 1, 0, 0]);
    script.extend([0, 0, 0, 0, 0]);
    script.extend([3, 4, 0, 0, 0, 0xFE]);
    let expected = format!("1 relation {}\n2 run 196608 4:feff0001\n", (3u64 << 60) + 1);
    assert_eq!(answers(&script), expected);
}

#[test]
fn a_script_that_breaks_off_is_an_error() {
    let whole = script(2, SEED);
    for length in [1, 5, 9, 20, whole.len() - 1] {
        assert!(print_answers(&whole[..length], &mut Vec::new()).is_err());
    }
    assert!(print_answers(&[3], &mut Vec::new()).is_err());
    assert!(print_answers(&[], &mut Vec::new()).is_ok());
}
