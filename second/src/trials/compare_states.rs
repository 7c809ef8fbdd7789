//! Hands generated cases to another program and compares its replies, byte for
//! byte.

use std::env;
use std::ffi::OsStr;
use std::fs;
use std::io::{self, Write};
use std::process::Command;

use crate::state::{MAX_BLOCKS, MAX_NODES, NAME_LEN, PAYLOAD_LEN, ROWS};

use super::cases::case;
use super::compare::play;
use super::tally::Tally;
use super::wire::{Case, Reply, NUMBER_LEN, OUT_AREA, REPLY_LEN};

/// Cases that are handed over at once.
const BATCH: u64 = 1000;
/// The names of a state's numbers, in their order.
const NUMBERS: [&str; 8] = [
    "n",
    "own number",
    "local epoch",
    "bar",
    "last epoch voted in",
    "last epoch proposed in",
    "number of blocks",
    "kept place",
];

/// Compares a program's replies with the library's own on so many generated
/// cases. True where all were the same and all that had to be met was.
pub fn compare_states(
    program: &OsStr,
    count: u64,
    seed: u64,
    output: &mut impl Write,
) -> io::Result<bool> {
    let mut tally = Tally::default();
    let mut first = 0;
    while first < count {
        let next = count.min(first + BATCH);
        let cases: Vec<Case> = (first..next).map(|index| case(seed, index)).collect();
        let label = |index: usize| format!("case {} of seed {seed}", first + index as u64);
        if !replies_the_same(program, &cases, label, &mut tally, output)? {
            return Ok(false);
        }
        first = next;
    }
    let missing = tally.missing();
    for never in &missing {
        writeln!(output, "never met: {never}")?;
    }
    writeln!(output, "{tally}")?;
    Ok(missing.is_empty())
}

/// One batch; the first difference is shown, and its case kept.
fn replies_the_same(
    program: &OsStr,
    cases: &[Case],
    label: impl Fn(usize) -> String,
    tally: &mut Tally,
    output: &mut impl Write,
) -> io::Result<bool> {
    let input: Vec<Vec<u8>> = cases.iter().map(Case::bytes).collect();
    let played = play(Command::new(program), &input.concat())?;
    let mut replies = played.stdout.chunks(REPLY_LEN);
    for (index, case) in cases.iter().enumerate() {
        let expected = Reply::to(case);
        tally.count(case, &expected);
        let replied = replies.next().unwrap_or_default();
        if let Some(difference) = difference(&expected.bytes(), replied) {
            let (case, status) = (described(case), played.status);
            writeln!(output, "{} ({case}), {status}", label(index))?;
            writeln!(output, "{difference}")?;
            keep(&label(index), &input[index], output)?;
            return Ok(false);
        }
    }
    let more: usize = replies.map(<[u8]>::len).sum();
    let same = played.status.success() && more == 0;
    if !same {
        let (last, status) = (label(cases.len() - 1), played.status);
        writeln!(output, "after {last}: {more} bytes more, {status}")?;
    }
    Ok(same)
}

/// What a case is about, in a few words.
fn described(case: &Case) -> String {
    let kind = match case.record().first() {
        Some(kind) => format!("kind {kind}"),
        None => "no kind".to_owned(),
    };
    let (record, out) = (case.record_len, case.out_len);
    format!("{kind}, record of {record} bytes, out buffer of {out}")
}

fn keep(label: &str, bytes: &[u8], output: &mut impl Write) -> io::Result<()> {
    let name = format!("second {label}.case").replace(' ', "-");
    let path = env::temp_dir().join(name);
    fs::write(&path, bytes)?;
    writeln!(output, "kept as {}", path.display())
}

/// The first part of a reply that differs, with what each has there.
pub fn difference(expected: &[u8], replied: &[u8]) -> Option<String> {
    let pairs = expected.iter().zip(replied);
    let alike = pairs.take_while(|(one, other)| one == other).count();
    if alike == expected.len() && alike == replied.len() {
        return None;
    }
    if replied.len() < expected.len() && alike == replied.len() {
        let (whole, there) = (expected.len(), replied.len());
        return Some(format!("reply: expected {whole} bytes, there are {there}"));
    }
    let mut start = 0;
    for (part, length) in parts() {
        let end = start + length;
        if alike < end {
            let (expected, replied) = (shown(expected, start, end), shown(replied, start, end));
            return Some(format!("{part}: expected {expected}, replied {replied}"));
        }
        start = end;
    }
    Some("reply: bytes past its end".to_owned())
}

/// Bytes of a part: a byte or a number as such, all else in hex.
fn shown(reply: &[u8], start: usize, end: usize) -> String {
    let part = &reply[start.min(reply.len())..end.min(reply.len())];
    match *part {
        [byte] => byte.to_string(),
        [a, b, c, d] => u32::from_le_bytes([a, b, c, d]).to_string(),
        _ => part.iter().map(|byte| format!("{byte:02x}")).collect(),
    }
}

/// The parts of a reply, each with its bytes, in their order.
fn parts() -> Vec<(String, usize)> {
    let mut parts = vec![("answer".to_owned(), 1)];
    for place in 0..ROWS {
        let fields = [
            ("name", NAME_LEN),
            ("payload", PAYLOAD_LEN),
            ("voters", MAX_NODES),
            ("epoch", NUMBER_LEN),
            ("parent", NUMBER_LEN),
        ];
        parts.extend(fields.map(|(field, length)| (format!("place {place}, {field}"), length)));
    }
    parts.extend((0..MAX_NODES).map(|node| (format!("clock of node {node}"), NUMBER_LEN)));
    parts.extend(NUMBERS.map(|number| (number.to_owned(), NUMBER_LEN)));
    parts.push(("torn".to_owned(), 1));
    parts.extend((0..OUT_AREA).map(|at| (format!("out byte {at}"), 1)));
    parts.push(("final list, answer".to_owned(), 1));
    parts.push(("final list, count".to_owned(), 1));
    parts.extend((0..MAX_BLOCKS).map(|name| (format!("final list, name {name}"), NAME_LEN)));
    parts
}
