//! A script of calls of the two functions that C makes, and their answers.
//!
//! A script is one call after the other. Numbers are 32 bits, low byte first.
//! A lent slice is an offset byte, a length and its bytes; the offset says how
//! far past an aligned address the caller lays it.
//!
//! - A run: byte 1, n, own number, the records as a lent slice, then the list
//!   buffer as an offset byte, a length and the first byte it holds.
//! - A relation: byte 2, both lists as lent slices.
//!
//! Before a run the list buffer's bytes count up from the first, without carry.

use std::io::{self, Write};

use crate::lists::{relation_code, Relation};
use crate::record::RECORD_LEN;
use crate::run::{run, LIST_LEN};
use crate::state::{Name, MAX_BLOCKS, NAME_LEN};

use super::coverage::Coverage;
use super::generate::recording;
use super::random::Random;

const RUN: u8 = 1;
const RELATION: u8 = 2;
/// Bytes of n and own number at the start of a recording.
const START_LEN: usize = 2;
/// The stream of numbers that the calls are made from; recordings have others.
const CALLS_STREAM: u64 = u64::MAX;
/// Offsets lie below this, so that every alignment comes up.
const OFFSETS: usize = 16;
/// Lengths of list buffers, those with room more often.
const LIST_LENGTHS: [(usize, usize); 6] = [
    (0, 1),
    (1, 1),
    (LIST_LEN - 1, 2),
    (LIST_LEN, 8),
    (LIST_LEN + 1, 6),
    (2 * LIST_LEN, 4),
];
/// Numbers at the borders, and bits that a low byte alone would drop.
const BORDER_NUMBERS: [u32; 8] = [0, 32, 33, 255, 256, 1 << 16, 1 << 31, u32::MAX];
const HIGH_BITS: [u32; 3] = [1 << 8, 1 << 16, 1 << 31];
/// Once in so many runs a number is one of these, or the last record is short.
const BAD_NUMBERS: usize = 4;
const SHORT_RECORDS: usize = 6;
/// The relations that lists are made for in turn. The numbers of names in common
/// come in turn too, and as 6 and 65 share no factor each meets each.
const RELATIONS: [Relation; 6] = [
    Relation::Equal,
    Relation::FirstLonger,
    Relation::SecondLonger,
    Relation::Fork,
    Relation::Length,
    Relation::Fork,
];
const COMMON_NAMES: usize = MAX_BLOCKS + 1;
/// A list goes on for up to so many names.
const MORE_NAMES: usize = 8;

/// A slice as the caller lends it.
struct Lent {
    offset: u8,
    bytes: Vec<u8>,
}

/// A call with all it lends.
enum Call {
    /// A run: n, own number, the records and the list buffer as it is before.
    Run(u32, u32, Lent, Lent),
    /// The relation of two lists.
    Relation(Lent, Lent),
}

/// Writes a script of so many calls, runs and relations in turn.
pub fn write_script(count: u64, seed: u64, output: &mut impl Write) -> io::Result<()> {
    let mut random = Random::new(seed, CALLS_STREAM);
    for index in 0..count {
        let turn = index / 2;
        let call = if index.is_multiple_of(2) {
            run_call(seed, turn, &mut random)
        } else {
            relation_call(turn as usize, &mut random)
        };
        output.write_all(&call_bytes(&call))?;
    }
    Ok(())
}

/// Prints a line for each call of a script: its number, what it is, its answer,
/// and for a run the whole list buffer as it is after.
pub fn print_answers(mut script: &[u8], output: &mut impl Write) -> io::Result<()> {
    let mut number = 0u64;
    while !script.is_empty() {
        let broken = || io::Error::other("the script breaks off or has no such call");
        let call = read_call(&mut script).ok_or_else(broken)?;
        number += 1;
        match call {
            Call::Run(n, own, records, mut list) => {
                let answer = run(n, own, &records.bytes, &mut list.bytes);
                write!(output, "{number} run {answer} {}:", list.bytes.len())?;
                for byte in list.bytes {
                    write!(output, "{byte:02x}")?;
                }
                writeln!(output)?;
            }
            Call::Relation(a, b) => {
                let code = relation_code(&a.bytes, &b.bytes);
                writeln!(output, "{number} relation {code}")?;
            }
        }
    }
    Ok(())
}

/// The call at the start of a script, which moves past it.
fn read_call(script: &mut &[u8]) -> Option<Call> {
    match read_byte(script)? {
        RUN => {
            let (n, own) = (read_number(script)?, read_number(script)?);
            let records = read_lent(script)?;
            let offset = read_byte(script)?;
            let length = read_number(script)? as usize;
            let bytes = counting(read_byte(script)?, length);
            Some(Call::Run(n, own, records, Lent { offset, bytes }))
        }
        RELATION => Some(Call::Relation(read_lent(script)?, read_lent(script)?)),
        _ => None,
    }
}

fn read_byte(script: &mut &[u8]) -> Option<u8> {
    script.split_off_first().copied()
}

fn read_number(script: &mut &[u8]) -> Option<u32> {
    let (bytes, rest) = script.split_first_chunk()?;
    *script = rest;
    Some(u32::from_le_bytes(*bytes))
}

fn read_lent(script: &mut &[u8]) -> Option<Lent> {
    let offset = read_byte(script)?;
    let length = read_number(script)? as usize;
    let bytes = script.split_off(..length)?.to_vec();
    Some(Lent { offset, bytes })
}

/// So many bytes that count up from the first, without carry.
fn counting(first: u8, length: usize) -> Vec<u8> {
    (0..length).map(|at| first.wrapping_add(at as u8)).collect()
}

/// A call laid out.
fn call_bytes(call: &Call) -> Vec<u8> {
    match call {
        Call::Run(n, own, records, list) => {
            let first = list.bytes.first().copied().unwrap_or(0);
            let length = list.bytes.len() as u32;
            let mut bytes = vec![RUN];
            bytes.extend(n.to_le_bytes());
            bytes.extend(own.to_le_bytes());
            bytes.extend(lent_bytes(records));
            bytes.push(list.offset);
            bytes.extend(length.to_le_bytes());
            bytes.push(first);
            bytes
        }
        Call::Relation(a, b) => [&[RELATION][..], &lent_bytes(a), &lent_bytes(b)].concat(),
    }
}

fn lent_bytes(lent: &Lent) -> Vec<u8> {
    let length = (lent.bytes.len() as u32).to_le_bytes();
    [&[lent.offset], &length[..], &lent.bytes].concat()
}

fn lent(random: &mut Random, bytes: Vec<u8>) -> Lent {
    let offset = random.below(OFFSETS) as u8;
    Lent { offset, bytes }
}

/// A run over a generated recording, its numbers or lengths now and then bad.
fn run_call(seed: u64, index: u64, random: &mut Random) -> Call {
    let recording = recording(seed, index, &mut Coverage::default());
    let mut start = [1, 0];
    for (number, byte) in start.iter_mut().zip(&recording) {
        *number = u32::from(*byte);
    }
    let mut records = recording.get(START_LEN..).unwrap_or_default().to_vec();
    if !random.once_in(SHORT_RECORDS) {
        records.truncate(records.len() - records.len() % RECORD_LEN);
    }
    if random.once_in(BAD_NUMBERS) {
        let which = random.below(start.len());
        let high = start[which] + random.one_of(&HIGH_BITS);
        let border = random.one_of(&BORDER_NUMBERS);
        start[which] = random.one_of(&[border, high]);
    }
    let length = random.weighted(&LIST_LENGTHS);
    let list = counting(random.draw() as u8, length);
    let [n, own] = start;
    Call::Run(n, own, lent(random, records), lent(random, list))
}

/// Two lists with some names in common, each in its turn the longer or not.
fn relation_call(turn: usize, random: &mut Random) -> Call {
    let common = names(random, turn % COMMON_NAMES);
    let (a_more, b_more) = (random.below(MORE_NAMES) + 1, random.below(MORE_NAMES) + 1);
    let (mut a_rest, mut b_rest) = (names(random, a_more), names(random, b_more));
    match RELATIONS[turn % RELATIONS.len()] {
        Relation::Equal => (a_rest, b_rest) = (Vec::new(), Vec::new()),
        Relation::FirstLonger => b_rest.clear(),
        Relation::SecondLonger => a_rest.clear(),
        Relation::Fork => {
            // Names that differ in one bit only.
            b_rest[..NAME_LEN].copy_from_slice(&a_rest[..NAME_LEN]);
            let bit = random.below(u8::BITS as usize);
            b_rest[random.below(NAME_LEN)] ^= 1 << bit;
        }
        Relation::Length => cut(random, &mut a_rest, &mut b_rest),
    }
    let a = lent(random, [&common[..], &a_rest].concat());
    let b = lent(random, [&common[..], &b_rest].concat());
    Call::Relation(a, b)
}

/// Makes one length or both no multiple of 32.
fn cut(random: &mut Random, a_rest: &mut Vec<u8>, b_rest: &mut Vec<u8>) {
    let (a_cut, b_cut) = random.one_of(&[(true, false), (false, true), (true, true)]);
    for (rest, is_cut) in [(a_rest, a_cut), (b_rest, b_cut)] {
        if is_cut {
            let cut = random.below(NAME_LEN - 1) + 1;
            rest.truncate(rest.len() - cut);
        }
    }
}

/// So many names.
fn names(random: &mut Random, count: usize) -> Vec<u8> {
    let names: Vec<Name> = (0..count).map(|_| random.bytes()).collect();
    names.concat()
}
