//! Plays generated hall recordings to another program and compares what it prints.

use std::ffi::OsStr;
use std::io::{self, Write};

use crate::hall::{hall, MAX_GATEWAYS};

use super::compare::plays_the_same;
use super::hall_examples::{example, EXAMPLES};
use super::hall_load::{hall_load, HALL_NODES};
use super::hall_recordings::hall_recording;
use super::hall_tally::HallTally;

/// The sets of honest nodes that each n is tried with, good and bad heads alike.
const HONEST_SETS: [u8; 11] = [0, 1, 2, 3, 7, 8, 15, 31, 127, 128, 255];

/// Compares a program with the library's own `hall` on inputs of all sorts, then on
/// so many generated recordings. True where all printed the same, none said no
/// with fewer than a third faulty, and all that had to be met was.
pub fn compare_hall(
    program: &OsStr,
    count: u64,
    seed: u64,
    output: &mut impl Write,
) -> io::Result<bool> {
    for (label, input) in given() {
        if !plays_the_same(program, &input, &hall_text(&input)?, &label, output)? {
            return Ok(false);
        }
    }
    let mut tally = HallTally::default();
    for index in 0..count {
        let input = hall_recording(seed, index, &mut tally);
        let label = format!("hall recording {index} of seed {seed}");
        if tally.broken > 0 {
            writeln!(output, "{label}: no with fewer than a third faulty")?;
            return Ok(false);
        }
        if !plays_the_same(program, &input, &hall_text(&input)?, &label, output)? {
            return Ok(false);
        }
    }
    let missing = tally.missing();
    for never in &missing {
        writeln!(output, "never met: {never}")?;
    }
    writeln!(output, "{tally}")?;
    Ok(missing.is_empty())
}

/// Inputs that aren't left to chance: the examples, the loads, which are longer
/// than any piece that is read at once, and heads alone or with a receiver alone.
fn given() -> Vec<(String, Vec<u8>)> {
    let mut given = vec![("no byte".to_owned(), Vec::new())];
    for name in EXAMPLES {
        given.extend(example(name).map(|input| (format!("hall example {name}"), input)));
    }
    given.extend(HALL_NODES.map(|n| (format!("hall load of {n}"), hall_load(n))));
    for n in (0..=MAX_GATEWAYS as u8 + 1).chain([u8::MAX]) {
        given.push((format!("head {n}"), vec![n]));
        for honest in HONEST_SETS {
            given.push((format!("head {n} {honest}"), vec![n, honest]));
            let receiver = vec![n, honest, 0];
            given.push((format!("head {n} {honest} and a receiver"), receiver));
        }
    }
    given
}

/// The library's own text for a hall recording.
pub fn hall_text(input: &[u8]) -> io::Result<Vec<u8>> {
    let mut text = Vec::new();
    hall(input, &mut text)?;
    Ok(text)
}
