//! Plays generated recordings to another program and compares what it prints.

use std::env;
use std::ffi::OsStr;
use std::fs;
use std::io::{self, Write};
use std::process::{ChildStdin, Command, Output, Stdio};
use std::thread;

use crate::replay::replay;

use super::coverage::Coverage;
use super::examples::{example, EXAMPLES};
use super::generate::recording;
use super::load::{load, LONG_NODES};

/// The input arrives in pieces of these sizes in turn, in and out of step with
/// the records, since how it arrives must make no difference.
const PIECES: [usize; 6] = [1, 2, 95, 1000, 96, 8192];

/// Compares a program with the library's own `replay` on the examples, then on so
/// many generated recordings and on a load, which is longer than any piece that is
/// read at once. True where all printed the same and all that had to be met was.
pub fn compare_replay(
    program: &OsStr,
    count: u64,
    seed: u64,
    output: &mut impl Write,
) -> io::Result<bool> {
    for (label, input) in examples() {
        if !plays_the_same(program, &input, &own_text(&input)?, &label, output)? {
            return Ok(false);
        }
    }
    let mut coverage = Coverage::default();
    for index in 0..count {
        let input = recording(seed, index, &mut coverage);
        let label = format!("recording {index} of seed {seed}");
        if !plays_the_same(program, &input, &own_text(&input)?, &label, output)? {
            return Ok(false);
        }
    }
    let long = load(LONG_NODES);
    if !plays_the_same(program, &long, &own_text(&long)?, "long recording", output)? {
        return Ok(false);
    }
    let missing = coverage.missing();
    for never in &missing {
        writeln!(output, "never met: {never}")?;
    }
    writeln!(output, "{coverage}")?;
    Ok(missing.is_empty())
}

/// The recordings that aren't left to chance, each with its label.
fn examples() -> impl Iterator<Item = (String, Vec<u8>)> {
    let told = |name: &str| Some((format!("example {name}"), example(name)?));
    EXAMPLES.into_iter().filter_map(told)
}

/// One recording; a difference is shown, and the recording kept.
pub fn plays_the_same(
    program: &OsStr,
    input: &[u8],
    expected: &[u8],
    label: &str,
    output: &mut impl Write,
) -> io::Result<bool> {
    let played = play(Command::new(program), input)?;
    let same = played.status.success() && played.stdout == expected;
    if !same {
        writeln!(output, "{label}: another text, {}", played.status)?;
        let name = format!("second {label}.rec").replace(' ', "-");
        let path = env::temp_dir().join(name);
        fs::write(&path, input)?;
        writeln!(output, "kept as {}", path.display())?;
        show_difference(expected, &played.stdout, output)?;
    }
    Ok(same)
}

/// The library's own text for a recording.
pub fn own_text(input: &[u8]) -> io::Result<Vec<u8>> {
    let mut text = Vec::new();
    replay(input, &mut text)?;
    Ok(text)
}

/// Runs a program on this input to its end.
pub fn play(mut program: Command, input: &[u8]) -> io::Result<Output> {
    let program = program.stdin(Stdio::piped()).stdout(Stdio::piped());
    let mut child = program.stderr(Stdio::inherit()).spawn()?;
    let stdin = child.stdin.take();
    // Fed from a thread of its own, since the output may fill up first.
    thread::scope(|scope| {
        scope.spawn(move || stdin.map(|stdin| feed(stdin, input)));
        child.wait_with_output()
    })
}

/// A program may end before its input does: then the rest isn't wanted.
fn feed(mut stdin: ChildStdin, mut input: &[u8]) {
    for size in PIECES.into_iter().cycle() {
        let (piece, rest) = input.split_at(size.min(input.len()));
        if piece.is_empty() || stdin.write_all(piece).is_err() {
            return;
        }
        input = rest;
    }
}

/// The first line that differs, of both.
fn show_difference(expected: &[u8], printed: &[u8], output: &mut impl Write) -> io::Result<()> {
    let expected = String::from_utf8_lossy(expected);
    let printed = String::from_utf8_lossy(printed);
    let mut expected_lines = expected.split_inclusive('\n');
    let mut printed_lines = printed.split_inclusive('\n');
    loop {
        let pair = (expected_lines.next(), printed_lines.next());
        if pair.0 != pair.1 || pair.0.is_none() {
            writeln!(output, "expected {}", shown(pair.0))?;
            return writeln!(output, "printed  {}", shown(pair.1));
        }
    }
}

/// A line with its newline made visible, or that there is none.
fn shown(line: Option<&str>) -> String {
    line.map_or("nothing".to_owned(), |line| format!("{line:?}"))
}
