//! The second program's command.

use std::env;
use std::ffi::{OsStr, OsString};
use std::fs;
use std::io::{self, BufWriter, ErrorKind, Read, Write};
use std::process::ExitCode;
use std::str::FromStr;

use second::run::{LIST_LEN, REFUSAL_UNIT};
use second::state::NAME_LEN;
use second::trials::bench::{bench, bench_hall};
use second::trials::cases::write_cases;
use second::trials::compare::compare_replay;
use second::trials::compare_hall::compare_hall;
use second::trials::compare_states::compare_states;
use second::trials::hall_load::{hall_load, HALL_NODES};
use second::trials::load::{load, write_long, LOAD_NODES};
use second::trials::script::{print_answers, write_script};
use second::trials::wire::step_cases;
use second::trials::{examples, hall_examples};
use second::{hall, relation, replay, run, tail};

const USAGE: &str = "usage: second replay < RECORDING
       second hall < RECORDING
       second run N OWN RECORDS_FILE
       second relation FILE_A FILE_B
       second compare-replay PROGRAM COUNT SEED
       second compare-hall PROGRAM COUNT SEED
       second script COUNT SEED > SCRIPT
       second answers < SCRIPT
       second compare-states PROGRAM COUNT SEED
       second cases COUNT SEED > CASES
       second step-cases < CASES > REPLIES
       second bench PROGRAM
       second bench-hall PROGRAM
       second recording 4|7|32 > RECORDING
       second hall-recording 4|8 > RECORDING
       second long BYTES > RECORDING
       second example session|stuck|late > RECORDING
       second hall-example session|sharp|liar|late > RECORDING";
/// The exit code of a command that isn't one of these.
const USAGE_CODE: u8 = 2;
/// Bytes gathered before the output is written to.
const OUTPUT_PIECE: usize = 1 << 16;

/// Why a command doesn't succeed.
enum Failure {
    /// It isn't one of those that the usage shows.
    Usage,
    /// What it compares differs; it printed how.
    Different,
    /// Reading, writing or running a program failed.
    Io(io::Error),
}

impl From<io::Error> for Failure {
    fn from(error: io::Error) -> Failure {
        Failure::Io(error)
    }
}

fn main() -> ExitCode {
    let words: Vec<OsString> = env::args_os().skip(1).collect();
    let mut output = BufWriter::with_capacity(OUTPUT_PIECE, io::stdout().lock());
    let done = command(&words, &mut output);
    let flushed = output.flush().map_err(Failure::Io);
    match done.and(flushed) {
        Ok(()) => ExitCode::SUCCESS,
        Err(Failure::Usage) => {
            eprintln!("{USAGE}");
            ExitCode::from(USAGE_CODE)
        }
        Err(Failure::Different) => ExitCode::FAILURE,
        // Whoever read the output has enough: a clean end.
        Err(Failure::Io(error)) if error.kind() == ErrorKind::BrokenPipe => ExitCode::SUCCESS,
        Err(Failure::Io(error)) => {
            eprintln!("second: {error}");
            ExitCode::FAILURE
        }
    }
}

fn command(words: &[OsString], output: &mut impl Write) -> Result<(), Failure> {
    let (command, words) = words.split_first().ok_or(Failure::Usage)?;
    match (command.to_str().unwrap_or_default(), words) {
        ("replay", []) => replay(io::stdin().lock(), output)?,
        ("hall", []) => hall(io::stdin().lock(), output)?,
        ("run", [n, own, records]) => print_run(number(n)?, number(own)?, records, output)?,
        ("relation", [a, b]) => print_relation(a, b, output)?,
        ("compare-replay", words) => compare(compare_replay, words, output)?,
        ("compare-hall", words) => compare(compare_hall, words, output)?,
        ("script", [count, seed]) => write_script(number(count)?, number(seed)?, output)?,
        ("answers", []) => {
            let mut script = Vec::new();
            io::stdin().lock().read_to_end(&mut script)?;
            print_answers(&script, output)?;
        }
        ("compare-states", words) => compare(compare_states, words, output)?,
        ("cases", [count, seed]) => write_cases(number(count)?, number(seed)?, output)?,
        ("step-cases", []) => step_cases(io::stdin().lock(), output)?,
        ("bench", [program]) => same(bench(program, output)?)?,
        ("bench-hall", [program]) => same(bench_hall(program, output)?)?,
        ("recording", [n]) => write_load(n, &LOAD_NODES, load, output)?,
        ("hall-recording", [n]) => write_load(n, &HALL_NODES, hall_load, output)?,
        ("long", [bytes]) => write_long(number(bytes)?, output)?,
        ("example", [name]) => write_example(name, examples::example, output)?,
        ("hall-example", [name]) => write_example(name, hall_examples::example, output)?,
        _ => return Err(Failure::Usage),
    }
    Ok(())
}

fn number<T: FromStr>(word: &OsStr) -> Result<T, Failure> {
    let number = word.to_str().and_then(|word| word.parse().ok());
    number.ok_or(Failure::Usage)
}

fn same(same: bool) -> Result<(), Failure> {
    if same {
        Ok(())
    } else {
        Err(Failure::Different)
    }
}

/// Compares a program on so many inputs of a seed.
fn compare<W: Write>(
    compare: fn(&OsStr, u64, u64, &mut W) -> io::Result<bool>,
    words: &[OsString],
    output: &mut W,
) -> Result<(), Failure> {
    let [program, count, seed] = words else {
        return Err(Failure::Usage);
    };
    same(compare(program, number(count)?, number(seed)?, output)?)
}

/// The load for one of these node counts.
fn write_load(
    n: &OsStr,
    counts: &[u32],
    load: fn(u32) -> Vec<u8>,
    output: &mut impl Write,
) -> Result<(), Failure> {
    let n = number(n)?;
    let known = counts.contains(&n);
    let recording = known.then(|| load(n)).ok_or(Failure::Usage)?;
    Ok(output.write_all(&recording)?)
}

/// The example of this name.
fn write_example(
    name: &OsStr,
    example: fn(&str) -> Option<Vec<u8>>,
    output: &mut impl Write,
) -> Result<(), Failure> {
    let recording = name.to_str().and_then(example).ok_or(Failure::Usage)?;
    Ok(output.write_all(&recording)?)
}

/// The run's answer, then the final names, one to a line.
fn print_run(n: u32, own: u32, records: &OsStr, output: &mut impl Write) -> io::Result<()> {
    let mut list = [0; LIST_LEN];
    let answer = run(n, own, &fs::read(records)?, &mut list);
    writeln!(output, "{answer}")?;
    let count = (answer % REFUSAL_UNIT) as usize;
    for name in list.chunks_exact(NAME_LEN).take(count) {
        print_hex(name, output)?;
    }
    Ok(())
}

/// The relation and the index on one line, the tail on the next.
fn print_relation(a: &OsStr, b: &OsStr, output: &mut impl Write) -> io::Result<()> {
    let (a, b) = (fs::read(a)?, fs::read(b)?);
    let (relation, index) = relation(&a, &b);
    writeln!(output, "{} {index}", relation.number())?;
    print_hex(tail(&a, &b), output)
}

/// The bytes in hex as one line.
fn print_hex(bytes: &[u8], output: &mut impl Write) -> io::Result<()> {
    for byte in bytes {
        write!(output, "{byte:02x}")?;
    }
    writeln!(output)
}
