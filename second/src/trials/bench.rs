//! Times a program against this one's `replay` or `hall`, from start to end.

use std::env;
use std::ffi::OsStr;
use std::fs::{self, File};
use std::io::{self, Write};
use std::path::{Path, PathBuf};
use std::process::{self, Command, Stdio};
use std::time::{Duration, Instant};

use super::compare::{own_text, play};
use super::compare_hall::hall_text;
use super::hall_load::{hall_load, HALL_NODES};
use super::load::{load, LOAD_NODES, LOAD_RECORDS};

/// All run in rounds, and each one's best time counts. It is found after so many
/// rounds that better none by more than a trifle, and at most so many in all.
const ROUNDS_WITHOUT_GAIN: usize = 60;
const MOST_ROUNDS: usize = 400;
const TRIFLE: f64 = 0.01;
/// Characters of the longest bar.
const BAR: f64 = 40.0;
const MILLISECONDS: f64 = 1000.0;
/// A hall program may take so many times as long.
const HALL_LIMIT: f64 = 2.0;

/// What a program prints for an input.
type Text = fn(&[u8]) -> io::Result<Vec<u8>>;

/// A recording, this one's command for it, and the best time of each program.
struct Race {
    command: &'static str,
    n: u32,
    path: PathBuf,
    program: Duration,
    second: Duration,
}

/// Times a program on the recordings of a gateway. False where its text isn't the
/// one expected.
pub fn bench(program: &OsStr, output: &mut impl Write) -> io::Result<bool> {
    let loads = LOAD_NODES.map(|n| (n, load(n)));
    let worst = worst_ratio(program, "replay", own_text, &loads, output)?;
    Ok(worst.is_some())
}

/// Times a program on the recordings of a hall. False where its text isn't the one
/// expected, and where it takes too long.
pub fn bench_hall(program: &OsStr, output: &mut impl Write) -> io::Result<bool> {
    let loads = HALL_NODES.map(|n| (n, hall_load(n)));
    let worst = worst_ratio(program, "hall", hall_text, &loads, output)?;
    let over = worst.is_some_and(|worst| worst > HALL_LIMIT);
    if over {
        writeln!(output, "over the limit of {HALL_LIMIT:.2}")?;
    }
    Ok(worst.is_some() && !over)
}

/// Times the program and this one's command on each recording and prints times,
/// ratios and bars. None where a text isn't the one expected.
fn worst_ratio(
    program: &OsStr,
    command: &'static str,
    text: Text,
    loads: &[(u32, Vec<u8>)],
    output: &mut impl Write,
) -> io::Result<Option<f64>> {
    if cfg!(debug_assertions) {
        return Err(io::Error::other("only an optimised build is timed"));
    }
    let mut races = Vec::new();
    for (n, input) in loads {
        if play(Command::new(program), input)?.stdout != text(input)? {
            writeln!(output, "n = {n}: the program prints another text")?;
            return Ok(None);
        }
        races.push(Race::new(command, *n, input)?);
    }
    run_rounds(&mut races, program)?;
    let mut worst: f64 = 0.0;
    for race in &races {
        worst = worst.max(race.show(output)?);
    }
    writeln!(output, "worst ratio {worst:.2}")?;
    Ok(Some(worst))
}

impl Drop for Race {
    fn drop(&mut self) {
        // A recording that can't be removed is the temporary directory's matter.
        let _ = fs::remove_file(&self.path);
    }
}

/// All in turn, so that all meet the same machine.
fn run_rounds(races: &mut [Race], program: &OsStr) -> io::Result<()> {
    let second = env::current_exe()?;
    let mut without_gain = 0;
    for _ in 0..MOST_ROUNDS {
        without_gain += 1;
        for race in &mut *races {
            if race.run(program, &second)? {
                without_gain = 0;
            }
        }
        if without_gain == ROUNDS_WITHOUT_GAIN {
            break;
        }
    }
    Ok(())
}

/// Keeps the better time; true where it gains more than a trifle.
fn better(best: &mut Duration, time: Duration) -> bool {
    let gains = time.as_secs_f64() < best.as_secs_f64() * (1.0 - TRIFLE);
    *best = time.min(*best);
    gains
}

impl Race {
    /// Lays the recording into the temporary directory, under a name of its own.
    fn new(command: &'static str, n: u32, input: &[u8]) -> io::Result<Race> {
        let name = format!("second-bench-{command}-{}-{n}.rec", process::id());
        let path = env::temp_dir().join(name);
        fs::write(&path, input)?;
        Ok(Race {
            command,
            n,
            path,
            program: Duration::MAX,
            second: Duration::MAX,
        })
    }

    /// Each program once; true where a best time got better.
    fn run(&mut self, program: &OsStr, second: &Path) -> io::Result<bool> {
        let program_time = time(&mut Command::new(program), &self.path)?;
        let second_time = time(Command::new(second).arg(self.command), &self.path)?;
        let program_gains = better(&mut self.program, program_time);
        let second_gains = better(&mut self.second, second_time);
        Ok(program_gains || second_gains)
    }

    /// Prints both times with their bars; returns their ratio.
    fn show(&self, output: &mut impl Write) -> io::Result<f64> {
        let (program, second) = (self.program.as_secs_f64(), self.second.as_secs_f64());
        let ratio = program / second;
        writeln!(
            output,
            "n = {}, {LOAD_RECORDS} records: ratio {ratio:.2}",
            self.n
        )?;
        for (who, seconds) in [("program", program), ("second", second)] {
            let length = BAR * seconds / program.max(second);
            let bar = "#".repeat(length.round() as usize);
            let milliseconds = seconds * MILLISECONDS;
            writeln!(output, "  {who:<8}{milliseconds:8.2} ms  {bar}")?;
        }
        Ok(ratio)
    }
}

/// The time of a whole process, from its start to its end.
fn time(command: &mut Command, path: &Path) -> io::Result<Duration> {
    let command = command.stdin(File::open(path)?).stdout(Stdio::null());
    let start = Instant::now();
    let status = command.status()?;
    let time = start.elapsed();
    if !status.success() {
        return Err(io::Error::other(format!("a timed program ended: {status}")));
    }
    Ok(time)
}
