//! The commands that compare, script and time, as they are called.

mod programs;

use std::io::Write;
use std::process::{Command, Stdio};

use programs::{print_the_usage, printed, second, SECOND};

use second::record::RECORD_LEN;
use second::state::MAX_BLOCKS;
use second::trials::compare::own_text;
use second::trials::examples::{example, EXAMPLES};
use second::trials::load::{load, write_long};
use second::trials::script::{print_answers, write_script};
use second::{step_shaped, State};

/// A program that runs `replay` and then changes what it writes.
fn program(name: &str, change: &str) -> String {
    programs::program(name, "replay", change)
}

#[test]
fn a_program_that_prints_the_same_passes() {
    let output = second(&["compare-replay", &program("same", ""), "200", "3"]);
    assert!(output.status.success(), "{}", printed(&output));
    assert_eq!(printed(&output).lines().count(), 1);
    assert!(printed(&output).starts_with("200 recordings, "));
    assert!(printed(&output).contains(" 49 of 49 pairs "));
}

#[test]
fn too_few_recordings_fail_and_say_what_they_missed() {
    let output = second(&["compare-replay", &program("few", ""), "2", "1"]);
    assert_eq!(output.status.code(), Some(1));
    assert!(printed(&output).contains("never met: answer 2 for kind 1\n"));
    assert!(printed(&output).contains("never met: n = 32\n"));
    let last = printed(&output).lines().last().unwrap();
    assert!(last.starts_with("2 recordings, "));
}

#[test]
fn the_first_difference_is_shown_and_kept() {
    let wrong = program("wrong", "| sed 's/^\\(.*\\) 13 /\\1 12 /'");
    let output = second(&["compare-replay", &wrong, "50", "2"]);
    assert_eq!(output.status.code(), Some(1));
    let lines: Vec<&str> = printed(&output).lines().collect();
    assert_eq!(lines.len(), 4, "{lines:?}");
    let expected = " of seed 2: another text, exit status: 0";
    assert!(lines[0].starts_with("recording ") && lines[0].ends_with(expected));
    let path = lines[1].strip_prefix("kept as ").unwrap();
    let text = String::from_utf8(own_text(&std::fs::read(path).unwrap()).unwrap()).unwrap();
    let first = text.lines().find(|line| line.contains(" 13 ")).unwrap();
    assert_eq!(lines[2], format!("expected \"{first}\\n\""));
    let changed = first.replacen(" 13 ", " 12 ", 1);
    assert_eq!(lines[3], format!("printed  \"{changed}\\n\""));
    std::fs::remove_file(path).unwrap();
}

/// A program whose text is changed so differs first in this line of an example.
fn differs_in_example(name: &str, change: &str, expected: &str, printed_line: &str) {
    let wrong = program(&format!("example-{name}"), change);
    let output = second(&["compare-replay", &wrong, "1", "2"]);
    assert_eq!(output.status.code(), Some(1));
    let lines: Vec<&str> = printed(&output).lines().collect();
    let first = format!("example {name}: another text, exit status: 0");
    assert_eq!(lines[0], first);
    let kept = lines[1].strip_prefix("kept as ").unwrap();
    assert!(std::fs::read(kept).unwrap() == example(name).unwrap());
    assert_eq!(lines[2], format!("expected \"{expected}\\n\""));
    assert_eq!(lines[3], format!("printed  \"{printed_line}\\n\""));
    assert_eq!(lines.len(), 4);
    std::fs::remove_file(kept).unwrap();
}

#[test]
fn the_examples_are_played_first() {
    // As if only equal clocks counted.
    let change = "| sed 's/^15 0 8 2 1$/15 0 7 2 1/'";
    differs_in_example("stuck", change, "15 0 8 2 1", "15 0 7 2 1");
    // As if only normal blocks on the freshest chain counted.
    let change = "| sed 's/^\\(1[5-8] 0 4 3\\) 1$/\\1 0/'";
    differs_in_example("late", change, "15 0 4 3 1", "15 0 4 3 0");
}

#[test]
fn a_text_that_ends_early_or_late_differs() {
    for (name, change) in [("early", "| sed '$d'"), ("late", "| sed '$p'")] {
        let output = second(&["compare-replay", &program(name, change), "1", "5"]);
        assert_eq!(output.status.code(), Some(1));
        assert!(printed(&output).contains("nothing\n"), "{name}");
    }
}

#[test]
fn a_program_that_fails_differs() {
    let output = second(&["compare-replay", &program("fails", "; exit 3"), "1", "4"]);
    assert_eq!(output.status.code(), Some(1));
    assert!(printed(&output).contains("exit status: 3"));
    let output = second(&["compare-replay", "no-such-program", "1", "4"]);
    assert_eq!(output.status.code(), Some(1));
    assert!(output.stderr.starts_with(b"second: "));
}

#[test]
fn script_and_answers_are_the_librarys() {
    let mut script = Vec::new();
    write_script(30, 8, &mut script).unwrap();
    let output = second(&["script", "30", "8"]);
    assert!(output.status.success());
    assert!(output.stdout == script);
    let mut child = Command::new(SECOND)
        .arg("answers")
        .stdin(Stdio::piped())
        .stdout(Stdio::piped())
        .spawn()
        .unwrap();
    child.stdin.take().unwrap().write_all(&script).unwrap();
    let output = child.wait_with_output().unwrap();
    let mut expected = Vec::new();
    print_answers(&script, &mut expected).unwrap();
    assert!(output.status.success());
    assert!(output.stdout == expected);
}

#[test]
fn a_load_fills_the_table_early_and_then_mixes() {
    for n in [4, 7, 32] {
        let recording = load(n);
        assert_eq!(recording.len(), 2 + 10_000 * RECORD_LEN);
        let mut state = State::start(n, 0).1;
        let (mut met, mut full_after) = ([0; 16], 0);
        for record in recording[2..].chunks(RECORD_LEN) {
            full_after += usize::from(state.count < MAX_BLOCKS);
            let answer = step_shaped(&mut state, record, &mut [0; RECORD_LEN]);
            met[usize::from(answer)] += 1;
        }
        assert!(full_after < 1_500, "n = {n}: {full_after}");
        assert!(second::final_length(&state) > 50, "n = {n}");
        assert!(state.local.0 > 200 && !state.torn, "n = {n}");
        assert!(met[0] > 2_500, "n = {n}: {met:?}");
        for answer in [9, 12, 13, 14] {
            assert!(met[answer] > 100, "n = {n}: {met:?}");
        }
        assert_eq!(met.iter().sum::<i32>(), 10_000);
    }
}

#[test]
fn a_recording_is_a_load() {
    let output = second(&["recording", "7"]);
    assert!(output.status.success());
    assert!(output.stdout == load(7));
    let output = second(&["recording", "5"]);
    assert_eq!(output.status.code(), Some(2));
}

#[test]
fn an_example_is_the_librarys() {
    for name in EXAMPLES {
        let output = second(&["example", name]);
        assert!(output.status.success());
        assert!(output.stdout == example(name).unwrap());
    }
}

#[test]
fn a_long_recording_has_the_bytes_asked_for() {
    let whole = load(4);
    for bytes in [0, 1, 2, 3, 98, 99, 100_000] {
        let mut long = Vec::new();
        write_long(bytes, &mut long).unwrap();
        assert!(long == whole[..bytes as usize], "{bytes}");
    }
    let output = second(&["long", "1000000"]);
    assert!(output.status.success());
    assert_eq!(output.stdout.len(), 1_000_000);
}

#[test]
fn other_words_print_the_usage() {
    print_the_usage(&[
        &["compare-replay", "program", "1"],
        &["compare-replay", "program", "many", "1"],
        &["script", "-1", "1"],
        &["answers", "more"],
        &["bench"],
        &["long", "far"],
        &["example"],
        &["example", "other"],
    ]);
}

#[cfg(debug_assertions)]
#[test]
fn a_build_that_is_not_optimised_is_not_timed() {
    let output = second(&["bench", &program("untimed", "")]);
    assert_eq!(output.status.code(), Some(1));
    assert!(output
        .stderr
        .starts_with(b"second: only an optimised build"));
}
