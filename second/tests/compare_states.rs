//! The commands that hand states in, as they are called.

mod programs;

use std::io::Write;
use std::process::{Command, Stdio};

use programs::{print_the_usage, printed, second, SECOND};

use second::trials::cases::{case, write_cases};
use second::trials::wire::{Case, Reply};

/// A program that runs `step-cases` and then changes what it writes.
fn program(name: &str, change: &str) -> String {
    programs::program(name, "step-cases", change)
}

#[test]
fn a_program_that_replies_the_same_passes() {
    let same = program("replies-same", "");
    let output = second(&["compare-states", &same, "2000", "3"]);
    assert!(output.status.success(), "{}", printed(&output));
    let lines: Vec<&str> = printed(&output).lines().collect();
    assert!(lines[0].starts_with("2000 cases: "), "{lines:?}");
    assert!(lines[1].starts_with("answer   no kind    kind 1 "));
    let answers: Vec<&str> = lines[2..17].iter().map(|line| line[..6].trim()).collect();
    let numbers: Vec<String> = (0..=14).map(|number| number.to_string()).collect();
    assert_eq!(answers, numbers);
}

#[test]
fn too_few_cases_fail_and_say_what_they_missed() {
    let few = program("replies-few", "");
    let output = second(&["compare-states", &few, "3", "1"]);
    assert_eq!(output.status.code(), Some(1));
    assert!(printed(&output).contains("never met: answer 14\n"));
    assert!(printed(&output).contains("never met: alone broken: at most 64 blocks\n"));
    assert!(printed(&output).contains("\n3 cases: "));
}

#[test]
fn the_first_difference_is_shown_and_kept() {
    // The list buffer as it was before is the last part of most replies.
    let wrong = program("replies-wrong", "| LC_ALL=C tr '\\125' '\\126'");
    let output = second(&["compare-states", &wrong, "50", "2"]);
    assert_eq!(output.status.code(), Some(1));
    let lines: Vec<&str> = printed(&output).lines().collect();
    assert_eq!(lines.len(), 3, "{lines:?}");
    assert!(lines[0].starts_with("case 0 of seed 2 ("), "{lines:?}");
    assert!(lines[0].ends_with("), exit status: 0"), "{lines:?}");
    assert!(lines[1].contains(": expected ") && lines[1].contains(", replied "));
    let path = lines[2].strip_prefix("kept as ").unwrap();
    let kept = Case::read(&std::fs::read(path).unwrap()).unwrap();
    assert!(kept == case(2, 0));
    std::fs::remove_file(path).unwrap();
}

#[test]
fn replies_that_break_off_or_go_on_differ() {
    let early = program("replies-early", "| head -c 20000");
    let output = second(&["compare-states", &early, "5", "4"]);
    assert_eq!(output.status.code(), Some(1));
    assert!(printed(&output).starts_with("case 2 of seed 4 ("));
    assert!(printed(&output).contains("\nreply: expected 8580 bytes, there are 2840\n"));
    let late = program("replies-late", "; echo more");
    let output = second(&["compare-states", &late, "5", "4"]);
    assert_eq!(output.status.code(), Some(1));
    let after = "after case 4 of seed 4: 5 bytes more, exit status: 0\n";
    assert_eq!(printed(&output), after);
}

#[test]
fn a_program_that_fails_differs() {
    let fails = program("replies-fails", "; exit 3");
    let output = second(&["compare-states", &fails, "5", "4"]);
    assert_eq!(output.status.code(), Some(1));
    let after = "after case 4 of seed 4: 0 bytes more, exit status: 3\n";
    assert_eq!(printed(&output), after);
    let output = second(&["compare-states", "no-such-program", "1", "4"]);
    assert_eq!(output.status.code(), Some(1));
    assert!(output.stderr.starts_with(b"second: "));
}

#[test]
fn cases_and_step_cases_are_the_librarys() {
    let mut cases = Vec::new();
    write_cases(20, 8, &mut cases).unwrap();
    let output = second(&["cases", "20", "8"]);
    assert!(output.status.success());
    assert!(output.stdout == cases);
    let mut child = Command::new(SECOND)
        .arg("step-cases")
        .stdin(Stdio::piped())
        .stdout(Stdio::piped())
        .spawn()
        .unwrap();
    let mut stdin = child.stdin.take().unwrap();
    let feeding = std::thread::spawn(move || stdin.write_all(&cases));
    let output = child.wait_with_output().unwrap();
    feeding.join().unwrap().unwrap();
    let replies = (0..20).map(|index| Reply::to(&case(8, index)).bytes());
    assert!(output.status.success());
    assert!(output.stdout == replies.collect::<Vec<_>>().concat());
}

#[test]
fn other_words_print_the_usage() {
    print_the_usage(&[
        &["compare-states", "program", "1"],
        &["compare-states", "program", "many", "1"],
        &["cases", "-1", "1"],
        &["step-cases", "more"],
    ]);
}
