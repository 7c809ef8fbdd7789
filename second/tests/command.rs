//! The command `second` as it is called.

mod common;

use std::fs;
use std::io::Write;
use std::path::PathBuf;
use std::process::{Child, Command, Output, Stdio};
use std::thread;

use common::*;

fn command(words: &[&str]) -> Command {
    let mut command = Command::new(env!("CARGO_BIN_EXE_second"));
    command.args(words);
    command
}

fn spawn(words: &[&str]) -> Child {
    command(words)
        .stdin(Stdio::piped())
        .stdout(Stdio::piped())
        .stderr(Stdio::piped())
        .spawn()
        .unwrap()
}

/// Feeds the input from a thread of its own, since the output may fill up first.
fn feed(child: &mut Child, input: Vec<u8>) -> thread::JoinHandle<bool> {
    let mut stdin = child.stdin.take().unwrap();
    thread::spawn(move || stdin.write_all(&input).is_ok())
}

fn replayed(input: Vec<u8>) -> Output {
    let mut child = spawn(&["replay"]);
    let feeding = feed(&mut child, input);
    let output = child.wait_with_output().unwrap();
    feeding.join().unwrap();
    output
}

fn printed(output: &Output) -> &str {
    assert!(output.status.success());
    assert!(output.stderr.is_empty());
    std::str::from_utf8(&output.stdout).unwrap()
}

/// A file for one test, in the directory that cargo keeps for tests.
fn file(name: &str, bytes: &[u8]) -> String {
    let path = PathBuf::from(env!("CARGO_TARGET_TMPDIR")).join(name);
    fs::write(&path, bytes).unwrap();
    path.to_str().unwrap().to_owned()
}

#[test]
fn replay_prints_the_session() {
    let output = replayed(recording(4, 0, &session()));
    assert!(printed(&output).ends_with("7 0 2 1 0\n8 0 3 2 1\nend 8\n"));
    assert_eq!(printed(&output).lines().count(), 9);
}

#[test]
fn replay_prints_setup_15() {
    assert_eq!(printed(&replayed(vec![])), "setup 15\n");
    assert_eq!(printed(&replayed(vec![33, 0, 0])), "setup 15\n");
}

#[test]
fn replay_reads_a_long_recording_to_its_end() {
    let clocks: Vec<Bytes> = (1..=20_000).map(|epoch| clock(1, epoch)).collect();
    let output = replayed(recording(4, 0, &clocks));
    assert!(printed(&output).ends_with("20000 0 1 0 0\nend 20000\n"));
}

#[test]
fn replay_ends_cleanly_when_its_output_is_closed() {
    let clocks: Vec<Bytes> = (1..=50_000).map(|epoch| clock(1, epoch)).collect();
    let mut child = spawn(&["replay"]);
    drop(child.stdout.take());
    let feeding = feed(&mut child, recording(4, 0, &clocks));
    let output = child.wait_with_output().unwrap();
    assert!(output.status.success());
    assert!(output.stderr.is_empty());
    let read_to_the_end = feeding.join().unwrap();
    assert!(!read_to_the_end, "it went on without a reader");
}

#[test]
fn run_prints_the_answer_and_the_names() {
    let records = file("run-session", &session().concat());
    let output = command(&["run", "4", "0", &records]).output().unwrap();
    assert_eq!(printed(&output), format!("1\n{}\n", "0a".repeat(32)));
}

#[test]
fn run_prints_a_refusal_alone() {
    let records = file("run-refused", &session().concat());
    let output = command(&["run", "256", "0", &records]).output().unwrap();
    assert_eq!(printed(&output), "983040\n");
    let records = file("run-short", &[0; 95]);
    let output = command(&["run", "256", "0", &records]).output().unwrap();
    assert_eq!(printed(&output), "196608\n");
}

#[test]
fn relation_prints_relation_index_and_tail() {
    let long = file("relation-long", &[A, B].concat());
    let short = file("relation-short", &A);
    let fork = file("relation-fork", &[A, C].concat());
    let output = command(&["relation", &long, &short]).output().unwrap();
    assert_eq!(printed(&output), format!("1 0\n{}\n", "0b".repeat(32)));
    let output = command(&["relation", &short, &fork]).output().unwrap();
    assert_eq!(printed(&output), format!("2 0\n{}\n", "0c".repeat(32)));
    let output = command(&["relation", &long, &fork]).output().unwrap();
    assert_eq!(printed(&output), "3 1\n\n");
}

#[test]
fn a_file_that_is_not_there_fails() {
    let output = command(&["run", "4", "0", "no-such-file"])
        .output()
        .unwrap();
    assert_eq!(output.status.code(), Some(1));
    assert!(!output.stderr.is_empty());
}

#[test]
fn other_words_print_the_usage() {
    let calls: [&[&str]; 5] = [
        &[],
        &["play"],
        &["replay", "more"],
        &["run", "four", "0", "file"],
        &["relation", "one"],
    ];
    for words in calls {
        let output = command(words).output().unwrap();
        assert_eq!(output.status.code(), Some(2));
        assert!(output.stdout.is_empty());
        assert!(output.stderr.starts_with(b"usage: second replay"));
    }
}
