//! Runs the commands as they are called, and makes programs to compare with.

use std::io::Write;
use std::path::PathBuf;
use std::process::{Command, Output, Stdio};

pub const SECOND: &str = env!("CARGO_BIN_EXE_second");

pub fn second(words: &[&str]) -> Output {
    let mut command = Command::new(SECOND);
    command.env("TMPDIR", env!("CARGO_TARGET_TMPDIR"));
    command.args(words).output().unwrap()
}

/// Each of these is none of the commands.
pub fn print_the_usage(calls: &[&[&str]]) {
    for words in calls {
        let output = second(words);
        assert_eq!(output.status.code(), Some(2), "{words:?}");
        assert!(output.stderr.starts_with(b"usage: second replay"));
    }
}

pub fn printed(output: &Output) -> &str {
    std::str::from_utf8(&output.stdout).unwrap()
}

/// A program that runs a command of this one and then changes what it writes. A
/// shell writes it, as a file that a test still writes can't be run by another.
pub fn program(name: &str, command: &str, change: &str) -> String {
    let path = PathBuf::from(env!("CARGO_TARGET_TMPDIR")).join(name);
    let path = path.to_str().unwrap().to_owned();
    let mut shell = Command::new("sh")
        .args(["-c", "cat > \"$0\" && chmod +x \"$0\"", &path])
        .stdin(Stdio::piped())
        .spawn()
        .unwrap();
    let mut stdin = shell.stdin.take().unwrap();
    write!(stdin, "#!/bin/sh\n\"{SECOND}\" {command} {change}\n").unwrap();
    drop(stdin);
    assert!(shell.wait().unwrap().success());
    path
}
