//! A program as a process.

use std::io::Write;
use std::path::Path;
use std::process::{Command, Stdio};

/// Runs a program on input and gives back what it wrote.
pub fn run(program: &Path, input: &[u8]) -> String {
    let mut child = Command::new(program)
        .stdin(Stdio::piped())
        .stdout(Stdio::piped())
        .spawn()
        .expect("the program is built by rt");
    let mut stdin = child.stdin.take().expect("its input is a pipe");
    // A program that has read enough may end before it has read all.
    let _ = stdin.write_all(input);
    drop(stdin);
    let output = child.wait_with_output().expect("it ends");
    String::from_utf8_lossy(&output.stdout).into_owned()
}
