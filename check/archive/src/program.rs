//! The proved programs, run as processes.

use std::io::Write;
use std::process::{Command, Stdio};

/// What a program prints that is fed these bytes.
pub fn printed_by(program: &str, input: &[u8]) -> std::io::Result<String> {
    let mut child = Command::new(program).stdin(Stdio::piped()).stdout(Stdio::piped()).spawn()?;
    // A program that has read enough may close its input early, and the write then fails.
    let _ = child.stdin.take().expect("a pipe").write_all(input);
    let output = child.wait_with_output()?;
    Ok(String::from_utf8_lossy(&output.stdout).into_owned())
}

/// What `table_rounds` says is saved: the first of the two numbers that it prints for a record of `call::frame_of`.
pub fn table_figure(program: &str, frame: &[u8]) -> std::io::Result<Option<u32>> {
    Ok(printed_by(program, frame)?.split(' ').next().and_then(|figure| figure.parse().ok()))
}
