//! The static archive of planner, reader and writer, linked into Rust: safe calls of it, and calls with memory between pages
//! that nobody may touch. And the proved programs, run as processes.

use std::process::ExitCode;

pub mod call;
pub mod program;

/// How a program ends: well or badly, or, where its words were not understood, badly and with its usage.
pub fn ended(good: Option<bool>, usage: &str) -> ExitCode {
    match good {
        Some(true) => ExitCode::SUCCESS,
        Some(false) => ExitCode::FAILURE,
        None => {
            eprintln!("{usage}");
            ExitCode::FAILURE
        }
    }
}
