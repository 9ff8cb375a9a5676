//! The desk's program: a job typed as text is planned by the archive's planner and listed.
//!
//! Exit status 0: planned. 1: the text has errors, or the job was refused. 2: nothing could be read or written.

use std::io::{Read, Write};
use std::process::ExitCode;

use trench_archive::call;
use trench_check::book::job_bytes;
use trench_check::listing;
use trench_check::plan_book::PlanBook;
use trench_check::refusal::{Refusal, words};
use trench_check::text::{self, Typed};

const USAGE: &str = "\
usage: desk [JOB]           plans a typed job (a file, or standard input) and prints the listing
       desk --book [JOB]    writes its job book instead

A typed job is a line `job 7`, then a line `number x,y x,y` for each run, in decimetres; # starts a comment:

    job 7
    1 0,0 40,30
    2 0,10 40,10";

/// What ends the program early: the exit status, and the words that go before it.
type Stop = (u8, String);

fn main() -> ExitCode {
    let words: Vec<String> = std::env::args().skip(1).collect();
    let words: Vec<&str> = words.iter().map(String::as_str).collect();
    let done = match words[..] {
        ["--book"] => written("-"),
        ["--book", file] => written(file),
        [] => planned("-"),
        [file] if !file.starts_with("--") => planned(file),
        _ => Err((2, USAGE.to_string())),
    };
    match done {
        Ok(()) => ExitCode::SUCCESS,
        Err((status, message)) => {
            eprintln!("{message}");
            ExitCode::from(status)
        }
    }
}

fn typed(file: &str) -> Result<Typed, Stop> {
    let mut bytes = Vec::new();
    let read = match file {
        "-" => std::io::stdin().read_to_end(&mut bytes).map(|_| ()),
        name => std::fs::read(name).map(|found| bytes = found),
    };
    read.map_err(|error| (2, format!("desk: {file}: {error}")))?;
    let name = if file == "-" { "standard input" } else { file };
    let told = |errors: Vec<text::Wrong>| {
        let lines: Vec<String> = errors.iter().map(|error| format!("{name}: {error}")).collect();
        (1, lines.join("\n"))
    };
    text::parse(&String::from_utf8_lossy(&bytes)).map_err(told)
}

fn print(bytes: &[u8]) -> Result<(), Stop> {
    let mut out = std::io::stdout().lock();
    out.write_all(bytes).and_then(|()| out.flush()).map_err(|error| (2, format!("desk: standard output: {error}")))
}

fn written(file: &str) -> Result<(), Stop> {
    print(&job_bytes(&typed(file)?.job))
}

fn planned(file: &str) -> Result<(), Stop> {
    let typed = typed(file)?;
    let plan = match call::planned(&job_bytes(&typed.job)) {
        Ok(plan) => plan,
        Err(answer) => {
            // A text without errors is a well-formed job, so the refusal is 11, and its place is 0.
            print(listing::of_refusal(Refusal { number: -answer, place: 0 }).as_bytes())?;
            let why = if answer == -11 { text::why_no_star(&typed) } else { "the text was read wrongly".to_string() };
            return Err((1, format!("{}: {why}", words(-answer))));
        }
    };
    let book = PlanBook::read(&plan).map_err(|fault| (2, format!("desk: the plan is no plan book: {fault}")))?;
    print(listing::of_plan(&book).as_bytes())
}
