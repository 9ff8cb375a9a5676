//! What the tests share: compiling and running C programs, the samples, and comparing in guarded memory.

#![allow(dead_code)]

pub mod svg;

use std::io::Write;
use std::os::unix::process::ExitStatusExt;
use std::path::{Path, PathBuf};
use std::process::{Command, Output, Stdio};

use trench_archive::call;
use trench_check::plan_book::PlanBook;
use trench_check::report::Report;

/// The repository's root.
pub fn root() -> PathBuf {
    Path::new(env!("CARGO_MANIFEST_DIR")).join("../..")
}

/// Warnings that a C or C++ source must be free of.
pub const WARNINGS: [&str; 6] = ["-Wall", "-Wextra", "-Wpedantic", "-Wconversion", "-Wshadow", "-Werror"];

/// Checks that end the program at the first wrong access or undefined operation.
pub const SANITIZERS: [&str; 2] = ["-fsanitize=address,undefined", "-fno-sanitize-recover=all"];

/// Compiles sources with a compiler and its words, links the archive, and gives the program's path.
pub fn compile(compiler: &[&str], sources: &[PathBuf], name: &str) -> PathBuf {
    let program = Path::new(env!("CARGO_TARGET_TMPDIR")).join(name);
    let output = Command::new(compiler[0])
        .args(&compiler[1..])
        .args(WARNINGS)
        .arg("-I")
        .arg(root().join("include"))
        .args(sources)
        .args(["-x", "none", env!("TRENCH_ARCHIVE_COPY"), "-pthread", "-o"])
        .arg(&program)
        .output()
        .unwrap_or_else(|error| panic!("{}: {error}", compiler[0]));
    assert!(output.status.success(), "{compiler:?} {sources:?}:\n{}", text(&output.stderr));
    program
}

/// Whether a compiler is on this machine.
pub fn has(compiler: &str) -> bool {
    Command::new(compiler).arg("--version").output().is_ok()
}

/// The map program, compiled with sanitizers.
pub fn map_program(name: &str) -> PathBuf {
    compile(&[&["cc", "-std=c99", "-g", "-O1"], &SANITIZERS[..]].concat(), &[root().join("map/map.c")], name)
}

/// Runs a program with this input.
pub fn run(program: &Path, words: &[&str], input: &[u8]) -> Output {
    let mut child = Command::new(program)
        .args(words)
        .stdin(Stdio::piped())
        .stdout(Stdio::piped())
        .stderr(Stdio::piped())
        .spawn()
        .unwrap_or_else(|error| panic!("{}: {error}", program.display()));
    // A program that does not read its input closes it, and the write fails: that is its own affair.
    let _ = child.stdin.take().expect("a pipe").write_all(input);
    child.wait_with_output().expect("the program ends")
}

/// Bytes as text.
pub fn text(bytes: &[u8]) -> String {
    String::from_utf8_lossy(bytes).into_owned()
}

/// The samples with this ending, in order.
pub fn samples(ending: &str) -> Vec<PathBuf> {
    samples_in("samples", ending)
}

/// The samples with this ending that earlier planners wrote, in order.
pub fn older_samples(ending: &str) -> Vec<PathBuf> {
    samples_in("samples/older", ending)
}

fn samples_in(folder: &str, ending: &str) -> Vec<PathBuf> {
    let found = std::fs::read_dir(root().join(folder)).expect("the folder of samples");
    let mut paths: Vec<PathBuf> = found.map(|entry| entry.expect("a file").path()).collect();
    paths.retain(|path| path.extension().is_some_and(|kind| kind == ending));
    paths.sort();
    assert!(!paths.is_empty(), "there are samples");
    paths
}

/// The archive's plan of a job, or minus its refusal number.
pub fn planned(job: &[u8]) -> Result<PlanBook, i32> {
    call::planned(job).map(|plan| PlanBook::read(&plan).expect("a plan book"))
}

/// Runs one of the ignored tests of this program in a process of its own, which an access of an inaccessible page ends.
pub fn assert_ends_the_process(name: &str) {
    const SEGMENT_VIOLATION: i32 = 11;
    let mut command = Command::new(std::env::current_exe().expect("this program"));
    let output = command.args(["--ignored", "--exact", name]).output().expect("it runs");
    assert_eq!(output.status.signal(), Some(SEGMENT_VIOLATION), "{name}");
}

/// Compares in eight threads at once, each with a share of its own.
pub fn assert_faultless_in_threads(share: impl Fn(u64) -> Report + Copy + Send + 'static) {
    let threads: Vec<_> = (0..8).map(|from| std::thread::spawn(move || share(from))).collect();
    for thread in threads {
        assert_eq!(thread.join().expect("the comparison itself does not fail").faults, Vec::<String>::new());
    }
}
