//! A call needs no more stack than `include/trench.h` says; the forecast, reading a plan and writing a job far less, and planning in lent
//! words and choosing between plans less.

mod common;

use std::path::Path;

use common::{compile, run, samples, text};

#[test]
fn the_stack_that_a_call_needs() {
    let source = Path::new(env!("CARGO_MANIFEST_DIR")).join("c/stack.c");
    let program = compile(&["cc", "-std=c99", "-O1"], &[source], "stack");
    let jobs = samples("job");
    let jobs: Vec<&str> = jobs.iter().map(|path| path.to_str().expect("a name")).collect();
    let needed = |words: &[&str]| {
        let output = run(&program, words, &[]);
        let printed = text(&output.stdout).trim().to_string();
        assert_eq!(output.status.code(), Some(0), "{printed} bytes are needed");
        printed.parse::<usize>().expect("a number")
    };
    let [planning, lent, asking, reading, writing, choosing] =
        ["--plan", "--in", "--ask", "--read", "--write", "--choose"].map(|word| needed(&[&[word], &jobs[..]].concat()));
    let all = needed(&jobs);
    println!("stack: {all} bytes, to plan in lent words {lent}, for a forecast {asking}, to read a plan {reading}");
    println!("stack: to write a job {writing}, to choose between plans {choosing}");
    assert!(planning == all && planning > 1_000 && reading > 0, "something was measured");
    assert!(asking <= all && asking <= 16_384, "a forecast needs {asking} bytes");
    assert!(reading <= all && reading <= 16_384, "reading a plan needs {reading} bytes");
    assert!(writing <= all && writing <= 16_384, "writing a job needs {writing} bytes");
    assert!(lent > 0 && lent < all, "planning in lent words needs {lent} bytes");
    assert!(choosing > 0 && choosing < all, "choosing between plans needs {choosing} bytes");
}
