//! The caller between inaccessible pages notices every access outside the lent memory, and the archive makes none. And what the
//! archive is timed against is right too.

mod common;

use std::path::Path;

use common::{SANITIZERS, assert_ends_the_process, assert_faultless_in_threads, compile, root, run, samples, text};
use trench_archive::call::{Against, Guarded, Planner};
use trench_check::book_cases::book_case;
use trench_check::compare::{Asked, Caller, Case, try_case, try_cases};
use trench_check::random::Random;
use trench_check::report::{Report, Subject};

/// What is noticed of the deed of this number, in lent words, in words of its own, and with a job alone.
fn strayed(deed: usize, against: Against) -> [Option<String>; 3] {
    let (job, mut work, mut out) = (vec![1; deed], vec![7; 100], vec![7; 100]);
    let mut caller = Guarded::new(Planner::Stray, against);
    let lent = caller.plan_in(&job, &mut work, &mut out).expect("it is lent words");
    assert_eq!((lent.answer, &work[..], &out[..]), (-4, &[7; 100][..], &[7; 100][..]));
    let own = caller.plan(&job, &mut out).expect("it has words of its own");
    assert_eq!((own.answer, &out[..]), (-4, &[7; 100][..]));
    let asked = caller.ask(Asked::Words, &job).expect("it is asked");
    assert_eq!(asked.answer, -4);
    [lent.strayed, own.strayed, asked.strayed]
}

const WRITE_JOB: usize = 1;
const READ_BEFORE_JOB: usize = 2;
const READ_BEHIND_JOB: usize = 3;
const WRITE_BEFORE_BUFFER: usize = 4;
const WRITE_BEHIND_BUFFER: usize = 5;
const WRITE_BEFORE_WORDS: usize = 6;
const WRITE_BEHIND_WORDS: usize = 7;
const READ_BEFORE_WORDS: usize = 8;
const READ_BEHIND_WORDS: usize = 9;

#[test]
fn changed_bytes_around_are_noticed() {
    let around = Some("bytes changed outside the lent ones: 1".to_string());
    let job = Some("the job was changed".to_string());
    assert_eq!(strayed(WRITE_JOB, Against::Back), [job.clone(), job.clone(), job]);
    assert_eq!(strayed(WRITE_BEFORE_BUFFER, Against::Back), [around.clone(), around.clone(), None]);
    assert_eq!(strayed(WRITE_BEHIND_BUFFER, Against::Front), [around.clone(), around.clone(), None]);
    assert_eq!(strayed(WRITE_BEFORE_WORDS, Against::Back), [around.clone(), None, None]);
    assert_eq!(strayed(WRITE_BEHIND_WORDS, Against::Front), [around, None, None]);
    assert_eq!(strayed(READ_BEFORE_JOB, Against::Back), [None, None, None], "a read inside the page goes unnoticed");
}

/// Run by `accesses_of_the_pages_end_the_process` in a process of their own.
mod ending {
    use super::*;

    #[test]
    #[ignore = "ends the process"]
    fn write_before_buffer() {
        strayed(WRITE_BEFORE_BUFFER, Against::Front);
    }

    #[test]
    #[ignore = "ends the process"]
    fn write_behind_buffer() {
        strayed(WRITE_BEHIND_BUFFER, Against::Back);
    }

    #[test]
    #[ignore = "ends the process"]
    fn write_before_words() {
        strayed(WRITE_BEFORE_WORDS, Against::Front);
    }

    #[test]
    #[ignore = "ends the process"]
    fn write_behind_words() {
        strayed(WRITE_BEHIND_WORDS, Against::Back);
    }

    #[test]
    #[ignore = "ends the process"]
    fn read_before_words() {
        strayed(READ_BEFORE_WORDS, Against::Front);
    }

    #[test]
    #[ignore = "ends the process"]
    fn read_behind_words() {
        strayed(READ_BEHIND_WORDS, Against::Back);
    }

    #[test]
    #[ignore = "ends the process"]
    fn read_before_job() {
        strayed(READ_BEFORE_JOB, Against::Front);
    }

    #[test]
    #[ignore = "ends the process"]
    fn read_behind_job() {
        strayed(READ_BEHIND_JOB, Against::Back);
    }

    /// A question about a job alone that reads behind it.
    #[test]
    #[ignore = "ends the process"]
    fn asked_behind_job() {
        Guarded::new(Planner::Stray, Against::Back).ask(Asked::Place, &[1; READ_BEHIND_JOB]);
    }

    /// A call in the planner's own words that writes behind the buffer.
    #[test]
    #[ignore = "ends the process"]
    fn own_behind_buffer() {
        Guarded::new(Planner::Stray, Against::Back).plan(&[1; WRITE_BEHIND_BUFFER], &mut [7; 100]);
    }
}

#[test]
fn accesses_of_the_pages_end_the_process() {
    let words = ["write_before_words", "write_behind_words", "read_before_words", "read_behind_words"];
    let others = ["write_before_buffer", "write_behind_buffer", "read_before_job", "read_behind_job"];
    for name in words.iter().chain(&others).chain(&["asked_behind_job", "own_behind_buffer"]) {
        assert_ends_the_process(&format!("ending::{name}"));
    }
}

#[test]
fn several_threads_at_once() {
    assert_faultless_in_threads(|from| try_cases(&mut Guarded::new(Planner::Archive, Against::Back), 12, from, 400, 8));
}

/// The job books that the proved programs read, each the last word of a line, in hexadecimal digits.
fn vectors(name: &str) -> Vec<Vec<u8>> {
    let input = std::fs::read_to_string(root().join(format!("crates/{name}_vectors/stdin"))).expect("an input");
    let byte = |digits: &[u8]| u8::from_str_radix(std::str::from_utf8(digits).expect("digits"), 16).expect("a byte");
    let job = |line: &str| line.split(' ').next_back().expect("a word").as_bytes().chunks(2).map(byte).collect();
    input.lines().map(job).collect()
}

/// Every job of the samples and of the vectors, with all that it may be lent.
#[test]
fn samples_and_vectors() {
    let samples = samples("job").into_iter().map(|path| std::fs::read(path).expect("a sample"));
    let jobs: Vec<Vec<u8>> = samples.chain(vectors("job")).chain(vectors("planner")).collect();
    for against in [Against::Back, Against::Front] {
        let (mut caller, mut report) = (Guarded::new(Planner::Archive, against), Report::of(Subject::Jobs));
        for (bytes, n) in jobs.iter().cloned().zip(0..) {
            let case = Case { bytes, made_wrong: None, what: format!("job {n}") };
            try_case(&mut caller, &case, &mut Random::nth(28, n), &mut report);
        }
        assert_eq!(report.faults, Vec::<String>::new());
        assert!(report.accepted.contains_key(&0) && report.refused.len() == 9 && report.filled > 100, "{report}");
    }
}

#[test]
fn the_plain_c_planner_is_right_too() {
    for (planner, against, seed) in [(Planner::Table, Against::Back, 13), (Planner::Tuned, Against::Front, 14)] {
        let report = try_cases(&mut Guarded::new(planner, against), seed, 0, 1_000, 1);
        assert_eq!(report.faults, Vec::<String>::new());
    }
}

/// Its answers are those of the archive, which are compared with the independent reading, and it reads nothing but the book.
#[test]
fn the_plain_c_reader_is_right_too() {
    let sources = ["c/same.c", "../bench/read.c"].map(|name| Path::new(env!("CARGO_MANIFEST_DIR")).join(name));
    let same = compile(&[&["cc", "-std=c99", "-g", "-O2"], &SANITIZERS[..]].concat(), &sources, "same");
    let books: Vec<Vec<u8>> = (0..800).map(|n| book_case(27, n).bytes).collect();
    let input = books.iter().flat_map(|book| [&(book.len() as u32).to_le_bytes(), &book[..]].concat());
    let output = run(&same, &[], &input.collect::<Vec<u8>>());
    assert_eq!((output.status.code(), text(&output.stdout)), (Some(0), format!("{}\n", books.len())));
}
