//! Two opinions on refusals agree: what a book was made to be, and what reading it gives.

use trench_check::book::job_bytes;
use trench_check::damage;
use trench_check::generate::{self, CROSSINGS, KINDS};
use trench_check::job::{FAR, Job};
use trench_check::leases::{self, LAYOUTS};
use trench_check::line;
use trench_check::random::Random;
use trench_check::refusal::{Refusal, read, verdict};

fn refused(number: i32, place: usize) -> Result<Job, Refusal> {
    Err(Refusal { number, place })
}

#[test]
fn damaged_books_are_refused_as_made() {
    for n in 0..20_000 {
        let made = damage::damaged(&mut Random::nth(3, n as u64), n % damage::WAYS);
        assert_eq!(verdict(&made.bytes), Err(made.refusal), "{}: {:02x?}", made.what, made.bytes);
    }
}

#[test]
fn whole_books_are_read_back() {
    for n in 0..2_000 {
        let job = generate::any(&mut Random::nth(4, n));
        assert_eq!(read(&job_bytes(&job)), Ok(job));
    }
}

/// The makers of jobs make none that goes nowhere, but where that is what is to be refused.
#[test]
fn runs_go_somewhere() {
    let goes = |job: &Job| job.runs.iter().all(|run| run.first != run.second);
    for n in 0..3_000 {
        let (random, at) = (&mut Random::nth(8, n), n as usize);
        let (kind, layout) = (KINDS[at % KINDS.len()], LAYOUTS[at % LAYOUTS.len()]);
        let jobs = [
            generate::star(random, kind),
            generate::small_star(random, kind),
            generate::crossed_star(random, CROSSINGS[at % CROSSINGS.len()]),
            leases::lease(random, layout),
            leases::small_lease(random, layout),
            leases::near(random),
            leases::broken_lease(random),
            generate::any(random),
        ];
        jobs.iter().for_each(|job| assert!(goes(job), "{}", line::show(job)));
    }
}

#[test]
fn readings_of_request_18() {
    let job = |words: &str| job_bytes(&line::parse(words, 7).expect("a job line").expect("a job"));
    let accepted = |words: &str| verdict(&job(words)).is_ok();
    assert_eq!(verdict(&job("5,5 5,5")), refused(17, 5), "row 1 of the examples");
    assert_eq!(verdict(&job("0,0 3,4; 1,1 1,1; 5,5 6,6")), refused(17, 24), "the second run");
    assert_eq!(verdict(&job("0,0 3,4; 1,1 2,2; 5,5 5,5")), refused(17, 43), "the last run");
    assert_eq!(verdict(&job("0,0 3,4; 1,1 1,1; 5,5 5,5")), refused(17, 24), "the first of two");
    assert_eq!(verdict(&job("0,0 3,4; 0,0 3,4; 0,0 3,4; 9,9 9,9")), refused(17, 62), "17 before 11");
    for far in [FAR, -FAR] {
        assert_eq!(verdict(&job(&format!("{far},{far} {far},{far}"))), refused(17, 5), "at the ends of the range");
        let outside = far + far.signum();
        for point in [format!("{outside},5"), format!("5,{outside}")] {
            assert_eq!(verdict(&job(&format!("{point} {point}"))), refused(8, 5), "8 before 17");
        }
    }
    for words in ["5,5 5,6", "5,5 5,4", "5,5 6,5", "5,5 4,5", "5,6 6,5", "-5,-5 5,5", "5,5 65541,5", "5,5 5,65541"] {
        assert!(accepted(words), "{words} differ");
    }
    let with = |at: usize, byte: u8| {
        let mut bytes = job("5,5 5,5");
        bytes[at] = byte;
        verdict(&bytes)
    };
    assert_eq!(with(6, 0), refused(7, 5), "7 before 17");
    assert_eq!(with(5, 0x53), refused(4, 5), "4 before 17");
    assert_eq!(with(25, 2), refused(17, 5), "17 before the end's 6");
    assert_eq!(with(24, 0), refused(17, 5), "17 before 4 of a later record");
    assert_eq!(verdict(&job("5,5 5,5")[..23]), refused(3, 5), "3 before 17");
    assert_eq!(verdict(&job("5,5 5,5")[..24]), refused(17, 5), "17 before what is missing later");
    assert_eq!(verdict(&job("5,5 5,5")[5..]), refused(5, 0), "5 before 17");
    let many = vec!["0,0 1,1"; 32].join("; ");
    assert_eq!(verdict(&job(&format!("{many}; 5,5 5,5"))), refused(9, 613), "9 before 17");
}

#[test]
fn readings_of_document_01() {
    let run = |number: u8, x: i32| {
        let mut record = vec![0x52, number, 0];
        for value in [x, 0, 1, 1] {
            record.extend(value.to_le_bytes());
        }
        record
    };
    let head = [0x48, 7, 0, 0, 0];
    let book = |records: &[&[u8]]| records.concat();
    assert_eq!(verdict(&[]), refused(3, 0), "an empty job");
    assert_eq!(verdict(&head), refused(3, 5), "no end record");
    assert_eq!(verdict(&run(1, 0)), refused(5, 0), "a whole run in first place");
    assert_eq!(verdict(&run(1, 0)[..18]), refused(3, 0), "a run in first place, cut");
    assert_eq!(verdict(&[0x5A, 0, 0]), refused(5, 0), "an end in first place");
    assert_eq!(verdict(&[0]), refused(4, 0), "an unknown first byte");
    assert_eq!(verdict(&book(&[&head, &[0x5A, 0, 0]])), Ok(Job { number: 7, runs: Vec::new() }), "no runs");
    assert_eq!(verdict(&book(&[&head, &[0x5A, 1, 0]])), refused(6, 5), "no runs, and a wrong count");
    assert_eq!(verdict(&book(&[&head, &[0x5A, 0, 0, 0]])), refused(5, 8), "no runs, and a byte after the end");
    assert_eq!(verdict(&book(&[&head, &[0x5A, 1, 0, 0]])), refused(6, 5), "the end is judged before what follows");
    assert_eq!(verdict(&book(&[&head, &run(1, 0), &[0x5A, 1, 0, 9]])), refused(5, 27), "a byte after the end");
    assert_eq!(verdict(&book(&[&head, &run(0, 2_000_000)])), refused(7, 5), "7 before 8");
    assert_eq!(verdict(&book(&[&head, &run(1, 2_000_000)])), refused(8, 5), "8 before what is missing later");
    assert_eq!(verdict(&book(&[&head, &head])), refused(5, 5), "a second head");
    assert_eq!(verdict(&book(&[&head, &head[..4]])), refused(3, 5), "a second head, cut");
}
