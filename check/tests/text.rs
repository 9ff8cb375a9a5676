//! Typed jobs: what is accepted, and that each error names its line.

use trench_check::book::job_bytes;
use trench_check::generate::{self, KINDS};
use trench_check::job::{Job, Point, Run};
use trench_check::listing;
use trench_check::plan_book::PlanBook;
use trench_check::planner;
use trench_check::random::Random;
use trench_check::refusal;
use trench_check::text::{parse, show, why_no_star};

fn errors(text: &str) -> String {
    let errors = parse(text).expect_err("a wrong text");
    errors.iter().map(ToString::to_string).collect::<Vec<_>>().join("\n")
}

#[test]
fn a_typed_job() {
    let typed = parse("# three wells\njob 7\n\n1 0,0 40,30   # the long one\n2 0,10 40,-10\n").expect("a right text");
    let first = Run { number: 1, first: Point::new(0, 0), second: Point::new(40, 30) };
    let second = Run { number: 2, first: Point::new(0, 10), second: Point::new(40, -10) };
    assert_eq!(typed.job, Job { number: 7, runs: vec![first, second] });
    assert_eq!(typed.lines, [4, 5]);
}

#[test]
fn a_blank_job() {
    let typed = parse("job 7\n\n# nothing\n").expect("a right text");
    assert_eq!((typed.job, typed.lines), (Job { number: 7, runs: Vec::new() }, Vec::new()));
}

#[test]
fn what_is_shown_is_read_back() {
    for n in 0..500 {
        let job = generate::star(&mut Random::nth(6, n), KINDS[n as usize % KINDS.len()]);
        assert_eq!(parse(&show(&job)).map(|typed| typed.job), Ok(job));
    }
}

#[test]
fn accepted_texts_are_well_formed_jobs() {
    for n in 0..500 {
        let job = generate::any(&mut Random::nth(7, n));
        let typed = parse(&show(&job)).expect("a well-formed job");
        assert_eq!(refusal::read(&job_bytes(&typed.job)), Ok(job));
    }
}

#[test]
fn errors_name_their_lines() {
    assert_eq!(errors(""), "line 1: nothing is typed; a job is wanted");
    assert_eq!(errors("\n# nothing\n"), "line 1: nothing is typed; a job is wanted");
    assert_eq!(errors("1 0,0 1,1\n"), "line 1: the job's number is wanted first, as in `job 7`");
    assert_eq!(errors("job\n1 0,0 1,1\n"), "line 1: one number is wanted after `job`, as in `job 7`");
    assert_eq!(errors("job -1\n"), "line 1: `-1` is no job number; one from 0 to 4294967295 is wanted");
    assert_eq!(errors("job 7\njob 8\n1 0,0 1,1"), "line 2: a second `job` line; a text holds one job");
    assert_eq!(
        errors("job 7\n1 0,0\n"),
        "line 2: a run is its number and two points, as in `12 0,0 40,30`; this line has 2 parts"
    );
    assert_eq!(errors("job 7\nx 0,0 1,1\n"), "line 2: `x` is no run number; a whole number is wanted");
    assert_eq!(errors("job 7\n0 0,0 1,1\n"), "line 2: run number 0 is not from 1 to 9999 (refusal 7)");
    assert_eq!(
        errors("job 7\n1 0,0 1,1\n\n1 0,0 1,1\n"),
        "line 4: run number 1 is not above 1, the one before (refusal 7)"
    );
    assert_eq!(
        errors("job 7\n1 0,0 1,\n"),
        "line 2: `1,` is no point; two whole numbers with a comma between are wanted, as in `40,-30`"
    );
    assert_eq!(
        errors("job 7\n1 0,0 1;1\n"),
        "line 2: `1;1` is no point; two whole numbers with a comma between are wanted, as in `40,-30`"
    );
    assert_eq!(
        errors("job 7\n1 0,0 +1,1\n"),
        "line 2: `+1,1` is no point; two whole numbers with a comma between are wanted, as in `40,-30`"
    );
    assert_eq!(
        errors("job 7\n1 0,0 1000001,1\n"),
        "line 2: coordinate 1000001 is not from -1000000 to 1000000 (refusal 8)"
    );
    assert_eq!(
        errors("job 7\n1 0,x 1,1\n2 0,0 1\n"),
        "line 2: `0,x` is no point; two whole numbers with a comma between are wanted, as in `40,-30`\nline 3: `1` is no point; two whole numbers with a comma between are wanted, as in `40,-30`"
    );
    assert_eq!(errors("job 7\n1 0,0 1,1\n2 5,5 5,5\n"), "line 3: the two points of run 2 coincide (refusal 17)");
    assert_eq!(
        errors("job 7\n12 0,-1 -0,-1\n13 0,0 1,1\n0 2,2 2,2\n20 2000000,2 2000000,2\n"),
        "line 2: the two points of run 12 coincide (refusal 17)\nline 4: run number 0 is not from 1 to 9999 (refusal 7)\nline 5: coordinate 2000000 is not from -1000000 to 1000000 (refusal 8)"
    );
    let many: String = (1..=33).map(|n| format!("{n} 0,0 1,1\n")).collect();
    assert_eq!(errors(&format!("job 7\n{many}")), "line 34: a 33rd run; a job has at most 32 (refusal 9)");
}

#[test]
fn why_a_job_is_no_star() {
    let why = |text: &str| why_no_star(&parse(text).expect("a right text"));
    assert_eq!(
        why("job 7\n1 0,0 3,4\n2 0,0 3,4\n\n3 0,0 3,4\n"),
        "the group of runs 1, 2, 3 is no star: with run 1 (line 2) as the centre: run 2 (line 3) meets run 3 (line 5)"
    );
    assert_eq!(why("job 7\n1 0,0 3,3\n2 3,3 5,5\n"), "", "two groups, each of one run");
}

/// The groups that are stars are not spoken of, and each that is none has a line.
#[test]
fn which_group_is_no_star() {
    let why = |text: &str| why_no_star(&parse(text).expect("a right text"));
    let chain = "3 0,0 2,0\n4 1,0 4,0\n6 3,0 6,0\n7 5,0 8,0\n";
    let told = "the group of runs 3, 4, 6, 7 is no star: with run 4 (line 4) as the centre: run 4 (line 4) does not meet run 7 (line 6); run 6 (line 5) meets run 7 (line 6)";
    assert_eq!(why(&format!("job 7\n1 0,9 5,9\n{chain}8 0,9 5,9\n9 7,7 7,8\n")), told);
    let twice = why(&format!("job 7\n1 0,9 5,9\n{chain}8 0,9 5,9\n9 0,9 4,9\n"));
    let first =
        "the group of runs 1, 8, 9 is no star: with run 1 (line 2) as the centre: run 8 (line 7) meets run 9 (line 8)";
    assert_eq!(twice, format!("{first}\n{told}"));
}

#[test]
fn the_listing_of_document_01() {
    let job = parse("job 7\n1 0,0 40,30\n2 0,10 40,10\n3 20,20 20,50\n").expect("a right text").job;
    let book = PlanBook::of(&job, &planner::plan(&job).expect("a star"));
    let text = "job 7 runs 3 groups 1 trench 100 saved 40 pits 6\nroute 1 meets 2 centre 1 corners 4: 0,0 0,10 40,10 40,30\nroute 2 meets 1 centre 1 corners 2: 0,10 40,10\nroute 3 meets 1 centre 1 corners 2: 20,20 20,50\n";
    assert_eq!(listing::of_plan(&book), text);
    assert_eq!(listing::read_plan(text), Ok(book.clone()));
    let older = "job 7 runs 3 centre 1 trench 100 saved 40 pits 6\nroute 1 meets 2 corners 4: 0,0 0,10 40,10 40,30\nroute 2 meets 1 corners 2: 0,10 40,10\nroute 3 meets 1 corners 2: 20,20 20,50\n";
    assert_eq!(listing::of_plan(&book.clone().as_older()), older, "as it was listed before there were groups");
    assert_eq!(listing::read_plan(older), Ok(book.as_older()));
    assert_eq!(listing::of_refusal(refusal::Refusal { number: 11, place: 0 }), "refused 11 at 0\n");
}

#[test]
fn the_listing_of_several_groups() {
    let job = parse("job 9\n5 0,0 2,2\n12 2,2 4,4\n31 7,7 8,7\n40 2,2 4,4\n").expect("a right text").job;
    let text = listing::of_plan(&PlanBook::of(&job, &planner::plan(&job).expect("stars")));
    let lines: Vec<&str> = text.lines().map(|line| line.split(':').next().unwrap_or("")).collect();
    assert_eq!(lines[0], "job 9 runs 4 groups 3 trench 9 saved 4 pits 7");
    assert_eq!(lines[1..3], ["route 5 meets 0 centre 5 corners 3", "route 12 meets 1 centre 12 corners 3"]);
    assert_eq!(lines[3..], ["route 31 meets 0 centre 31 corners 2", "route 40 meets 1 centre 12 corners 3"]);
}

#[test]
fn the_listing_of_a_blank_job() {
    let job = parse("job 7\n").expect("a right text").job;
    let book = PlanBook::of(&job, &planner::plan(&job).expect("a blank job is planned"));
    let text = "job 7 runs 0 groups 0 trench 0 saved 0 pits 0\n";
    assert_eq!((listing::of_plan(&book).as_str(), listing::read_plan(text)), (text, Ok(book.clone())));
    let older = "job 7 runs 0 centre 0 trench 0 saved 0 pits 0\n";
    assert_eq!(listing::read_plan(older), Ok(book.as_older()));
}

/// A listing has the words of one set of kinds, or it is none.
#[test]
fn mixed_listings_are_none() {
    let head = |word: &str| format!("job 7 runs 1 {word} 1 trench 7 saved 0 pits 3\n");
    let route = |centre: &str| format!("route 1 meets 0{centre} corners 3: 0,0 3,0 3,4\n");
    let read = |word: &str, centre: &str| listing::read_plan(&(head(word) + &route(centre))).is_ok();
    assert_eq!([read("groups", " centre 1"), read("centre", "")], [true, true]);
    assert_eq!([read("groups", ""), read("centre", " centre 1"), read("group", " centre 1")], [false; 3]);
}
