//! Compares the archive's planner, reader, writer and chooser, or a listing program, or the table program, with the independent reading
//! on many jobs, plan books, lists of runs and pairs of plan books. Exit status 1 where anything differs.

use std::process::ExitCode;
use std::time::{Instant, SystemTime, UNIX_EPOCH};

use trench_archive::call::{
    self, Against, BookChooser, Guarded, GuardedChooser, GuardedReader, GuardedWriter, JobWriter, Planner, Reader,
    frame_of,
};
use trench_archive::ended;
use trench_archive::program::{printed_by, table_figure};
use trench_check::book_cases::book_case;
use trench_check::choose::try_pairs;
use trench_check::compare::{Case, case, crossed_case, roomy_case, try_case, try_cases, try_listing};
use trench_check::cuts::Tried;
use trench_check::job::Point;
use trench_check::list_cases::list_case;
use trench_check::pair_cases::pair_case;
use trench_check::pits;
use trench_check::plan_book::PlanBook;
use trench_check::planner::plan_surveyed;
use trench_check::random::Random;
use trench_check::read_back::{try_books, try_plan_listing};
use trench_check::refusal::{read, surveyed};
use trench_check::report::{Report, Subject};
use trench_check::write_job::try_lists;

const USAGE: &str = "\
usage: differ COUNT                          so many jobs, and then plan books, of the fixed seed, and as many of a fresh one,
                                             which is printed
       differ SEED FROM TO                   the jobs FROM to TO - 1 of a seed; each is named before it is tried
       differ --plans SEED FROM TO           likewise the plan books
       differ --lists COUNT                  so many lists of runs for the writer of job books, of both seeds
       differ --lists SEED FROM TO           the lists FROM to TO - 1 of a seed; each is named before it is tried
       differ --pairs COUNT                  so many jobs with two plan books each for the chooser, of both seeds
       differ --pairs SEED FROM TO           the pairs FROM to TO - 1 of a seed; each is named before it is tried
       differ --crossed COUNT                so many small stars in which cables cross, of both seeds
       differ --cuts COUNT                   so many small jobs with room between their survey lines, of both seeds
       differ --table COUNT                  jobs for the plain C planner in place of the archive's
       differ --table SEED FROM TO           likewise
       differ --listing PROGRAM COUNT        the same jobs for a program that reads a job book and prints its plan's listing
       differ --plan-listing PROGRAM COUNT   the same plan books for a program that reads a plan book and prints its listing
       differ --rounds PROGRAM COUNT         the same jobs for the program `table_rounds`";

/// The seed that every run starts with.
const FIXED_SEED: u64 = 1;
/// From this number of books on, every refusal and every number of runs or routes must have been tried.
const MANY: u64 = 5_000;

fn main() -> ExitCode {
    let words: Vec<String> = std::env::args().skip(1).collect();
    let words: Vec<&str> = words.iter().map(String::as_str).collect();
    let good = match words[..] {
        ["--listing", program, jobs] => numbers(&[jobs]).map(|n| seeds(n[0], |seed, jobs| listed(program, seed, jobs))),
        ["--plan-listing", program, plans] => {
            numbers(&[plans]).map(|n| seeds(n[0], |seed, plans| plans_listed(program, seed, plans)))
        }
        ["--rounds", program, jobs] => numbers(&[jobs]).map(|n| seeds(n[0], |seed, jobs| filled(program, seed, jobs))),
        ["--lists", lists] => numbers(&[lists]).map(|n| seeds(n[0], many_lists)),
        ["--lists", seed, from, to] => numbers(&[seed, from, to]).map(|n| list_by_list(n[0], n[1], n[2])),
        ["--pairs", pairs] => numbers(&[pairs]).map(|n| seeds(n[0], many_pairs)),
        ["--pairs", seed, from, to] => numbers(&[seed, from, to]).map(|n| pair_by_pair(n[0], n[1], n[2])),
        ["--crossed", jobs] => numbers(&[jobs]).map(|n| seeds(n[0], crossed)),
        ["--cuts", jobs] => numbers(&[jobs]).map(|n| seeds(n[0], cut)),
        ["--table", ref rest @ ..] => numbers(rest).and_then(|numbers| planned(Planner::Table, &numbers)),
        ["--plans", seed, from, to] => numbers(&[seed, from, to]).map(|n| plan_by_plan(n[0], n[1], n[2])),
        ref all => numbers(all).and_then(|numbers| compared(&numbers)),
    };
    ended(good, USAGE)
}

fn numbers(words: &[&str]) -> Option<Vec<u64>> {
    words.iter().map(|word| word.parse().ok()).collect()
}

/// Compares the planner, and where a number of books is given the reader too.
fn compared(numbers: &[u64]) -> Option<bool> {
    let good = planned(Planner::Archive, numbers)?;
    let read = numbers.len() > 1 || seeds(numbers[0], many_plans);
    Some(good && read)
}

fn planned(planner: Planner, numbers: &[u64]) -> Option<bool> {
    match *numbers {
        [jobs] => Some(seeds(jobs, |seed, jobs| many(planner, seed, jobs))),
        [seed, from, to] => Some(one_by_one(planner, seed, from, to)),
        _ => None,
    }
}

/// Tries so many books of the fixed seed, and of a fresh one; whether all went well.
fn seeds(books: u64, attempt: impl Fn(u64, u64) -> Report) -> bool {
    let now = SystemTime::now().duration_since(UNIX_EPOCH).expect("a clock after 1970");
    let mut good = true;
    for (name, seed) in [("fixed", FIXED_SEED), ("fresh", now.as_nanos() as u64)] {
        println!("{name} seed {seed}, {books} books:");
        let start = Instant::now();
        let mut report = attempt(seed, books);
        if books >= MANY {
            report.faults.extend(report.untried().into_iter().map(|what| format!("seed {seed} never tried {what}")));
        }
        println!("{report}; {:.1} s", start.elapsed().as_secs_f64());
        good &= told(&report);
    }
    good
}

/// Tries the first jobs of a seed. The archive has to write every job again that it planned, and to hand its plan back.
fn many(planner: Planner, seed: u64, jobs: u64) -> Report {
    let mut report = on_two_threads(|from| try_cases(&mut Guarded::new(planner, Against::Back), seed, from, jobs, 2));
    let (again, planned) = (report.written_again, report.accepted.values().sum());
    if planner == Planner::Archive && again < planned {
        report.faults.push(format!("seed {seed}: only {again} of {planned} jobs were written again"));
    }
    let handed_back = report.handed_back;
    if planner == Planner::Archive && handed_back < planned {
        report.faults.push(format!("seed {seed}: only {handed_back} of {planned} plans were lent to the chooser"));
    }
    report
}

/// Tries the first plan books of a seed.
fn many_plans(seed: u64, plans: u64) -> Report {
    on_two_threads(|from| try_books(&mut GuardedReader::new(Reader::Archive, Against::Back), seed, from, plans, 2))
}

/// Tries the first lists of a seed.
fn many_lists(seed: u64, lists: u64) -> Report {
    on_two_threads(|from| try_lists(&mut GuardedWriter::new(JobWriter::Archive, Against::Back), seed, from, lists, 2))
}

/// Tries the first pairs of a seed.
fn many_pairs(seed: u64, pairs: u64) -> Report {
    let chooser = || GuardedChooser::new(BookChooser::Archive, Against::Back);
    on_two_threads(|from| try_pairs(&mut chooser(), seed, from, pairs, 2))
}

/// Has the even and the odd books tried at once.
fn on_two_threads(share: impl Fn(u64) -> Report + Sync) -> Report {
    std::thread::scope(|scope| {
        let odd = scope.spawn(|| share(1));
        let mut report = share(0);
        report.add(odd.join().expect("the comparison itself does not fail"));
        report
    })
}

/// Tries the first jobs of a seed that are made in some way, and shows what the archive planned of each.
fn each(made: fn(u64, u64) -> Case, seed: u64, jobs: u64, mut show: impl FnMut(&Case, &PlanBook)) -> Report {
    let mut report = Report::of(Subject::Jobs);
    let mut caller = Guarded::new(Planner::Archive, Against::Back);
    for n in 0..jobs {
        let before = report.faults.len();
        let case = made(seed, n);
        try_case(&mut caller, &case, &mut Random::nth(!seed, n), &mut report);
        report.faults[before..].iter_mut().for_each(|fault| *fault = format!("seed {seed} job {n}: {fault}"));
        if let Some(book) = call::planned(&case.bytes).ok().and_then(|plan| PlanBook::read(&plan).ok()) {
            show(&case, &book);
        }
    }
    report
}

/// Tries the first small stars of a seed in which cables cross. Where fewer than a third of the plans have a pit that only a
/// crossing asks for, which about two thirds have, the trial is idle: that is a fault too.
fn crossed(seed: u64, jobs: u64) -> Report {
    let mut crossings = 0;
    let mut report = each(crossed_case, seed, jobs, |_, book| crossings += u64::from(has_crossing(book)));
    println!("{crossings} plans with a pit for a crossing alone");
    if 3 * crossings < jobs {
        report.faults.push(format!("seed {seed}: only {crossings} of {jobs} plans have such a pit"));
    }
    report
}

/// Whether a plan has a pit at which no route ends or turns.
fn has_crossing(book: &PlanBook) -> bool {
    let routes: Vec<&[Point]> = book.routes.iter().map(|route| &route.corners[..]).collect();
    !pits::of_corners(&routes).crossings.is_empty()
}

/// Tries the first small jobs of a seed with room between their survey lines: the trench of each plan must be the least of all cuts, on
/// survey lines or not. Where fewer than a quarter of the jobs have room and share, the trial is idle: that is a fault too.
fn cut(seed: u64, jobs: u64) -> Report {
    let mut tried = Tried::default();
    let mut report = each(roomy_case, seed, jobs, |case, book| {
        tried.hold(&read(&case.bytes).expect("a job that is planned"), book.trench.into());
    });
    let Tried { jobs: held, with_room, shared, faults } = tried;
    println!("{held} plans held to all cuts, {with_room} with room between the lines, {shared} of these share");
    report.faults.extend(faults.iter().map(|fault| format!("seed {seed}: {fault}")));
    if 4 * (shared as u64) < jobs {
        report.faults.push(format!("seed {seed}: only {shared} of {jobs} jobs have room and share"));
    }
    report
}

/// Has a program list the first jobs of a seed.
fn listed(program: &str, seed: u64, jobs: u64) -> Report {
    let mut report = Report::of(Subject::Jobs);
    for n in 0..jobs {
        let before = report.faults.len();
        let case = case(seed, n);
        let printed = printed_by(program, &case.bytes).unwrap_or_else(|error| panic!("{program}: {error}"));
        try_listing(&case, &printed, &mut report);
        report.faults[before..].iter_mut().for_each(|fault| *fault = format!("seed {seed} job {n}: {fault}"));
    }
    report
}

/// Has a program list the first plan books of a seed.
fn plans_listed(program: &str, seed: u64, plans: u64) -> Report {
    let mut report = Report::of(Subject::Plans);
    for n in 0..plans {
        let before = report.faults.len();
        let case = book_case(seed, n);
        let printed = printed_by(program, &case.bytes).unwrap_or_else(|error| panic!("{program}: {error}"));
        try_plan_listing(&case, &printed, &mut report);
        report.faults[before..].iter_mut().for_each(|fault| *fault = format!("seed {seed} book {n}: {fault}"));
    }
    report
}

/// Has a program fill and trace the tables of all groups of the first jobs of a seed: together they must save what the independent
/// planner saves.
fn filled(program: &str, seed: u64, jobs: u64) -> Report {
    let mut report = Report::of(Subject::Jobs);
    for n in 0..jobs {
        let case = case(seed, n);
        let due = match surveyed(&case.bytes) {
            Ok(survey) => {
                *report.accepted.entry(survey.job.runs.len()).or_default() += 1;
                *report.groups.entry(survey.graph.groups().len()).or_default() += 1;
                plan_surveyed(&survey).map(|plan| (plan.groups, plan.saved))
            }
            Err(refused) => {
                *report.refused.entry(refused.number).or_default() += 1;
                None
            }
        };
        let frames: Vec<_> = (0..).map_while(|group| frame_of(&case.bytes, group, 2)).collect();
        let saved = |frame| table_figure(program, frame).unwrap_or_else(|e| panic!("{program}: {e}")).map(i64::from);
        let saved: Option<i64> = frames.iter().map(|frame| saved(frame)).sum();
        if saved.map(|saved| (frames.len(), saved)) != Some(due.unwrap_or((0, 0))) {
            let (what, groups) = (case.what, frames.len());
            report
                .faults
                .push(format!("seed {seed} job {n}: {what}: {groups} tables save {saved:?}, and {due:?} is due"));
        }
        report.books += 1;
        report.calls += frames.len();
    }
    report
}

fn one_by_one(planner: Planner, seed: u64, from: u64, to: u64) -> bool {
    let mut report = Report::of(Subject::Jobs);
    for n in from..to {
        println!("seed {seed} job {n}: {}", case(seed, n).what);
        report.add(try_cases(&mut Guarded::new(planner, Against::Back), seed, n, n + 1, 1));
    }
    println!("{report}");
    told(&report)
}

fn plan_by_plan(seed: u64, from: u64, to: u64) -> bool {
    let mut report = Report::of(Subject::Plans);
    for n in from..to {
        println!("seed {seed} book {n}: {}", book_case(seed, n).what);
        report.add(try_books(&mut GuardedReader::new(Reader::Archive, Against::Back), seed, n, n + 1, 1));
    }
    println!("{report}");
    told(&report)
}

fn list_by_list(seed: u64, from: u64, to: u64) -> bool {
    let mut report = Report::of(Subject::Lists);
    for n in from..to {
        println!("seed {seed} list {n}: {}", list_case(seed, n).label);
        report.add(try_lists(&mut GuardedWriter::new(JobWriter::Archive, Against::Back), seed, n, n + 1, 1));
    }
    println!("{report}");
    told(&report)
}

fn pair_by_pair(seed: u64, from: u64, to: u64) -> bool {
    let mut report = Report::of(Subject::Pairs);
    for n in from..to {
        println!("seed {seed} pair {n}: {}", pair_case(seed, n).label);
        report.add(try_pairs(&mut GuardedChooser::new(BookChooser::Archive, Against::Back), seed, n, n + 1, 1));
    }
    println!("{report}");
    told(&report)
}

/// Prints the first faults; whether there is none.
fn told(report: &Report) -> bool {
    report.faults.iter().take(10).for_each(|fault| println!("  {fault}"));
    if report.faults.len() > 10 {
        println!("  and {} more", report.faults.len() - 10);
    }
    report.faults.is_empty()
}
