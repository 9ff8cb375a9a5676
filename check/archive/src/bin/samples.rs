//! Makes the files of `samples/` anew: for each typed job its job book, its plan book and its listing, and the damaged books of
//! both kinds with their listings, and a contractor's. The plans are the archive's; the damaged plan books and the contractor's are
//! listed by the independent reader. One typed job, whose run goes nowhere, is refused at the desk, and its job book is a stored one.

use std::fs;
use std::path::Path;
use std::process::ExitCode;

use trench_archive::call::planned;
use trench_check::book::job_bytes;
use trench_check::book_cases::{count, route};
use trench_check::job::{Job, Point, Run};
use trench_check::listing;
use trench_check::plan_book::{HEAD_LENGTH, Kinds, PlanBook};
use trench_check::planner;
use trench_check::read_back::listed;
use trench_check::refusal::verdict;
use trench_check::text;

fn main() -> ExitCode {
    let words: Vec<String> = std::env::args().skip(1).collect();
    let [folder] = &words[..] else {
        eprintln!("usage: samples FOLDER");
        return ExitCode::FAILURE;
    };
    match make(Path::new(folder)) {
        Ok(made) => {
            println!("{made} samples");
            ExitCode::SUCCESS
        }
        Err(message) => {
            eprintln!("{message}");
            ExitCode::FAILURE
        }
    }
}

fn make(folder: &Path) -> Result<usize, String> {
    let failed = |error: std::io::Error| format!("{}: {error}", folder.display());
    let mut made = 0;
    for entry in fs::read_dir(folder).map_err(failed)? {
        let path = entry.map_err(failed)?.path();
        if path.extension().is_some_and(|kind| kind == "txt") {
            let job = match path.file_stem().is_some_and(|name| name == NOWHERE) {
                true => Job { number: 1, runs: vec![run(1, (5, 5), (5, 5))] },
                false => typed_job(&path)?,
            };
            write(&path, &job_bytes(&job)).map_err(failed)?;
            made += 1;
        }
    }
    for (name, bytes) in damaged() {
        write(&folder.join(format!("refused-{name}")), &bytes).map_err(failed)?;
        made += 1;
    }
    for (name, plan) in damaged_plans() {
        write_plan(&folder.join(format!("refused-{name}")), &plan).map_err(failed)?;
        made += 1;
    }
    for (name, plan) in contractors() {
        write_plan(&folder.join(format!("contractor-{name}")), &plan.bytes()).map_err(failed)?;
        made += 1;
    }
    Ok(made)
}

/// The typed job that is refused at the desk: row 1 of document 01's examples.
const NOWHERE: &str = "example-01-point";

/// The job of a typed one, or its first error.
fn typed_job(path: &Path) -> Result<Job, String> {
    let text = fs::read_to_string(path).map_err(|error| format!("{}: {error}", path.display()))?;
    let typed = text::parse(&text).map_err(|errors| format!("{}: {}", path.display(), errors[0]))?;
    Ok(typed.job)
}

/// Writes a job book, and beside it its plan book and its listing, or the listing of its refusal.
fn write(path: &Path, job: &[u8]) -> std::io::Result<()> {
    fs::write(path.with_extension("job"), job)?;
    match (planned(job), verdict(job)) {
        (Ok(plan), Ok(_)) => write_plan(path, &plan),
        (Err(_), Err(refusal)) => fs::write(path.with_extension("lst"), listing::of_refusal(refusal)),
        (plan, due) => panic!("{}: the archive gives {plan:?}, and {due:?} is due", path.display()),
    }
}

/// Writes a plan book and its listing beside each other.
fn write_plan(path: &Path, plan: &[u8]) -> std::io::Result<()> {
    fs::write(path.with_extension("plan"), plan)?;
    fs::write(path.with_extension("lst"), listed(plan))
}

/// The job of document 01's listing.
fn job_7() -> Job {
    let runs = vec![run(1, (0, 0), (40, 30)), run(2, (0, 10), (40, 10)), run(3, (20, 20), (20, 50))];
    Job { number: 7, runs }
}

fn run(number: u16, first: (i32, i32), second: (i32, i32)) -> Run {
    Run { number, first: Point::new(first.0, first.1), second: Point::new(second.0, second.1) }
}

/// The job of a plan that was stored when a run could go nowhere: its last run does.
fn stored() -> Job {
    let runs = vec![
        run(1, (0, 0), (100, 10)),
        run(2, (0, 5), (5, 80)),
        run(3, (60, 0), (100, -20)),
        run(4, (30, 30), (70, 60)),
        run(5, (40, 50), (40, 30)),
        run(6, (60, 60), (80, 50)),
        run(7, (50, 40), (50, 40)),
    ];
    Job { number: 2053, runs }
}

/// The job of document 01's listing, and a blank one, damaged in each way that has a number of its own; and a stored one.
fn damaged() -> Vec<(&'static str, Vec<u8>)> {
    let job = job_7();
    let whole = job_bytes(&job);
    let with = |change: &dyn Fn(&mut Job)| {
        let mut changed = job.clone();
        change(&mut changed);
        job_bytes(&changed)
    };
    let at = |place: usize, byte: u8| {
        let mut changed = whole.clone();
        changed[place] = byte;
        changed
    };
    let blank = with(&|job| job.runs.clear());
    vec![
        ("03-empty", Vec::new()),
        ("03-cut", whole[..40].to_vec()),
        ("03-no-end", whole[..62].to_vec()),
        ("04-kind", at(24, 0x4E)),
        ("05-no-head", whole[5..].to_vec()),
        ("05-second-head", [&whole[..24], &whole[..5], &whole[24..]].concat()),
        ("05-after-end", [&whole[..], &[0]].concat()),
        ("05-after-blank", [&blank[..], &[0]].concat()),
        ("06-count", at(63, 2)),
        ("06-count-of-none", [&blank[..6], &[1, 0]].concat()),
        ("07-number", with(&|job| job.runs[2].number = 2)),
        ("08-coordinate", with(&|job| job.runs[1].second.x = 1_000_001)),
        ("09-too-many", with(&|job| job.runs = (1..=33).map(|n| run(n, (0, 0), (i32::from(n), 1))).collect())),
        ("17-nowhere", with(&|job| job.runs[1].second = job.runs[1].first)),
        ("17-stored", job_bytes(&stored())),
    ]
}

/// The plan of document 01's listing, of which there is only one.
fn plan_7() -> PlanBook {
    let job = job_7();
    PlanBook::of(&job, &planner::plan(&job).expect("a star"))
}

/// The plan of document 01's listing, damaged in each way that has a number and a place of its own: in the older kinds, and where
/// the kinds matter in both.
fn damaged_plans() -> Vec<(&'static str, Vec<u8>)> {
    [damaged_older(), mixed_kinds(), damaged_newer()].concat()
}

/// As it was written before there were groups. Its routes stand at 19, 62 and 87, its end at 112.
fn damaged_older() -> Vec<(&'static str, Vec<u8>)> {
    let job = job_7();
    let plan = plan_7().as_older();
    let whole = plan.bytes();
    let with = |change: &dyn Fn(&mut PlanBook)| {
        let mut changed = plan.clone();
        change(&mut changed);
        changed.bytes()
    };
    let put_in = |place: usize, more: &[u8]| [&whole[..place], more, &whole[place..]].concat();
    let one_too_many = |book: &mut PlanBook| {
        book.routes = (1..=33).map(|number| route(number, 0, 0, stairs(2))).collect();
        count(book);
    };
    let too_long = |book: &mut PlanBook| {
        book.routes[0] = route(1, 2, 0, stairs(128));
        count(book);
    };
    vec![
        ("12-empty", Vec::new()),
        ("12-cut", whole[..60].to_vec()),
        ("12-no-end", whole[..112].to_vec()),
        ("12-kind", [&whole[..62], &[0x52], &whole[63..]].concat()),
        ("12-no-head", whole[19..].to_vec()),
        ("12-second-head", put_in(62, &whole[..19])),
        ("12-corner-first", put_in(19, &whole[26..35])),
        ("12-after-end", put_in(115, &[0])),
        ("12-33-routes", with(&one_too_many)),
        ("12-128-corners", with(&too_long)),
        ("12-job-book", job_bytes(&job)),
        ("08-corner", with(&|book| book.routes[1].corners[1].x = 1_000_001)),
        ("13-twice", with(&|book| book.routes[1].corners[1] = Point::new(0, 10))),
        ("13-sloped", with(&|book| book.routes[0].corners[2] = Point::new(40, 20))),
        ("13-straight-on", with(&|book| book.routes[0].corners[2] = Point::new(0, 30))),
        ("13-back", with(&|book| book.routes[0].corners[2] = Point::new(0, 0))),
        ("14-runs", with(&|book| book.runs = 4)),
        ("14-corners", with(&|book| book.routes[1].count = 3)),
        ("14-no-corner", with(&|book| book.routes[2] = route(3, 1, 0, Vec::new()))),
        ("14-total", with(&|book| book.total = 9)),
    ]
}

fn stairs(corners: i32) -> Vec<Point> {
    (0..corners).map(|k| Point::new((k + 1) / 2, k / 2)).collect()
}

/// A book with records of both sets of kinds: those of one up to a route, and those of the other from there on.
fn mixed_kinds() -> Vec<(&'static str, Vec<u8>)> {
    let (newer, older) = (plan_7(), plan_7().as_older());
    let mixed = |front: &PlanBook, back: &PlanBook, i: usize| {
        [&front.bytes()[..front.places()[i]], &back.bytes()[back.places()[i]..]].concat()
    };
    let two_heads = [&newer.bytes()[..HEAD_LENGTH], &older.bytes()].concat();
    vec![
        ("12-newer-then-older", mixed(&newer, &older, 0)),
        ("12-older-then-newer", mixed(&older, &newer, 0)),
        ("12-newer-with-older-route", mixed(&newer, &older, 2)),
        ("12-older-with-newer-route", mixed(&older, &newer, 2)),
        ("12-both-heads", two_heads),
    ]
}

/// In the newer kinds, in which its routes stand at 19, 64 and 91, its end at 118.
fn damaged_newer() -> Vec<(&'static str, Vec<u8>)> {
    let plan = plan_7();
    let whole = plan.bytes();
    let with = |change: &dyn Fn(&mut PlanBook)| {
        let mut changed = plan.clone();
        change(&mut changed);
        changed.bytes()
    };
    let longest = |book: &mut PlanBook| {
        book.routes = (1..=32).map(|number| route(number, 0, number, stairs(127))).collect();
        count(book);
    };
    assert_eq!(plan.kinds, Kinds::Newer, "plans are written in the newer kinds");
    vec![
        ("12-newer-cut", whole[..24].to_vec()),
        ("12-newer-no-end", whole[..118].to_vec()),
        ("12-after-longest", [with(&longest), vec![0x5A]].concat()),
        ("08-newer-corner", with(&|book| book.routes[1].corners[1].x = -1_000_001)),
        ("13-newer-twice", with(&|book| book.routes[1].corners[1] = Point::new(0, 10))),
        ("14-newer-runs", with(&|book| book.runs = 2)),
        ("14-newer-corners", with(&|book| book.routes[1].count = 3)),
        ("14-newer-total", with(&|book| book.total = 7)),
    ]
}

/// Plans of the job of document 01's listing as a contractor may send them: one that is true and digs more, two that are not true,
/// and one of another job.
fn contractors() -> Vec<(&'static str, PlanBook)> {
    let with = |change: &dyn Fn(&mut PlanBook)| {
        let mut changed = plan_7();
        change(&mut changed);
        count(&mut changed);
        changed
    };
    let points = |corners: &[(i32, i32)]| corners.iter().map(|&(x, y)| Point::new(x, y)).collect::<Vec<_>>();
    let figures = |book: &mut PlanBook, trench: u32, saved: u32, pits: u16| {
        (book.trench, book.saved, book.pits) = (trench, saved, pits);
    };
    let more = |book: &mut PlanBook| {
        book.routes[0].corners = points(&[(0, 0), (0, 30), (40, 30)]);
        figures(book, 140, 0, 8);
    };
    let detour = |book: &mut PlanBook| {
        book.routes[1].corners = points(&[(0, 10), (0, 0), (40, 0), (40, 10)]);
        figures(book, 150, 0, 7);
    };
    vec![
        ("1-more", with(&more)),
        ("2-trench", with(&|book| figures(book, 90, 50, 6))),
        ("3-detour", with(&detour)),
        ("4-another-job", with(&|book| book.job = 8)),
    ]
}
