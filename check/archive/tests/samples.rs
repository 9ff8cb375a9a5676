//! The samples are what they say, and the desk's program plans them in one command.

mod common;

use std::path::{Path, PathBuf};

use common::{older_samples, planned, root, run, samples, text};
use trench_archive::call::{Against, GuardedReader, GuardedWriter, JobWriter, Reader, plan_place};
use trench_check::book::job_bytes;
use trench_check::book_cases::count;
use trench_check::job::{Job, Point, Run};
use trench_check::job_list::list_of;
use trench_check::judge::judge;
use trench_check::listing;
use trench_check::pits;
use trench_check::plan_book::{Kinds, PlanBook, RouteRecord};
use trench_check::read_back::{Asker, FIGURES, PLACES, Question, ROUTE_WORDS, listed};
use trench_check::refusal::{self, Refusal, verdict, words};
use trench_check::text::{parse, why_no_star};
use trench_check::write_job::Writer;

fn desk() -> &'static Path {
    Path::new(env!("CARGO_BIN_EXE_desk"))
}

fn read(path: &Path) -> String {
    std::fs::read_to_string(path).unwrap_or_else(|error| panic!("{}: {error}", path.display()))
}

/// The figures that are the same in every least plan.
fn figures(book: &PlanBook) -> (u32, u32, u16, Vec<(u16, u16)>) {
    (book.trench, book.saved, book.last, book.routes.iter().map(|route| (route.meets, route.centre)).collect())
}

/// The typed job whose run goes nowhere: row 1 of document 01's examples.
const NOWHERE: &str = "example-01-point.txt";

/// What is wrong with it.
const WHY_NOWHERE: &str = "line 3: the two points of run 1 coincide (refusal 17)";

/// The typed samples that the desk takes: all but one.
fn right_samples() -> Vec<PathBuf> {
    let (nowhere, right): (Vec<_>, Vec<_>) = samples("txt").into_iter().partition(|path| name(path) == NOWHERE);
    assert_eq!(nowhere.len(), 1);
    right
}

#[test]
fn typed_samples_are_their_job_books() {
    for path in right_samples() {
        let typed = parse(&read(&path)).unwrap_or_else(|errors| panic!("{}: {}", path.display(), errors[0]));
        let book = std::fs::read(path.with_extension("job")).expect("its job book");
        assert_eq!(job_bytes(&typed.job), book, "{}", path.display());
    }
}

/// Row 1 of document 01's examples, as request C-18 leaves it: refused, as typed and as a job book.
#[test]
fn the_sample_that_goes_nowhere() {
    let path = root().join("samples").join(NOWHERE);
    let errors = parse(&read(&path)).expect_err("a run that goes nowhere");
    assert_eq!(errors.iter().map(ToString::to_string).collect::<Vec<_>>(), [WHY_NOWHERE]);
    let book = std::fs::read(path.with_extension("job")).expect("its job book");
    let run = Run { number: 1, first: Point::new(5, 5), second: Point::new(5, 5) };
    assert_eq!(book, job_bytes(&Job { number: 1, runs: vec![run] }));
    assert_eq!((planned(&book), plan_place(&book)), (Err(-17), 5));
}

/// Each job book that is well formed is what the archive writes for its number and runs; there are such that are no star.
#[test]
fn job_books_are_written_from_their_runs() {
    let mut writer = GuardedWriter::new(JobWriter::Archive, Against::Back);
    let mut stars = [0, 0];
    for path in samples("job") {
        let bytes = std::fs::read(&path).expect("a sample");
        let Ok(job) = refusal::read(&bytes) else { continue };
        let mut out = vec![0; bytes.len()];
        let called = writer.write(job.number, &list_of(&job), &mut out);
        assert_eq!((called.answer, called.strayed), (bytes.len() as i32, None), "{}", path.display());
        assert_eq!(out, bytes, "{}", path.display());
        stars[usize::from(verdict(&bytes).is_ok())] += 1;
    }
    assert!(stars[0] > 1 && stars[1] > 10, "stars and others: {stars:?}");
}

/// Several least plans may exist, so a stored listing need not be the archive's: it must be a right one, with the same figures.
#[test]
fn stored_listings_are_right() {
    for path in samples("job") {
        let job = std::fs::read(&path).expect("a sample");
        let stored = read(&path.with_extension("lst"));
        match verdict(&job) {
            Err(refusal) => {
                assert_eq!(stored, listing::of_refusal(refusal), "{}", path.display());
                assert_eq!(planned(&job), Err(-refusal.number), "{}", path.display());
                assert_eq!(plan_place(&job), refusal.place, "{}", path.display());
            }
            Ok(_) => {
                let book = listing::read_plan(&stored).unwrap_or_else(|fault| panic!("{}: {fault}", path.display()));
                assert_eq!(judge(&job, &book.bytes()), Vec::<String>::new(), "{}", path.display());
                assert_eq!(planned(&job).map(|plan| figures(&plan)), Ok(figures(&book)), "{}", path.display());
            }
        }
    }
}

/// A plan book as a program finds it that calls the archive alone: reads it once, and then asks for all that it holds.
fn read_by_the_archive(bytes: &[u8]) -> Result<PlanBook, Refusal> {
    let mut asker = GuardedReader::new(Reader::Archive, Against::Back);
    asker.lend(bytes);
    let number = asker.ask(Question::Read, &mut []).answer;
    if number < 0 {
        let place = asker.ask(Question::ReadPlace, &mut []).answer as usize;
        return Err(Refusal { number: -number as i32, place });
    }
    let mut figures = [0; FIGURES];
    let mut places = [0; PLACES];
    assert_eq!(asker.ask(Question::Figures, &mut figures).answer, FIGURES as i64);
    assert_eq!(asker.ask(Question::Places, &mut places).answer, PLACES as i64);
    let [job, runs, trench, saved, pits, last, kind] = figures;
    let kinds = if kind == 0x51 { Kinds::Newer } else { Kinds::Older };
    assert_eq!(kind, kinds.head().into(), "the kind of a head");
    let (runs, pits, last) = (runs as u16, pits as u16, last as u16);
    let mut book = PlanBook { kinds, job, runs, trench, saved, pits, last, routes: Vec::new(), total: 0 };
    let mut route = [0; ROUTE_WORDS];
    while asker.ask(Question::Route(&places, book.routes.len()), &mut route).answer == ROUTE_WORDS as i64 {
        let [run, meets, count, centre] = route.map(|field| field as u16);
        let mut corners = Vec::new();
        let mut corner = [0; 2];
        while asker.ask(Question::Corner(&places, book.routes.len(), corners.len()), &mut corner).answer == 2 {
            corners.push(Point::new(corner[0] as i32, corner[1] as i32));
        }
        book.total += count;
        book.routes.push(RouteRecord { run, meets, count, centre, corners });
    }
    assert_eq!(book.routes.len() as i64, number);
    assert_eq!(asker.give_back(), None);
    Ok(book)
}

/// The older plan books `earlier-NAME` are plans of `NAME`, written when crossings did not count as pits or when a run could go nowhere.
const EARLIER: &str = "earlier-";

/// An older plan book, and the job book that was stored with it.
const STORED: [&str; 2] = ["earlier-groups-3-inside.plan", "refused-17-stored.job"];

/// The plan books `contractor-NAME` are plans of `job-7` by others.
const CONTRACTORS: &str = "contractor-";

/// The file name of a sample.
fn name(path: &Path) -> &str {
    path.file_name().and_then(|name| name.to_str()).expect("a name")
}

/// Beside each accepted job stands a plan of it whose listing is stored too; the damaged plan books are refused as stored. Any other
/// plan book is a contractor's.
#[test]
fn stored_plans_are_what_is_listed() {
    for path in samples("plan") {
        let plan = std::fs::read(&path).expect("a sample");
        assert_eq!(listed(&plan), read(&path.with_extension("lst")), "{}", path.display());
        let by_archive = read_by_the_archive(&plan);
        assert_eq!(by_archive, PlanBook::read(&plan), "{}", path.display());
        let job = path.with_extension("job").exists() || name(&path).starts_with(CONTRACTORS);
        assert!(by_archive.is_err() || job, "{}: whose plan is it?", path.display());
    }
    for path in samples("job") {
        let job = std::fs::read(&path).expect("a sample");
        match (verdict(&job), std::fs::read(path.with_extension("plan"))) {
            (Ok(_), Ok(plan)) => assert_eq!(judge(&job, &plan), Vec::<String>::new(), "{}", path.display()),
            (Ok(_), Err(error)) => panic!("{}: no plan book: {error}", path.display()),
            (Err(_), plan) => assert!(plan.is_err(), "{}: a plan of a refused job", path.display()),
        }
    }
}

/// The job book of an older plan.
fn job_of_older(path: &Path) -> Vec<u8> {
    let folder = path.parent().and_then(Path::parent).expect("the folder of samples");
    let job = match name(path) == STORED[0] {
        true => folder.join(STORED[1]),
        false => folder.join(name(path).trim_start_matches(EARLIER)).with_extension("job"),
    };
    std::fs::read(&job).unwrap_or_else(|error| panic!("{}: {error}", job.display()))
}

/// The plan that an older one would be in the newer kinds: its head counts the groups, of which there is one, or none, and each route
/// names the centre.
fn as_newer(book: &PlanBook) -> PlanBook {
    if book.kinds == Kinds::Newer {
        return book.clone();
    }
    let routes = book.routes.iter().map(|route| RouteRecord { centre: book.last, ..route.clone() }).collect();
    PlanBook { kinds: Kinds::Newer, last: book.routes.len().min(1) as u16, routes, ..book.clone() }
}

fn goes_nowhere(route: &RouteRecord) -> bool {
    route.corners.len() == 1
}

/// A plan without its routes of one corner, each of which is a group and a pit of its own; and how many these are.
fn without_nowhere(book: &PlanBook) -> (PlanBook, u16) {
    let (nowhere, routes): (Vec<_>, Vec<_>) = book.routes.iter().cloned().partition(goes_nowhere);
    let less = nowhere.len() as u16;
    let mut rest = PlanBook { pits: book.pits - less, last: book.last - less, routes, ..book.clone() };
    count(&mut rest);
    (rest, less)
}

/// A job book without its runs that go nowhere.
fn job_without_nowhere(bytes: &[u8]) -> Vec<u8> {
    let (records, _) = bytes[5..bytes.len() - 3].as_chunks::<19>();
    let left: Vec<&[u8; 19]> = records.iter().filter(|record| record[3..11] != record[11..]).collect();
    let runs = left.iter().flat_map(|record| record.iter().copied());
    bytes[..5].iter().copied().chain(runs).chain([0x5A, left.len() as u8, 0]).collect()
}

/// Plans that earlier planners wrote are read and listed as they were, byte for byte. But for what they are kept for they are right
/// today: for their kinds; for pits without crossings; for runs that go nowhere, of which the job is refused today.
#[test]
fn older_plans_are_read() {
    let (mut older, mut uncrossed, mut nowhere) = (0, 0, [0, 0]);
    for path in older_samples("plan") {
        let bytes = std::fs::read(&path).expect("a sample");
        assert_eq!(listed(&bytes), read(&path.with_extension("lst")), "{}", path.display());
        let book = read_by_the_archive(&bytes).unwrap_or_else(|refused| panic!("{}: {refused}", path.display()));
        assert_eq!(Ok(&book), PlanBook::read(&bytes).as_ref(), "{}", path.display());
        assert_eq!(book.bytes(), bytes, "{}", path.display());
        let (job, (rest, less)) = (job_of_older(&path), without_nowhere(&as_newer(&book)));
        let drawn: Vec<&[Point]> = rest.routes.iter().map(|route| &route.corners[..]).collect();
        let pits = pits::of_corners(&drawn);
        let due = match usize::from(rest.pits) == pits.count() {
            true => Vec::new(),
            false => vec![format!("pits is {} and should be {}", pits.corners.len(), pits.count())],
        };
        assert_eq!(judge(&job_without_nowhere(&job), &rest.bytes()), due, "{}", path.display());
        let first_fault = judge(&job, &bytes).first().cloned();
        match (verdict(&job), book.kinds) {
            (Err(Refusal { number: 17, place }), kinds) => {
                nowhere[usize::from(kinds == Kinds::Newer)] += 1;
                assert_eq!((less, planned(&job), plan_place(&job)), (1, Err(-17), place));
            }
            (Ok(_), Kinds::Older) => {
                assert_eq!((less, first_fault.as_deref()), (0, Some("the plan has the older kinds")));
            }
            (due, kinds) => panic!("{}: a plan of {kinds:?} kinds, and {due:?}", path.display()),
        }
        older += usize::from(book.kinds == Kinds::Older);
        uncrossed += due.len();
    }
    assert!(older > 15 && uncrossed == 1, "all plans of before there were groups: {older}, {uncrossed}");
    assert_eq!(nowhere, [1, 2], "plans with a route of one corner, in the older and in the newer kinds");
}

/// Leases of several groups: how many, trench and saved; or none where one is no star.
#[test]
fn the_samples_of_groups() {
    let outcomes = [
        ("groups-1-three-huts", Some((3, 8_500, 3_300))),
        ("groups-2-corner", Some((2, 110, 50))),
        ("groups-3-inside", Some((2, 300, 70))),
        ("groups-4-no-star", None),
        ("groups-5-single-runs", Some((32, 3_200, 0))),
    ];
    let found: Vec<String> = samples("job").iter().map(|path| name(path).to_string()).collect();
    assert_eq!(found.iter().filter(|name| name.starts_with("groups-")).count(), outcomes.len());
    for (name, outcome) in outcomes {
        let path = Path::new(env!("CARGO_MANIFEST_DIR")).join(format!("../../samples/{name}.job"));
        let plan = planned(&std::fs::read(&path).unwrap_or_else(|error| panic!("{}: {error}", path.display())));
        let figures = plan.clone().ok().map(|plan| (plan.last, plan.trench, plan.saved));
        assert_eq!((figures, plan.err()), (outcome, outcome.is_none().then_some(-11)), "{name}");
    }
}

#[test]
fn the_surveyed_examples_of_document_01() {
    let outcome = |n: usize| match n {
        1 => Err(-17),
        2 => Ok((7, 0)),
        3 => Ok((7, 7)),
        4 => Err(-11),
        5 => Ok((10, 0)),
        6 => Ok((9, 3)),
        7 => Ok((10, 4)),
        8 => Ok((7, 2)),
        9 => Ok((16, 8)),
        10 => Ok((10, 3)),
        11 => Ok((8, 0)),
        _ => Ok((5, 1)),
    };
    let examples: Vec<_> = samples("job")
        .into_iter()
        .filter(|path| path.file_name().is_some_and(|name| name.to_string_lossy().starts_with("example-")))
        .collect();
    assert_eq!(examples.len(), 12);
    for (n, path) in (1..).zip(examples) {
        let plan = planned(&std::fs::read(&path).expect("a sample"));
        assert_eq!(plan.map(|plan| (plan.trench, plan.saved)), outcome(n), "{}", path.display());
    }
}

#[test]
fn the_desk_plans_in_one_command() {
    for path in right_samples() {
        let typed = parse(&read(&path)).expect("a typed job");
        let job: &Job = &typed.job;
        let book = job_bytes(job);
        let output = run(desk(), &[path.to_str().expect("a name")], &[]);
        match verdict(&book) {
            Ok(_) => {
                assert_eq!((output.status.code(), text(&output.stderr)), (Some(0), String::new()));
                let plan = listing::read_plan(&text(&output.stdout)).expect("a listing");
                assert_eq!(judge(&book, &plan.bytes()), Vec::<String>::new(), "{}", path.display());
            }
            Err(refusal) => {
                let why = format!("{}: {}\n", words(refusal.number), why_no_star(&typed));
                let told = (output.status.code(), text(&output.stdout), text(&output.stderr));
                assert_eq!(told, (Some(1), listing::of_refusal(refusal), why), "{}", path.display());
            }
        }
        let written = run(desk(), &["--book"], read(&path).as_bytes());
        assert_eq!((written.status.code(), written.stdout), (Some(0), book), "{}", path.display());
    }
}

#[test]
fn the_desk_names_the_line_of_an_error() {
    let wrong = run(desk(), &[], b"job 7\n1 0,0 40,30\n1 0,10 40\n");
    let told = "standard input: line 3: run number 1 is not above 1, the one before (refusal 7)\n";
    assert_eq!(
        (wrong.status.code(), text(&wrong.stderr), text(&wrong.stdout)),
        (Some(1), told.to_string(), String::new())
    );
    let path = root().join("samples").join(NOWHERE);
    let path = path.to_str().expect("a name");
    for words in [&[path][..], &["--book", path]] {
        let nowhere = run(desk(), words, &[]);
        let told = (nowhere.status.code(), text(&nowhere.stderr), text(&nowhere.stdout));
        assert_eq!(told, (Some(1), format!("{path}: {WHY_NOWHERE}\n"), String::new()));
    }
    let missing = run(desk(), &["no/such/file"], &[]);
    assert_eq!(missing.status.code(), Some(2));
    assert!(text(&missing.stderr).starts_with("desk: no/such/file: "));
    assert_eq!(run(desk(), &["--help"], &[]).status.code(), Some(2));
    let strange = run(desk(), &[], &[0xFF, 0xFE, b'\n']);
    assert_eq!(strange.status.code(), Some(1), "bytes that are no text");
}
