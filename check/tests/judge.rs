//! The judge finds nothing wrong with right plans, and catches every spoilt one, in words that say what was spoilt.

use std::collections::BTreeSet;

use trench_check::book::job_bytes;
use trench_check::book_cases::count;
use trench_check::enumerate::Path;
use trench_check::generate::{self, CROSSINGS, KINDS};
use trench_check::graph::Survey;
use trench_check::grid::Vertex;
use trench_check::job::{Job, Point};
use trench_check::judge::judge;
use trench_check::leases::{self, LAYOUTS};
use trench_check::line;
use trench_check::plan_book::PlanBook;
use trench_check::planner;
use trench_check::random::Random;

fn job(words: &str) -> Job {
    line::parse(words, 7).expect("a job line").expect("a job")
}

fn book(job: &Job) -> PlanBook {
    PlanBook::of(job, &planner::plan(job).expect("every group is a star"))
}

/// Document 01's example; its least plan is the only one.
fn example() -> (Job, PlanBook) {
    let job = job("0,0 40,30; 0,10 40,10; 20,20 20,50");
    let book = book(&job);
    (job, book)
}

/// What the judge says of the example's plan once it was spoilt.
fn verdict_on(spoil: impl FnOnce(&mut PlanBook)) -> String {
    let (job, mut book) = example();
    spoil(&mut book);
    judge(&job_bytes(&job), &book.bytes()).join("\n")
}

fn assert_says(verdict: &str, words: &str) {
    assert!(verdict.contains(words), "`{words}` is not in: {verdict}");
}

#[test]
fn right_plans_pass() {
    for n in 0..1_500 {
        let kind = KINDS[n % KINDS.len()];
        let job = generate::star(&mut Random::nth(77, n as u64), kind);
        let faults = judge(&job_bytes(&job), &book(&job).bytes());
        assert!(faults.is_empty(), "{kind:?} {}: {faults:?}", line::show(&job));
        let layout = LAYOUTS[n % LAYOUTS.len()];
        let job = leases::lease(&mut Random::nth(81, n as u64), layout);
        let faults = judge(&job_bytes(&job), &book(&job).bytes());
        assert!(faults.is_empty(), "{layout:?} {}: {faults:?}", line::show(&job));
    }
}

/// Groups 1 (runs 1, 2), 3 and 4 (runs 4, 5); group 3 is a straight run, and the other two touch in 6,6.
fn lease() -> (Job, PlanBook) {
    let job = job("0,0 6,6; 0,2 4,2; 9,1 9,2; 6,6 9,9; 6,8 9,8");
    let book = book(&job);
    (job, book)
}

fn verdict_on_lease(spoil: impl FnOnce(&mut PlanBook)) -> String {
    let (job, mut book) = lease();
    spoil(&mut book);
    judge(&job_bytes(&job), &book.bytes()).join("\n")
}

#[test]
fn groups_and_centres_are_judged() {
    let (_, right) = lease();
    assert_eq!((right.last, right.trench, right.saved), (3, 19, 7));
    assert_eq!(right.routes.iter().map(|route| route.centre).collect::<Vec<_>>(), [1, 1, 3, 4, 4]);
    assert_eq!(verdict_on_lease(|_| {}), "");
    for groups in [0, 1, 2, 4, 5] {
        let told = format!("the head's number of groups is {groups} and should be 3");
        assert_eq!(verdict_on_lease(|book| book.last = groups), told);
    }
    for (i, centre) in [(0, 2), (1, 2), (1, 4), (2, 0), (2, 1), (3, 1), (4, 5), (4, 1)] {
        let (run, due) = (i + 1, right.routes[i].centre);
        let told = format!("run {run}: its group's centre is {centre} and should be {due}");
        assert_eq!(verdict_on_lease(|book| book.routes[i].centre = centre), told);
    }
    let one_star = verdict_on_lease(|book| {
        book.last = 1;
        book.routes.iter_mut().for_each(|route| route.centre = 1);
    });
    assert_eq!(one_star.lines().count(), 4, "groups, and the centres of three runs: {one_star}");
}

/// A plan of the older kinds is read, and is not right, also where all runs are one star.
#[test]
fn older_kinds_are_not_right() {
    let (star, plan) = example();
    assert_eq!(judge(&job_bytes(&star), &plan.as_older().bytes()), ["the plan has the older kinds"]);
    let (job, plan) = lease();
    assert_eq!(judge(&job_bytes(&job), &plan.as_older().bytes()), ["the plan has the older kinds"]);
    let blank = Job { number: 7, runs: Vec::new() };
    assert_eq!(judge(&job_bytes(&blank), &book(&blank).as_older().bytes()), ["the plan has the older kinds"]);
}

/// Where one group of several digs too much, that is told of the whole.
#[test]
fn one_group_not_least_is_caught() {
    let (mut caught, mut tried) = (0, 0);
    for n in 0..600 {
        let job = leases::lease(&mut Random::nth(82, n), LAYOUTS[n as usize % LAYOUTS.len()]);
        let survey = Survey::of(job.clone());
        let groups = survey.graph.groups();
        let (best, bent) = (book(&job), one_bend_each(&job));
        for group in groups.iter().filter(|_| groups.len() > 1) {
            let mut mixed = best.clone();
            group.iter().for_each(|&i| mixed.routes[i] = bent.routes[i].clone());
            let drawn: Vec<Path> =
                mixed.routes.iter().map(|route| survey.grid.path(&route.corners).expect("a path")).collect();
            let measured = PlanBook::of(&job, &planner::drawn(&survey, &drawn).expect("stars"));
            let faults = judge(&job_bytes(&job), &measured.bytes());
            tried += 1;
            if measured.trench > best.trench {
                caught += 1;
                let told = format!("the routes dig {}, but {} would do", measured.trench, best.trench);
                assert_eq!(faults, [told], "{}", line::show(&job));
            } else {
                assert_eq!(faults, Vec::<String>::new(), "{}", line::show(&job));
            }
        }
    }
    assert!(caught > 300 && tried > 2 * caught, "{caught} of {tried}");
}

#[test]
fn right_plans_with_crossings_pass_and_those_without_them_do_not() {
    let mut caught = 0;
    for n in 0..300 {
        let job = generate::crossed_star(&mut Random::nth(80, n), CROSSINGS[n as usize % CROSSINGS.len()]);
        let mut book = book(&job);
        assert_eq!(judge(&job_bytes(&job), &book.bytes()), Vec::<String>::new(), "{}", line::show(&job));
        let due = book.pits;
        let corners: BTreeSet<Point> = book.routes.iter().flat_map(|route| route.corners.iter().copied()).collect();
        book.pits = corners.len() as u16;
        if book.pits != due {
            caught += 1;
            let told = format!("pits is {} and should be {due}", book.pits);
            assert_eq!(judge(&job_bytes(&job), &book.bytes()), [told], "{}", line::show(&job));
        }
    }
    assert!(caught > 100, "most plans have a crossing: {caught}");
}

#[test]
fn a_blank_job_has_one_plan() {
    let job = Job { number: 7, runs: Vec::new() };
    let bytes = job_bytes(&job);
    let plan = book(&job);
    assert_eq!(plan.bytes(), [0x51, 7, 0, 0, 0, 0, 0, 0, 0, 0, 0, 0, 0, 0, 0, 0, 0, 0, 0, 0x5A, 0, 0]);
    assert_eq!(judge(&bytes, &plan.bytes()), Vec::<String>::new());
    for at in 0..22 {
        let mut changed = plan.bytes();
        changed[at] ^= 1;
        assert!(!judge(&bytes, &changed).is_empty(), "byte {at}");
    }
    let (_, other) = example();
    let mut more = plan.clone();
    more.routes.push(other.routes[1].clone());
    count(&mut more);
    assert_says(&judge(&bytes, &more.bytes()).join("\n"), "the head's number of runs is 1 and should be 0");
}

#[test]
fn figures_off_by_one_are_caught() {
    assert_says(&verdict_on(|book| book.trench += 1), "trench is 101, but the routes dig 100");
    assert_says(&verdict_on(|book| book.trench -= 1), "trench is 99, but the routes dig 100");
    assert_says(&verdict_on(|book| book.saved += 1), "saved is 41, but the routes save 40");
    assert_says(&verdict_on(|book| book.pits -= 1), "pits is 5 and should be 6");
    assert_says(&verdict_on(|book| book.last += 1), "the head's number of groups is 2 and should be 1");
    assert_says(&verdict_on(|book| book.routes[2].centre = 3), "run 3: its group's centre is 3 and should be 1");
    assert_says(&verdict_on(|book| book.job ^= 1), "the head's job number is 6 and should be 7");
    assert_says(&verdict_on(|book| book.routes[1].meets += 1), "run 2: meets is 2 and should be 1");
    assert_says(&verdict_on(|book| book.routes[1].run = 9), "run 2: its route record names run 9");
}

/// The centre and leaf 2 cross leaf 3 at 2,1, where no route ends or turns; the least plan is the only one. Without the crossing it
/// has 6 pits, as in a plan written before C-14: that is read, and it is not right.
#[test]
fn a_crossing_is_counted() {
    let job = job("0,0 4,2; 0,1 4,1; 2,0 2,2");
    let bytes = job_bytes(&job);
    let right = book(&job);
    assert_eq!((right.trench, right.saved, right.pits), (8, 4, 7));
    assert_eq!(judge(&bytes, &right.bytes()), Vec::<String>::new());
    for pits in [0, 6, 8] {
        let wrong = PlanBook { pits, ..right.clone() }.bytes();
        assert_eq!(PlanBook::read(&wrong).map(|read| read.pits), Ok(pits));
        assert_eq!(judge(&bytes, &wrong), [format!("pits is {pits} and should be 7")]);
    }
}

/// Pits are counted on the routes as they are drawn, also where they are wrong.
#[test]
fn pits_of_wrong_routes_are_counted() {
    let off_the_lines = verdict_on(|book| {
        book.routes[2].corners[0] = Point::new(20, 5);
        book.pits = 7;
    });
    assert_says(&off_the_lines, "run 3: its corner 20,5 is no crossing of survey lines");
    assert!(!off_the_lines.contains("pits"), "{off_the_lines}");
    assert_says(&verdict_on(|book| book.routes[2].corners[0] = Point::new(20, 5)), "pits is 6 and should be 7");
}

#[test]
fn moved_corners_are_caught() {
    let moved = verdict_on(|book| {
        book.routes[0].corners[1] = Point::new(0, 11);
        book.routes[0].corners[2] = Point::new(40, 11);
    });
    assert_says(&moved, "run 1: its corner 0,11 is no crossing of survey lines");
    let start = verdict_on(|book| book.routes[0].corners[0] = Point::new(0, 50));
    assert_says(&start, "run 1: its first corner 0,50 is not its first point 0,0");
    let end = verdict_on(|book| book.routes[2].corners[1] = Point::new(20, 30));
    assert_says(&end, "run 3: its last corner 20,30 is not its second point 20,50");
    let detour = verdict_on(|book| {
        let out_and_back =
            [Point::new(20, 20), Point::new(20, 0), Point::new(40, 0), Point::new(40, 50), Point::new(20, 50)];
        book.routes[2].corners = out_and_back.to_vec();
        count(book);
    });
    assert_says(&detour, "run 3: its route is 110 long, but its points are 30 apart");
}

#[test]
fn books_that_are_not_read_are_caught() {
    let refused = |spoil: &dyn Fn(&mut PlanBook)| verdict_on(spoil);
    assert_eq!(refused(&|book| book.runs += 1), "refused 14 at 0");
    assert_eq!(refused(&|book| book.total += 1), "refused 14 at 118");
    assert_eq!(refused(&|book| book.routes[1].count += 1), "refused 14 at 64");
    assert_eq!(refused(&|book| book.routes[1].corners.clear()), "refused 14 at 64");
    assert_eq!(refused(&|book| book.routes[0].corners[1] = Point::new(0, 11)), "refused 13 at 46");
    assert_eq!(refused(&|book| book.routes[1].corners.insert(1, Point::new(20, 10))), "refused 13 at 91");
    assert_eq!(refused(&|book| book.routes[1].corners.push(Point::new(40, 10))), "refused 13 at 91");
    assert_eq!(refused(&|book| book.routes[2].corners[1].y = 1_000_001), "refused 8 at 109");
}

#[test]
fn swapped_and_missing_routes_are_caught() {
    let swapped = verdict_on(|book| {
        let (first, second) = (book.routes[0].corners.clone(), book.routes[1].corners.clone());
        book.routes[0].corners = second;
        book.routes[1].corners = first;
        count(book);
    });
    assert_says(&swapped, "run 1: its first corner 0,10 is not its first point 0,0");
    assert_says(&verdict_on(|book| book.routes.swap(1, 2)), "run 2: its route record names run 3");
    assert_says(
        &verdict_on(|book| book.routes[0].corners.reverse()),
        "run 1: its first corner 40,30 is not its first point 0,0",
    );
    let missing = verdict_on(|book| {
        book.routes.pop();
        count(book);
    });
    assert_says(&missing, "the head's number of runs is 2 and should be 3");
}

/// Every run along its row and then along its column, with all figures measured on these routes.
fn one_bend_each(job: &Job) -> PlanBook {
    let survey = Survey::of(job.clone());
    let path = |first: Vertex, second: Vertex| -> Path {
        let mut path = vec![first];
        let mut here = first;
        while here.column != second.column {
            here.column = if here.column < second.column { here.column + 1 } else { here.column - 1 };
            path.push(here);
        }
        while here.row != second.row {
            here.row = if here.row < second.row { here.row + 1 } else { here.row - 1 };
            path.push(here);
        }
        path
    };
    let vertex = |p: Point| survey.grid.vertex(p).expect("a run's points are vertices");
    let routes: Vec<Path> = job.runs.iter().map(|run| path(vertex(run.first), vertex(run.second))).collect();
    PlanBook::of(job, &planner::drawn(&survey, &routes).expect("every group is a star"))
}

#[test]
fn a_longer_union_is_caught() {
    let (example, _) = example();
    let faults = judge(&job_bytes(&example), &one_bend_each(&example).bytes());
    assert_eq!(faults, ["the routes dig 140, but 100 would do"]);
    let mut longer = 0;
    for n in 0..500 {
        let job = generate::star(&mut Random::nth(78, n), KINDS[n as usize % KINDS.len()]);
        let (best, other) = (book(&job).trench, one_bend_each(&job));
        let faults = judge(&job_bytes(&job), &other.bytes());
        if other.trench > best {
            longer += 1;
            assert_eq!(faults, [format!("the routes dig {}, but {best} would do", other.trench)]);
        } else {
            assert!(faults.is_empty());
        }
    }
    assert!(longer > 200, "most stars have plans that dig too much: {longer}");
}

#[test]
fn every_changed_byte_is_caught() {
    for n in 0..150 {
        let mut random = Random::nth(79, n);
        let (kind, layout) = (KINDS[n as usize % KINDS.len()], LAYOUTS[n as usize % LAYOUTS.len()]);
        let star = n % 2 == 0;
        let job = if star { generate::small_star(&mut random, kind) } else { leases::small_lease(&mut random, layout) };
        let bytes = book(&job).bytes();
        for at in 0..bytes.len() {
            let mut changed = bytes.clone();
            changed[at] ^= 1 << random.below(8);
            assert!(!judge(&job_bytes(&job), &changed).is_empty(), "byte {at} of the plan of {}", line::show(&job));
        }
    }
}

#[test]
fn broken_books_are_caught() {
    let (job, book) = example();
    let (job, whole) = (job_bytes(&job), book.bytes());
    for length in 0..whole.len() {
        assert!(!judge(&job, &whole[..length]).is_empty(), "cut to {length}");
    }
    let more = [&whole[..], &[0]].concat();
    assert_eq!(judge(&job, &more), ["refused 12 at 121"]);
    assert_says(&judge(&job[..10], &whole).join("\n"), "no plan is due: the job is refused 3 at 5");
    let nowhere = [&job[..35], &job[27..35], &job[43..]].concat();
    let told = "no plan is due: the job is refused 17 at 24 (a run whose two points coincide)";
    assert_eq!(judge(&nowhere, &whole), [told]);
    let older = book.as_older().bytes();
    assert_eq!(judge(&job, &[&whole[..19], &older[19..]].concat()), ["refused 12 at 19"], "an older route");
    assert_eq!(judge(&job, &[&older[..62], &whole[64..]].concat()), ["refused 12 at 62"], "a newer route");
}
