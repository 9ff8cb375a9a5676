//! The choice between two plan books on jobs drawn by hand: which is handed back, every refusal, and their order. And that a book which was
//! spoilt in one respect is wrong in that alone.

use trench_check::book::job_bytes;
use trench_check::book_cases::count;
use trench_check::choice::{Choice, choose, of_book, outcome, outcomes};
use trench_check::foreign::{self, STYLES};
use trench_check::graph::Survey;
use trench_check::job::{Job, Point};
use trench_check::judge::{Judge, judge};
use trench_check::line;
use trench_check::pair_cases::{EQUAL, labels, pair_case, some_job};
use trench_check::plan_book::{Kinds, PlanBook, RouteRecord};
use trench_check::planner;
use trench_check::random::Random;
use trench_check::refusal::Refusal;
use trench_check::untrue::{WAYS, Way, spoilt};

fn job(words: &str) -> Vec<u8> {
    job_bytes(&line::parse(words, 7).expect("a job line").expect("a job"))
}

/// A book of job 7 with these figures (trench, saved, pits, groups), and routes 1, 2, 3 with meets, centre and corners.
fn book(figures: [u32; 4], routes: &[(u16, u16, &str)]) -> PlanBook {
    let corners = |words: &str| words.split(' ').map(|p| line::point(p).expect("a point")).collect::<Vec<Point>>();
    let route = |(&(meets, centre, words), run)| RouteRecord { run, meets, count: 0, centre, corners: corners(words) };
    let [trench, saved, pits, groups] = figures;
    let routes: Vec<RouteRecord> = routes.iter().zip(1..).map(route).collect();
    let (kinds, pits, last) = (Kinds::Newer, pits as u16, groups as u16);
    let mut book = PlanBook { kinds, job: 7, runs: 0, trench, saved, pits, last, routes, total: 0 };
    count(&mut book);
    book
}

/// A run and a small one in its box, row 8 of document 01's examples: 7 would do.
const JOB: &str = "0,0 4,3; 1,1 2,2";

/// Both go over 2,1, and dig 7.
fn over_right() -> PlanBook {
    book([7, 2, 7, 1], &[(1, 1, "0,0 1,0 1,1 2,1 2,3 4,3"), (1, 1, "1,1 2,1 2,2")])
}

/// Both go over 1,2, and dig 7.
fn over_left() -> PlanBook {
    book([7, 2, 7, 1], &[(1, 1, "0,0 1,0 1,2 2,2 2,3 4,3"), (1, 1, "1,1 1,2 2,2")])
}

/// They share nothing, and dig 9.
fn apart() -> PlanBook {
    book([9, 0, 6, 1], &[(1, 1, "0,0 4,0 4,3"), (1, 1, "1,1 2,1 2,2")])
}

fn chosen(first: &PlanBook, second: &PlanBook) -> Choice {
    choose(&job(JOB), &first.bytes(), &second.bytes())
}

fn refused(number: i32, place: usize) -> Choice {
    Err(Refusal { number, place })
}

#[test]
fn less_trench_and_the_first_if_equal() {
    let books = [over_right(), over_left(), apart()];
    for (i, first) in books.iter().enumerate() {
        for (j, second) in books.iter().enumerate() {
            let due = if i == 2 && j < 2 { 2 } else { 1 };
            assert_eq!(chosen(first, second), Ok(due), "books {i} and {j}");
        }
    }
    assert_eq!(judge(&job(JOB), &apart().bytes()), ["the routes dig 9, but 7 would do"], "true, and not least");
}

/// What is due for this book before a true one, and behind it.
fn assert_refused(number: i32, what: &str, spoil: impl Fn(&mut PlanBook)) {
    for right in [over_right(), apart()] {
        let mut book = right.clone();
        spoil(&mut book);
        assert_eq!(chosen(&book, &apart()), refused(number, 1), "{what}, first");
        assert_eq!(chosen(&over_left(), &book), refused(number, 2), "{what}, second");
    }
}

#[test]
fn every_figure_is_judged() {
    assert_refused(16, "trench", |book| book.trench += 1);
    assert_refused(16, "less trench", |book| book.trench -= 1);
    assert_refused(16, "no trench", |book| book.trench = 0);
    assert_refused(16, "saved", |book| book.saved += 1);
    assert_refused(16, "the highest bit of saved", |book| book.saved ^= 1 << 31);
    assert_refused(16, "trench and saved", |book| {
        book.trench -= 1;
        book.saved += 1;
    });
    assert_refused(16, "pits", |book| book.pits -= 1);
    assert_refused(16, "meets", |book| book.routes[0].meets = 0);
    assert_refused(16, "meets of the last", |book| book.routes[1].meets = 2);
    assert_refused(16, "groups", |book| book.last = 2);
    assert_refused(16, "the other centre of two", |book| book.routes.iter_mut().for_each(|route| route.centre = 2));
    assert_refused(16, "the centre of one route", |book| book.routes[1].centre = 2);
    assert_refused(16, "the centre by its index", |book| book.routes[0].centre = 0);
    assert_refused(16, "the older kinds", |book| *book = book.clone().as_older());
}

#[test]
fn every_route_is_judged() {
    assert_refused(16, "reversed", |book| book.routes[1].corners.reverse());
    assert_refused(16, "exchanged", |book| {
        let corners = [1, 0].map(|i| book.routes[i].corners.clone());
        book.routes.iter_mut().zip(corners).for_each(|(route, corners)| route.corners = corners);
        count(book);
    });
    // The figures are those of the routes drawn; saved is what they dig less than the runs' 9 decimetres, below 0 for some.
    for (what, words, trench, pits) in [
        ("off the columns, which are 0, 1, 2, 4", "0,0 3,0 3,3 4,3", 9, 7),
        ("it starts elsewhere", "1,0 4,0 4,3", 8, 6),
        ("it ends elsewhere", "0,0 4,0 4,2", 8, 6),
        ("it goes down again", "0,0 0,1 2,1 2,0 4,0 4,3", 10, 8),
        ("it goes around an edge", "0,0 0,1 1,1 1,0 4,0 4,3", 11, 8),
        ("it goes around a cell", "0,0 1,0 1,1 0,1 0,0 4,0 4,3", 12, 8),
    ] {
        let figures = [trench, 9_u32.wrapping_sub(trench), pits, 1];
        let book = book(figures, &[(1, 1, words), (1, 1, "1,1 2,1 2,2")]);
        assert_eq!(chosen(&book, &apart()), refused(16, 1), "{what}");
        assert_eq!(chosen(&over_left(), &book), refused(16, 2), "{what}");
    }
}

/// Pits count crossings (02, C-14), also of runs that do not meet.
#[test]
fn crossings_are_pits() {
    let cross = |pits: u32| book([8, 0, pits, 2], &[(0, 1, "0,2 4,2"), (0, 2, "2,0 2,4")]).bytes();
    let job = job("0,2 4,2; 2,0 2,4");
    assert_eq!(choose(&job, &cross(5), &cross(5)), Ok(1));
    assert_eq!(choose(&job, &cross(4), &cross(5)), refused(16, 1));
    assert_eq!(choose(&job, &cross(5), &cross(4)), refused(16, 2));
}

/// A blank job, and a straight run, of which no book with one corner is true.
#[test]
fn blank_jobs_and_straight_runs() {
    let blank = job_bytes(&Job { number: 7, runs: Vec::new() });
    let plan = book([0, 0, 0, 0], &[]);
    let one = book([1, 0, 2, 1], &[(0, 1, "5,5 5,6")]);
    let straight = job("5,5 5,6");
    assert_eq!(choose(&blank, &plan.bytes(), &plan.bytes()), Ok(1));
    assert_eq!(choose(&blank, &plan.clone().as_older().bytes(), &plan.bytes()), refused(16, 1));
    assert_eq!(choose(&blank, &one.bytes(), &plan.bytes()), refused(15, 1));
    assert_eq!(choose(&blank, &PlanBook { last: 1, ..plan.clone() }.bytes(), &plan.bytes()), refused(16, 1));
    assert_eq!(choose(&straight, &one.bytes(), &one.bytes()), Ok(1));
    assert_eq!(choose(&straight, &one.bytes(), &plan.bytes()), refused(15, 2));
    assert_eq!(choose(&straight, &one.bytes(), &book([1, 0, 2, 1], &[(0, 1, "5,6 5,5")]).bytes()), refused(16, 2));
    for corner in ["5,5", "5,6"] {
        assert_eq!(choose(&straight, &book([0, 1, 1, 1], &[(0, 1, corner)]).bytes(), &one.bytes()), refused(16, 1));
    }
}

/// A run that goes nowhere is a refusal of the job (02, C-18): it comes before any of a book, also where both books are what was once
/// stored for the job.
#[test]
fn runs_that_go_nowhere() {
    let stored = book([0, 0, 1, 1], &[(0, 1, "5,5")]).bytes();
    assert!(PlanBook::read(&stored).is_ok(), "a route of one corner is read");
    assert_eq!(choose(&job("5,5 5,5"), &stored, &stored), refused(17, 5));
    assert_eq!(choose(&job("5,5 5,5"), &[], &stored), refused(17, 5), "before 12 of the first book");
    assert_eq!(choose(&job("0,0 4,3; 1,1 1,1"), &over_left().bytes(), &[]), refused(17, 24));
    assert_eq!(choose(&job("0,0 3,4; 0,0 3,4; 0,0 3,4; 1,1 1,1"), &[], &[]), refused(17, 62), "before 11");
    assert_eq!(choose(&job("2000000,5 2000000,5"), &stored, &stored), refused(8, 5), "after 8");
    assert_eq!(outcome(&refused(17, 5)), "job 17");
}

#[test]
fn another_job() {
    assert_refused(15, "the job number", |book| book.job = 8);
    assert_refused(15, "a job number that differs in its last byte", |book| book.job |= 1 << 31);
    assert_refused(15, "a run number", |book| book.routes[1].run = 3);
    assert_refused(15, "run numbers the other way round", |book| {
        book.routes[0].run = 2;
        book.routes[1].run = 1;
    });
    assert_refused(15, "routes the other way round", |book| book.routes.reverse());
    assert_refused(15, "a route less", |book| {
        book.routes.pop();
        count(book);
    });
    assert_refused(15, "a route more", |book| {
        book.routes.push(RouteRecord { run: 3, ..book.routes[1].clone() });
        count(book);
    });
    assert_refused(15, "no route", |book| {
        book.routes.clear();
        count(book);
    });
}

/// 15 is told of books of either set of kinds, and before 16; the reader's refusals before both.
#[test]
fn the_order_within_a_book() {
    assert_refused(15, "of another job and not true", |book| {
        book.job = 8;
        book.trench += 1;
    });
    assert_refused(15, "of another job and of the older kinds", |book| {
        book.job = 8;
        *book = book.clone().as_older();
    });
    assert_refused(15, "of other runs and of the older kinds", |book| {
        book.routes[0].run = 9;
        *book = book.clone().as_older();
    });
    assert_refused(16, "of the older kinds and of this job, and not true", |book| {
        book.trench += 1;
        *book = book.clone().as_older();
    });
    assert_refused(14, "miscounted, of another job, of the older kinds", |book| {
        book.total += 1;
        book.job = 8;
        *book = book.clone().as_older();
    });
    assert_refused(14, "a number of runs that is the job's, and a route less", |book| {
        book.routes.pop();
    });
    assert_refused(13, "no turn, and of another job", |book| {
        book.routes[0].corners[0] = Point::new(9, 9);
        book.job = 8;
    });
    assert_refused(8, "too far, and of another job", |book| {
        book.routes[1].corners[0] = Point::new(1, 1_000_001);
        book.job = 8;
    });
    let mut of_another = over_right();
    of_another.job = 8;
    let bytes = of_another.bytes();
    let cut = &bytes[..bytes.len() - 1];
    let right = over_right().bytes();
    assert_eq!(choose(&job(JOB), cut, &right), refused(12, 1), "cut, and of another job");
    assert_eq!(choose(&job(JOB), &right, cut), refused(12, 2), "cut, and of another job, second");
    assert_eq!(choose(&job(JOB), &right, &[]), refused(12, 2), "no byte");
}

/// The job's refusals have their own places; the first book's come before any of the second's.
#[test]
fn the_order_of_the_three() {
    let bytes = job(JOB);
    let (right, other, untrue) = {
        let (mut other, mut untrue) = (over_right(), over_right());
        other.job = 8;
        untrue.pits = 0;
        (over_right().bytes(), other.bytes(), untrue.bytes())
    };
    assert_eq!(choose(&bytes[..bytes.len() - 1], &[], &other), refused(3, 43), "a job that is cut");
    assert_eq!(choose(&[], &[], &[]), refused(3, 0), "nothing at all");
    let mut unknown = bytes.clone();
    unknown[5] = 0;
    assert_eq!(choose(&unknown, &right, &right), refused(4, 5), "an unknown kind");
    let far = job("0,0 4,3; 1,1 2,2000000");
    assert_eq!(choose(&far, &right[..5], &right[..5]), refused(8, 24), "a job's 8, and not a book's");
    let no_star = job("0,0 3,4; 0,0 3,4; 0,0 3,4");
    assert_eq!(choose(&no_star, &[], &untrue), refused(11, 0), "no star");
    assert_eq!(choose(&bytes, &untrue, &[]), refused(16, 1), "the first is not true, the second is cut");
    assert_eq!(choose(&bytes, &other, &[]), refused(15, 1));
    assert_eq!(choose(&bytes, &untrue, &other), refused(16, 1));
    assert_eq!(choose(&bytes, &[], &untrue), refused(12, 1));
    assert_eq!(choose(&bytes, &right, &untrue), refused(16, 2));
    assert_eq!(choose(&bytes, &right, &other), refused(15, 2));
}

#[test]
fn a_jobs_8_is_not_a_books() {
    assert_eq!(outcome(&refused(8, 5)), "job 8");
    assert_eq!((outcome(&refused(8, 1)), outcome(&refused(8, 2))), ("first 8".to_string(), "second 8".to_string()));
    assert_eq!((outcome(&refused(12, 2)), outcome(&Ok(2))), ("second 12".to_string(), "stake from 2".to_string()));
    assert_eq!(outcomes().len(), 2 + 9 + 6 + 6);
}

/// Plans of every style are true, and none digs less than the planned one.
#[test]
fn foreign_plans_are_true() {
    let (mut others, mut more) = (0, 0);
    for n in 0..600 {
        let random = &mut Random::nth(21, n);
        let survey = Survey::of(some_job(random));
        let judge = Judge::of_anyones(survey.clone());
        let least = planner::plan_surveyed(&survey).expect("stars");
        let planned = PlanBook::of(&survey.job, &least);
        for style in STYLES {
            let routes = foreign::routes(random, &survey, style);
            let book = foreign::book(&survey, &routes);
            assert_eq!(judge.faults_of_book(&book), Vec::<String>::new(), "{style:?} of {}", line::show(&survey.job));
            assert!(book.trench >= planned.trench, "{style:?} of {}", line::show(&survey.job));
            others += usize::from(book.trench == planned.trench && book != planned);
            more += usize::from(book.trench > planned.trench);
        }
    }
    assert!(others > 300 && more > 600, "{others} other least plans, and {more} that dig more");
}

/// The words of the judge for all that may be wrong with a book that was spoilt in this way.
fn words(way: Way) -> &'static [&'static str] {
    const TRENCH: &str = "trench is ";
    const SAVED: &str = "saved is ";
    const PITS: &str = "pits is ";
    const FIRST: &str = " is not its first point ";
    const SECOND: &str = " is not its second point ";
    const LENGTH: &str = " long, but its points are ";
    match way {
        Way::Trench => &[TRENCH],
        Way::Saved => &[SAVED],
        Way::Sum | Way::Unshared => &[TRENCH, SAVED],
        Way::Better => &[TRENCH, SAVED, PITS],
        Way::Pits | Way::Crossings => &[PITS],
        Way::Meets => &["meets is "],
        Way::Groups => &["the head's number of groups is "],
        Way::Centre | Way::HigherCentre | Way::CentreByIndex => &["its group's centre is "],
        Way::OffLines => &[" is no crossing of survey lines"],
        Way::Detour | Way::Loop => &[LENGTH],
        Way::FirstMoved => &[FIRST, LENGTH],
        Way::SecondMoved => &[SECOND, LENGTH],
        Way::FirstElsewhere => &[FIRST],
        Way::SecondElsewhere => &[SECOND],
        Way::Reversed => &[FIRST, SECOND],
        Way::Exchanged => &[FIRST, SECOND, LENGTH],
        Way::Older => &["the plan has the older kinds"],
        _ => &[],
    }
}

#[test]
fn spoilt_books_are_wrong_in_one_respect() {
    for (way, k) in WAYS.into_iter().zip(0..) {
        let mut tried = 0;
        for n in 0..4_000 {
            let random = &mut Random::nth(22 + k, n);
            let survey = Survey::of(some_job(random));
            let style = *random.pick(&STYLES);
            let routes = foreign::routes(random, &survey, style);
            let Some(book) = spoilt(random, &survey, &routes, way) else { continue };
            tried += 1;
            let judge = Judge::of_anyones(survey.clone());
            let shown = line::show(&survey.job);
            assert_eq!(of_book(&judge, &book.bytes()), Err(way.number()), "{way:?} of {shown}");
            // Of paths that dig more than the runs' distances no figure of saved is right.
            let none_saved = i64::from(book.trench) > survey.job.distance();
            let faults = judge.faults_of_book(&book);
            let named = |fault: &String| words(way).iter().any(|words| fault.contains(words));
            let excused = |fault: &String| none_saved && fault.starts_with("saved is ");
            if way.number() == 16 {
                assert!(faults.iter().any(named), "{way:?} of {shown}: {faults:?}");
                assert!(faults.iter().all(|fault| named(fault) || excused(fault)), "{way:?} of {shown}: {faults:?}");
            }
            if tried == 40 {
                break;
            }
        }
        assert_eq!(tried, 40, "{way:?} can be done to some jobs");
    }
}

/// Two opinions agree: what a pair was made to give, and what the judge says.
#[test]
fn pairs_are_chosen_as_made() {
    let mut seen = std::collections::BTreeSet::new();
    for n in 0..3_000 {
        let case = pair_case(23, n);
        let choice = choose(&case.job, case.first(), case.second());
        assert!(case.made.is_none_or(|made| made == choice), "pair {n}, {}: {choice:?}", case.label);
        seen.insert(case.label);
    }
    let missing: Vec<String> = labels().into_iter().filter(|label| !seen.contains(label) && label != EQUAL).collect();
    assert_eq!(missing, Vec::<String>::new());
}
