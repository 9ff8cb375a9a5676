//! The comparison passes a right planner, and notices each wrong one.

mod common;

use std::collections::BTreeSet;

use common::{EIGHT, SEVEN, SEVENTEEN, Test, read_by};
use trench_check::choose::Chooser;
use trench_check::compare::{Asked, Called, Caller, Case, case, loans, try_case, try_cases, try_listing};
use trench_check::damage::{NOWHERE, damaged};
use trench_check::enumerate::Path;
use trench_check::facts;
use trench_check::forecast::{Forecast, MOST_WORDS, forecast};
use trench_check::graph::{Graph, Survey};
use trench_check::grid::Grid;
use trench_check::job::{Job, Point, Run};
use trench_check::job_list::book_of;
use trench_check::listing;
use trench_check::pits;
use trench_check::plan_book::PlanBook;
use trench_check::planner;
use trench_check::random::Random;
use trench_check::read_back::Answered;
use trench_check::refusal::{self, Refusal, called, verdict};
use trench_check::report::{Report, Subject};
use trench_check::write_job::Writer;

/// A call that strays nowhere.
fn kept(answer: i32) -> Option<Called> {
    Some(Called { answer, strayed: None })
}

/// A planner in Rust with words of its own, called with exactly the lent slices.
struct Plain<F>(F);

impl<F: FnMut(&[u8], &mut [u8]) -> i32> Caller for Plain<F> {
    fn plan(&mut self, job: &[u8], out: &mut [u8]) -> Option<Called> {
        kept((self.0)(job, out))
    }
}

/// A planner that is lent its words.
struct Lent<F>(F);

impl<F: FnMut(&[u8], &mut [u32], &mut [u8]) -> i32> Caller for Lent<F> {
    fn plan_in(&mut self, job: &[u8], work: &mut [u32], out: &mut [u8]) -> Option<Called> {
        kept((self.0)(job, work, out))
    }
}

/// A planner with what stands beside it: these answers about a job alone, and a writer that writes this.
struct Beside<A, W> {
    planner: fn(&[u8], &mut [u8]) -> i32,
    answer: A,
    book: W,
}

impl<A: FnMut(Asked, &[u8]) -> i64, W: FnMut(u32, &[i32]) -> Vec<u8>> Caller for Beside<A, W> {
    fn plan(&mut self, job: &[u8], out: &mut [u8]) -> Option<Called> {
        kept((self.planner)(job, out))
    }

    fn ask(&mut self, asked: Asked, job: &[u8]) -> Option<Answered> {
        Some(Answered { answer: (self.answer)(asked, job), strayed: None })
    }

    fn writer(&mut self) -> Option<&mut dyn Writer> {
        Some(self)
    }
}

impl<A, W: FnMut(u32, &[i32]) -> Vec<u8>> Writer for Beside<A, W> {
    fn write(&mut self, number: u32, list: &[i32], out: &mut [u8]) -> Called {
        let book = (self.book)(number, list);
        out[..book.len()].copy_from_slice(&book);
        Called { answer: book.len() as i32, strayed: None }
    }

    fn place(&mut self, _: u32, _: &[i32], _: &mut [u8]) -> Answered {
        unreachable!("a job that is written again is not refused")
    }
}

/// The independent planner with the interface of `trench_plan`.
fn right(job: &[u8], out: &mut [u8]) -> i32 {
    match called(forecast(job), MOST_WORDS, out.len(), verdict(job)) {
        Err(refused) => -refused.number,
        Ok(job) => write(&PlanBook::of(&job, &planner::plan(&job).expect("stars")), out),
    }
}

/// The same with the interface of `trench_plan_in`.
fn right_in(job: &[u8], work: &mut [u32], out: &mut [u8]) -> i32 {
    by_verdict(called(forecast(job), work.len(), out.len(), verdict(job)), |forecast| forecast.words, work, out)
}

/// A planner in lent words of which this is due, and which clears so many of them.
fn by_verdict(due: Result<Job, Refusal>, cleared: fn(&Forecast) -> usize, work: &mut [u32], out: &mut [u8]) -> i32 {
    match due {
        Err(refused) => -refused.number,
        Ok(job) => {
            work[..cleared(&Forecast::of(&job))].fill(0);
            write(&PlanBook::of(&job, &planner::plan(&job).expect("stars")), out)
        }
    }
}

fn write(book: &PlanBook, out: &mut [u8]) -> i32 {
    let bytes = book.bytes();
    out[..bytes.len()].copy_from_slice(&bytes);
    bytes.len() as i32
}

const JOBS: u64 = 510;

fn report(planner: impl FnMut(&[u8], &mut [u8]) -> i32) -> Report {
    try_cases(&mut Plain(planner), 11, 0, JOBS, 1)
}

/// One of the jobs shows a fault of this planner in these words.
fn assert_noticed(planner: impl FnMut(&[u8], &mut [u8]) -> i32, words: &str) {
    assert_one_shows(&mut Plain(planner), words);
}

fn assert_one_shows(caller: &mut dyn Caller, words: &str) {
    let mut faults = (0..JOBS).flat_map(|n| try_cases(caller, 11, n, n + 1, 1).faults);
    assert!(faults.any(|fault| fault.contains(words)), "`{words}` is in no fault");
}

/// The right answer with the plan changed.
fn changed(job: &[u8], out: &mut [u8], change: impl FnOnce(&mut PlanBook)) -> i32 {
    let answer = right(job, out);
    if answer < 0 {
        return answer;
    }
    let mut book = PlanBook::read(&out[..answer as usize]).expect("a plan was written");
    change(&mut book);
    write(&book, out)
}

/// The pits as they were before C-14.
fn corners_alone(book: &mut PlanBook) {
    let corners: BTreeSet<Point> = book.routes.iter().flat_map(|route| route.corners.iter().copied()).collect();
    book.pits = corners.len() as u16;
}

#[test]
fn a_right_planner_passes() {
    let report = report(right);
    assert_eq!(report.faults, Vec::<String>::new());
    let calls = |n: u64| loans(forecast(&case(11, n).bytes).ok()).iter().filter(|loan| loan.words.is_none()).count();
    assert_eq!((report.books, report.calls), (JOBS as usize, (0..JOBS).map(calls).sum()));
    let full = report.filled;
    assert!(full > 20, "plans that need every byte of the forecast: {full}");
}

#[test]
fn wrong_answers_are_noticed() {
    assert_noticed(|_, _| -11, "a plan is due");
    assert_noticed(|_, _| 0, "the answer is 0 and should be -2");
    assert_noticed(|job, out| right(job, &mut out.to_vec()), "refused 12 at 0");
    assert_noticed(|job, out| right(job, out).max(-10), "the answer is -10 and should be -11");
    assert_noticed(|job, out| if job.is_empty() { -4 } else { right(job, out) }, "the answer is -4 and should be");
    let blank_refused = |job: &[u8], out: &mut [u8]| match right(job, out) {
        22 => -10,
        answer => answer,
    };
    assert_noticed(blank_refused, "the answer is -10, but a plan is due");
}

#[test]
fn wrong_bytes_are_noticed() {
    let touch_refused = |job: &[u8], out: &mut [u8]| {
        let answer = right(job, out);
        if answer < 0 && !out.is_empty() {
            out[0] ^= 1;
        }
        answer
    };
    assert_noticed(touch_refused, "a refused call changed the plan buffer");
    let touch_behind = |job: &[u8], out: &mut [u8]| {
        let answer = right(job, out);
        if let Some(byte) = usize::try_from(answer).ok().and_then(|length| out.get_mut(length)) {
            *byte ^= 1;
        }
        answer
    };
    assert_noticed(touch_behind, "a byte behind the plan was changed");
    assert_noticed(|job, out| changed(job, out, |book| book.trench += 1), "but the routes dig");
    assert_noticed(|job, out| changed(job, out, |book| book.pits += 1), "pits is");
    assert_noticed(|job, out| changed(job, out, corners_alone), "pits is");
    let meets_none = |book: &mut PlanBook| book.routes.iter_mut().for_each(|route| route.meets = 0);
    assert_noticed(|job, out| changed(job, out, meets_none), "meets is 0 and should be");
}

#[test]
fn a_wrong_order_of_refusals_is_noticed() {
    let buffer_last = |job: &[u8], out: &mut [u8]| match verdict(job) {
        Err(refused) => -refused.number,
        Ok(_) => right(job, out),
    };
    assert_noticed(buffer_last, "the answer is -11 and should be -2");
    let buffer_first = |job: &[u8], out: &mut [u8]| if out.len() < 22 { -2 } else { right(job, out) };
    assert_noticed(buffer_first, "own words and 21 bytes: the answer is -2 and should be -3");
    let greatest_forecast = |job: &[u8], out: &mut [u8]| if out.len() < 36_886 { -2 } else { right(job, out) };
    assert_noticed(greatest_forecast, "the answer is -2, but a plan is due");
    let plan_alone = |job: &[u8], out: &mut [u8]| match verdict(job).map(|job| planner::plan(&job)) {
        Ok(Some(plan)) => {
            let book = PlanBook::of(&refusal::read(job).expect("a job"), &plan);
            if book.bytes().len() <= out.len() { write(&book, out) } else { -2 }
        }
        _ => right(job, out),
    };
    assert_noticed(plan_alone, "and should be -2");
    let seven_for_eight = |job: &[u8], out: &mut [u8]| match right(job, out) {
        -8 => -7,
        answer => answer,
    };
    assert_noticed(seven_for_eight, "the answer is -7 and should be -8");
}

/// A planner that asks this of each run, in this order; then whether all groups are stars; and last this of all runs.
fn asking(of_run: &'static [Test], last: &'static [Test]) -> impl Fn(&[u8], &mut [u8]) -> i32 {
    move |bytes, out| {
        let job = match read_by(bytes, of_run) {
            Err(refused) => return -refused.number,
            Ok(job) => job,
        };
        if out.len() < Forecast::of(&job).bytes {
            return -2;
        }
        let Some(plan) = planner::plan(&job) else { return -11 };
        match read_by(bytes, last) {
            Err(refused) => -refused.number,
            Ok(_) => write(&PlanBook::of(&job, &plan), out),
        }
    }
}

/// What is found with books of which some run goes nowhere.
fn faults_of_nowhere(planner: impl Fn(&[u8], &mut [u8]) -> i32) -> Vec<String> {
    let mut report = Report::of(Subject::Jobs);
    for (n, way) in (0..400).zip(NOWHERE.cycle()) {
        let made = damaged(&mut Random::nth(16, n), way);
        let case = Case { bytes: made.bytes, made_wrong: Some(made.refusal), what: made.what.to_string() };
        try_case(&mut Plain(&planner), &case, &mut Random::nth(17, n), &mut report);
    }
    report.faults
}

/// 17 is told behind 8 in the same record and before all that comes later, of points that coincide in both coordinates.
#[test]
fn runs_that_go_nowhere_are_noticed() {
    const SAME_X: Test = (17, |run, _| run.first.x == run.second.x);
    const SAME_Y: Test = (17, |run, _| run.first.y == run.second.y);
    const SAME_SUM: Test = (17, |run, _| run.first.x + run.first.y == run.second.x + run.second.y);
    const TEN: Test = (10, SEVENTEEN.1);
    assert_eq!(report(asking(&[SEVEN, EIGHT, SEVENTEEN], &[])).faults, Vec::<String>::new());
    assert_noticed(asking(&[SEVEN, EIGHT], &[]), "the answer is 40 and should be -17");
    assert_noticed(asking(&[SEVEN, EIGHT, TEN], &[]), "the answer is -10 and should be -17");
    assert_noticed(asking(&[SEVEN, SEVENTEEN, EIGHT], &[]), "the answer is -17 and should be -8");
    assert_noticed(asking(&[SEVENTEEN, SEVEN, EIGHT], &[]), "the answer is -17 and should be -7");
    let faults = faults_of_nowhere(asking(&[SEVEN, EIGHT], &[SEVENTEEN]));
    for other in [4, 5, 6, 7, 8, 11] {
        let told = format!("the answer is -{other} and should be -17");
        assert!(faults.iter().any(|fault| fault.ends_with(&told)), "`{told}` is in none of {} faults", faults.len());
    }
    assert_noticed(asking(&[SEVEN, EIGHT, SAME_X], &[]), "special: 0,0 1,0; 0,0 0,1 ");
    assert_noticed(asking(&[SEVEN, EIGHT, SAME_X], &[]), "the answer is -17, but a plan is due");
    assert_noticed(asking(&[SEVEN, EIGHT, SAME_Y], &[]), "special: 0,0 3,0; 2,0 5,0 ");
    assert_noticed(asking(&[SEVEN, EIGHT, SAME_SUM], &[]), "special: 5,6 6,5; 5,5 5,6; 5,5 6,5; 6,5 6,6 ");
}

/// A planner that finds the groups by another test of meeting: it refuses where one of these is no star, and else tells the meets,
/// groups and centres that it found.
fn grouped_by(meet: fn(&Run, &Run) -> bool) -> impl Fn(&[u8], &mut [u8]) -> i32 {
    move |job, out| {
        let Ok(read) = called(forecast(job), MOST_WORDS, out.len(), refusal::read(job)) else {
            return right(job, out);
        };
        let graph = Graph::by(read.runs.len(), |i, j| meet(&read.runs[i], &read.runs[j]));
        let Some(centres) = graph.centres() else { return -11 };
        if verdict(job).is_err() {
            return 22;
        }
        changed(job, out, |book| {
            book.last = graph.groups().len() as u16;
            for (i, route) in book.routes.iter_mut().enumerate() {
                (route.meets, route.centre) = (graph.meets(i) as u16, read.runs[centres[i]].number);
            }
        })
    }
}

fn meets_rightly(a: &Run, b: &Run) -> bool {
    a.area().common(&b.area()).is_some_and(|common| common.low != common.high)
}

#[test]
fn wrong_groups_are_noticed() {
    let corner_joins = |a: &Run, b: &Run| a.area().common(&b.area()).is_some();
    assert_eq!(report(grouped_by(meets_rightly)).faults, Vec::<String>::new());
    assert_noticed(grouped_by(corner_joins), "special: 0,0 3,3; 3,3 5,5");
    assert_noticed(grouped_by(corner_joins), "the head's number of groups is 1 and should be 2");
    assert_noticed(grouped_by(corner_joins), "the answer is -11, but a plan is due");
    let area_alone = |a: &Run, b: &Run| {
        let common = a.area().common(&b.area());
        common.is_some_and(|common| common.low.x < common.high.x && common.low.y < common.high.y)
    };
    assert_noticed(grouped_by(area_alone), "the head's number of groups is 2 and should be 1");
    assert_noticed(grouped_by(|_, _| false), "should be 1");
    let one_star_alone = |job: &[u8], out: &mut [u8]| match verdict(job) {
        Ok(read) if Survey::of(read.clone()).graph.groups().len() > 1 => {
            if right(job, out) > 0 {
                -11
            } else {
                -2
            }
        }
        _ => right(job, out),
    };
    assert_noticed(one_star_alone, "the answer is -11, but a plan is due");
}

/// Accepts every well-formed job of which some group is chosen, and writes nothing where it should have refused.
fn accepting(choice: fn(&Graph) -> bool) -> impl Fn(&[u8], &mut [u8]) -> i32 {
    move |job, out| match (right(job, out), refusal::read(job)) {
        (-11, Ok(read)) if choice(&Survey::of(read.clone()).graph) => 22,
        (answer, _) => answer,
    }
}

#[test]
fn groups_that_are_no_stars_are_noticed() {
    let some = |graph: &Graph| graph.groups().iter().any(|group| graph.centre(group).is_some());
    assert_noticed(accepting(some), "the answer is 22 and should be -11");
    let first = |graph: &Graph| graph.centre(&graph.groups()[0]).is_some();
    assert_noticed(accepting(first), "the answer is 22 and should be -11");
    let last = |graph: &Graph| graph.groups().last().is_some_and(|group| graph.centre(group).is_some());
    assert_noticed(accepting(last), "the answer is 22 and should be -11");
    let some_run_meets_all =
        |graph: &Graph| graph.groups().iter().all(|group| group.iter().any(|&c| graph.meets(c) + 1 == group.len()));
    assert_noticed(accepting(some_run_meets_all), "the answer is 22 and should be -11");
}

/// The groups of a job, by the indexes of their runs.
fn groups_of(job: &[u8]) -> Vec<Vec<usize>> {
    Survey::of(refusal::read(job).expect("a job")).graph.groups()
}

#[test]
fn wrong_centres_and_counts_of_groups_are_noticed() {
    let centres = |change: fn(&Job, &[Vec<usize>], usize, u16) -> u16| {
        move |job: &[u8], out: &mut [u8]| {
            let read = refusal::read(job);
            changed(job, out, |book| {
                let (read, groups) = (read.expect("a job"), groups_of(job));
                for (i, route) in book.routes.iter_mut().enumerate() {
                    route.centre = change(&read, &groups, i, route.centre);
                }
            })
        }
    };
    let told = "its group's centre is ";
    assert_noticed(
        centres(|job, _, _, due| job.runs.iter().position(|run| run.number == due).expect("a run") as u16),
        told,
    );
    assert_noticed(centres(|job, _, i, _| job.runs[i].number), told);
    assert_noticed(centres(|job, _, _, _| job.runs[0].number), told);
    let of_another = |job: &Job, groups: &[Vec<usize>], i: usize, due: u16| {
        groups.iter().find(|group| !group.contains(&i)).map_or(due, |group| job.runs[group[0]].number)
    };
    assert_noticed(centres(of_another), told);
    let first_of_group = |job: &Job, groups: &[Vec<usize>], i: usize, _: u16| {
        job.runs[groups.iter().find(|group| group.contains(&i)).expect("a group")[0]].number
    };
    assert_noticed(centres(first_of_group), told);
    let higher_of_two = |job: &Job, groups: &[Vec<usize>], i: usize, due: u16| {
        let group = groups.iter().find(|group| group.contains(&i)).expect("a group");
        if group.len() == 2 { job.runs[group[1]].number } else { due }
    };
    assert_noticed(centres(higher_of_two), told);
    let none_alone = |_: &Job, groups: &[Vec<usize>], i: usize, due: u16| {
        if groups.contains(&vec![i]) { 0 } else { due }
    };
    assert_noticed(centres(none_alone), told);
    let counted = |change: fn(&[Vec<usize>], &PlanBook) -> usize| {
        move |job: &[u8], out: &mut [u8]| changed(job, out, |book| book.last = change(&groups_of(job), book) as u16)
    };
    let told = "the head's number of groups is ";
    assert_noticed(counted(|groups, _| groups.len() + 1), told);
    assert_noticed(counted(|_, book| book.routes.len()), told);
    assert_noticed(counted(|groups, _| groups.len().min(1)), told);
    assert_noticed(counted(|groups, _| groups.len().max(1)), told);
    assert_noticed(counted(|groups, _| groups.iter().filter(|group| group.len() > 1).count()), told);
    assert_noticed(counted(|_, book| book.routes.first().map_or(0, |route| route.centre.into())), told);
}

#[test]
fn wrong_kinds_are_noticed() {
    let older = |job: &[u8], out: &mut [u8]| changed(job, out, |book| *book = book.clone().as_older());
    assert_noticed(older, "the plan has the older kinds");
    let older_star = |job: &[u8], out: &mut [u8]| {
        changed(job, out, |book| {
            if book.last == 1 {
                *book = book.clone().as_older();
            }
        })
    };
    assert_noticed(older_star, "the plan has the older kinds");
    let blank_older = |job: &[u8], out: &mut [u8]| match right(job, out) {
        22 => {
            out[0] = 0x50;
            22
        }
        answer => answer,
    };
    assert_noticed(blank_older, "the plan has the older kinds");
    let mixed = |newer_head: bool| {
        move |job: &[u8], out: &mut [u8]| {
            let answer = right(job, out);
            if answer < 30 {
                return answer;
            }
            let newer = PlanBook::read(&out[..answer as usize]).expect("a plan was written");
            let older = newer.clone().as_older();
            let (front, back) = if newer_head { (&newer, &older) } else { (&older, &newer) };
            let at = front.routes.len() - 1;
            let bytes = [&front.bytes()[..front.places()[at]], &back.bytes()[back.places()[at]..]].concat();
            out[..bytes.len()].copy_from_slice(&bytes);
            bytes.len() as i32
        }
    };
    assert_noticed(mixed(true), "refused 12 at 19");
    assert_noticed(mixed(false), "refused 12 at 19");
    assert_noticed(mixed(true), "job 25: special: 0,0 2,2; 2,2 4,4; 0,0 2,2; 2,2 4,4; 4,4 4,5");
}

/// The last group laid with one bend a run, and all figures measured on that.
fn last_group_bent(job: &[u8], out: &mut [u8]) -> i32 {
    changed(job, out, |book| {
        let survey = Survey::of(refusal::read(job).expect("a job"));
        let groups = survey.graph.groups();
        let Some(group) = groups.last().filter(|_| groups.len() > 1) else { return };
        for &i in group {
            let Run { first, second, .. } = survey.job.runs[i];
            let mut corners = vec![first, Point::new(second.x, first.y), second];
            corners.dedup();
            book.routes[i].corners = corners;
        }
        let path = |corners: &[Point]| survey.grid.path(corners).expect("a path of the grid");
        let drawn: Vec<Path> = book.routes.iter().map(|route| path(&route.corners)).collect();
        *book = PlanBook::of(&survey.job, &planner::drawn(&survey, &drawn).expect("stars"));
    })
}

#[test]
fn a_group_that_is_not_least_is_noticed() {
    assert_noticed(last_group_bent, " would do");
}

/// Figures that were worked out group by group where they belong to all: a pit that two groups share counts once, and where two
/// groups cross there is one.
#[test]
fn figures_by_group_are_noticed() {
    let summed = |job: &[u8], out: &mut [u8]| {
        changed(job, out, |book| {
            let pits = groups_of(job).into_iter().map(|group| {
                let corners: Vec<&[Point]> = group.iter().map(|&i| &book.routes[i].corners[..]).collect();
                pits::of_corners(&corners).count()
            });
            book.pits = pits.sum::<usize>() as u16;
        })
    };
    assert_noticed(summed, "special: 0,0 3,3; 3,3 5,5");
    assert_noticed(summed, "special: 0,2 4,2; 2,0 2,4");
    let first_alone = |job: &[u8], out: &mut [u8]| {
        changed(job, out, |book| {
            if let Some(group) = groups_of(job).first() {
                let all =
                    |i: usize| book.routes[i].corners.windows(2).map(|pair| pair[0].distance(pair[1])).sum::<i64>();
                book.trench = group.iter().map(|&i| all(i)).sum::<i64>() as u32;
            }
        })
    };
    assert_noticed(first_alone, "but the routes dig");
}

#[test]
fn what_was_not_tried_is_told() {
    let untried = Report::of(Subject::Jobs).untried();
    assert_eq!(untried.len(), 9 + 33 + 33 + facts::ALL.len() + 1);
    assert_eq!(untried.last().map(String::as_str), Some("enough jobs with a run that goes nowhere"));
    assert_eq!(
        [&untried[8][..], &untried[9], &untried[42], &untried[75]],
        ["refusal 17", "a job of 0 runs", "a job of 0 groups", "enough jobs with several groups"]
    );
    assert_eq!(try_cases(&mut Plain(|_: &[u8], _: &mut [u8]| -2), 11, 0, 8_000, 1).untried(), Vec::<String>::new());
}

/// What the independent reading tells of a job alone.
fn right_answer(asked: Asked, job: &[u8]) -> i64 {
    match (asked, forecast(job)) {
        (Asked::Words, Ok(forecast)) => forecast.words as i64,
        (Asked::Bytes, Ok(forecast)) => forecast.bytes as i64,
        (Asked::Place, due) => due.err().map_or(0, |refused| refused.place as i64),
        (_, Err(refused)) => -i64::from(refused.number),
    }
}

fn right_book(number: u32, list: &[i32]) -> Vec<u8> {
    book_of(number, list, usize::MAX).expect("a well-formed list")
}

/// Wrong answers about a job alone, or books, are noticed, whatever the planner does: here it refuses all.
fn assert_noticed_beside(
    answer: impl FnMut(Asked, &[u8]) -> i64,
    book: impl FnMut(u32, &[i32]) -> Vec<u8>,
    words: &str,
) {
    assert_one_shows(&mut Beside { planner: |_, _| -2, answer, book }, words);
}

#[test]
fn right_answers_and_books_pass() {
    let mut beside = Beside { planner: right, answer: right_answer, book: right_book };
    let report = try_cases(&mut beside, 11, 0, JOBS, 1);
    assert_eq!(report.faults, Vec::<String>::new());
    assert_eq!(report.calls, self::report(right).calls + 3 * JOBS as usize + report.written_again);
    let well_formed = report.accepted.values().sum::<usize>() + report.refused[&11];
    assert_eq!(report.written_again, well_formed, "every well-formed job is written again");
}

/// Tells the place that is made of a job's refusal, and another where there is none.
fn places(change: fn(&[u8], Refusal) -> usize, none: fn(&[u8]) -> usize) -> impl Fn(Asked, &[u8]) -> i64 {
    move |asked, job| match (asked, forecast(job)) {
        (Asked::Place, Err(refused)) => change(job, refused) as i64,
        (Asked::Place, Ok(_)) => none(job) as i64,
        _ => right_answer(asked, job),
    }
}

#[test]
fn wrong_places_are_noticed() {
    let right: fn(&[u8], Refusal) -> usize = |_, refused| refused.place;
    assert_noticed_beside(places(right, |_| 1), right_book, "the place: 1 is told and should be 0");
    assert_noticed_beside(places(|_, _| 0, |_| 0), right_book, "the place: 0 is told and should be 5");
    assert_noticed_beside(places(right, <[u8]>::len), right_book, "the place: 27 is told and should be 0");
    let no_star = |job: &[u8]| verdict(job).map_or(job.len(), |_| 0);
    assert_noticed_beside(places(right, no_star), right_book, "is told and should be 0");
    let record_for_after_end =
        |_: &[u8], refused: Refusal| refused.place.saturating_sub(if refused.number == 5 { 3 } else { 0 });
    assert_noticed_beside(places(record_for_after_end, |_| 0), right_book, "byte after the end");
    let index_for_nowhere = |_: &[u8], refused: Refusal| match refused.number {
        17 => (refused.place - 5) / 19,
        _ => refused.place,
    };
    assert_noticed_beside(places(index_for_nowhere, |_| 0), right_book, "the place: 0 is told and should be 5");
    assert_noticed_beside(places(index_for_nowhere, |_| 0), right_book, "the place: 1 is told and should be 24");
}

/// Tells this forecast of well-formed jobs.
fn forecasts(of: impl Fn(&Job) -> Forecast) -> impl Fn(Asked, &[u8]) -> i64 {
    move |asked, job| match (asked, refusal::read(job)) {
        (Asked::Words, Ok(job)) => of(&job).words as i64,
        (Asked::Bytes, Ok(job)) => of(&job).bytes as i64,
        _ => right_answer(asked, job),
    }
}

/// One of the jobs shows that its forecast was changed so.
fn assert_noticed_forecast(change: fn(&Job, &mut Forecast), words: &str) {
    let changed = move |job: &Job| {
        let mut told = Forecast::of(job);
        change(job, &mut told);
        told
    };
    assert_noticed_beside(forecasts(changed), right_book, &format!("the forecast's {words}"));
}

#[test]
fn wrong_forecasts_are_noticed() {
    let noticed = assert_noticed_forecast;
    noticed(|_, told| told.words += 1, "words: 1 is told and should be 0");
    noticed(|_, told| told.words = MOST_WORDS, "words: 16384 is told and should be 16");
    noticed(|job, told| told.words = 4 * Grid::hanan(job).columns.len().pow(2), "words: 16 is told and should be 8");
    noticed(|job, told| told.words = 16 * job.runs.len().pow(2), "words: 64 is told and should be 16");
    noticed(|_, told| told.bytes = 36_886, "bytes: 36886 is told and should be 22");
    noticed(|job, told| told.bytes -= usize::from(!job.runs.is_empty()), "bytes: 57 is told and should be 58");
    noticed(|job, told| told.bytes -= 9 * job.runs.len(), "bytes: 49 is told and should be 58");
    noticed(|job, told| *told = without_rows(job), "bytes: 40 is told and should be 58");
    let own_lines_alone = |job: &Job, told: &mut Forecast| {
        let alone = |run: &Run| Forecast::of(&Job { number: job.number, runs: vec![*run] }).bytes - 22;
        told.bytes = 22 + job.runs.iter().map(alone).sum::<usize>();
    };
    noticed(own_lines_alone, "bytes: 94 is told and should be 130");
    let of_no_star = |asked, job: &[u8]| match verdict(job) {
        Err(refused) if refused.number == 11 && asked != Asked::Place => -11,
        _ => right_answer(asked, job),
    };
    assert_noticed_beside(of_no_star, right_book, "the forecast's words: -11 is told and should be ");
    assert_noticed_beside(of_no_star, right_book, "the forecast's bytes: -11 is told and should be ");
    let nothing_wrong = |asked, job: &[u8]| right_answer(asked, job).max(0);
    assert_noticed_beside(nothing_wrong, right_book, "the forecast's words: 0 is told and should be -3");
    assert_noticed_beside(nothing_wrong, right_book, "the forecast's bytes: 0 is told and should be -17");
}

/// A forecast that counts the columns that touch a box and forgets the rows.
fn without_rows(job: &Job) -> Forecast {
    let rows = |run: &Run| {
        let (low, high) = (run.first.y.min(run.second.y), run.first.y.max(run.second.y));
        Grid::hanan(job).rows.iter().filter(|&&y| low <= y && y <= high).count()
    };
    let Forecast { words, bytes } = Forecast::of(job);
    Forecast { words, bytes: bytes - 9 * job.runs.iter().map(rows).sum::<usize>() }
}

/// One of the jobs shows a fault of this planner in lent words.
fn assert_noticed_in(planner: impl FnMut(&[u8], &mut [u32], &mut [u8]) -> i32, words: &str) {
    assert_one_shows(&mut Lent(planner), words);
}

#[test]
fn a_right_planner_in_lent_words_passes() {
    let report = try_cases(&mut Lent(right_in), 11, 0, JOBS, 1);
    assert_eq!(report.faults, Vec::<String>::new());
    let (own, all) = (self::report(right).calls, loans(None).len() * JOBS as usize);
    assert_eq!(report.calls, all - own, "every loan is of one kind or the other");
}

#[test]
fn wrong_words_are_noticed() {
    let clearing = |cleared: fn(&Forecast) -> usize| {
        move |job: &[u8], work: &mut [u32], out: &mut [u8]| {
            by_verdict(called(forecast(job), work.len(), out.len(), verdict(job)), cleared, work, out)
        }
    };
    let (not_cleared, changed) = ("a word of the forecast is not 0", "a word behind the forecast was changed");
    assert_noticed_in(clearing(|forecast| forecast.words.saturating_sub(1)), not_cleared);
    assert_noticed_in(clearing(|_| 0), not_cleared);
    let all = |job: &[u8], work: &mut [u32], out: &mut [u8]| {
        let answer = right_in(job, work, out);
        if answer > 0 {
            work.fill(0);
        }
        answer
    };
    assert_noticed_in(all, changed);
    let one_more = |job: &[u8], work: &mut [u32], out: &mut [u8]| {
        let answer = right_in(job, work, out);
        let behind = forecast(job).map_or(usize::MAX, |forecast| forecast.words);
        if let Some(word) = work.get_mut(behind).filter(|_| answer > 0) {
            *word = 0;
        }
        answer
    };
    assert_noticed_in(one_more, changed);
    assert_noticed_in(one_more, "special: # blank (48070000005a0000): 1 words and 23 bytes: a word behind");
    let touched = |number: i32| {
        move |job: &[u8], work: &mut [u32], out: &mut [u8]| {
            let answer = right_in(job, work, out);
            if let Some(word) = work.last_mut().filter(|_| answer == -number) {
                *word ^= 1;
            }
            answer
        }
    };
    for number in [1, 2, 3, 7, 11, 17] {
        assert_noticed_in(touched(number), "a refused call changed the work words");
    }
}

#[test]
fn a_wrong_order_with_lent_words_is_noticed() {
    let star_first = |job: &[u8], work: &mut [u32], out: &mut [u8]| match verdict(job) {
        Err(refused) => -refused.number,
        Ok(_) => right_in(job, work, out),
    };
    assert_noticed_in(star_first, "the answer is -11 and should be -1");
    assert_noticed_in(star_first, "the answer is -11 and should be -2");
    let words_first =
        |job: &[u8], work: &mut [u32], out: &mut [u8]| if work.is_empty() { -1 } else { right_in(job, work, out) };
    assert_noticed_in(words_first, "0 words and 0 bytes: the answer is -1 and should be -3");
    assert_noticed_in(words_first, "special: # blank (48070000005a0000): 0 words and 22 bytes: the answer is -1, but");
    let all_words = |job: &[u8], work: &mut [u32], out: &mut [u8]| {
        if work.len() < MOST_WORDS { -1 } else { right_in(job, work, out) }
    };
    assert_noticed_in(all_words, "the answer is -1, but a plan is due");
    let bytes_first = |job: &[u8], work: &mut [u32], out: &mut [u8]| match forecast(job) {
        Ok(forecast) if out.len() < forecast.bytes => -2,
        _ => right_in(job, work, out),
    };
    assert_noticed_in(bytes_first, "the answer is -2 and should be -1");
    let by_forecast = |of: fn(&Job) -> Forecast| {
        move |job: &[u8], work: &mut [u32], out: &mut [u8]| {
            let told = refusal::read(job).map(|job| of(&job));
            let due = called(told, work.len(), out.len(), verdict(job));
            let due = due.and_then(|job| {
                let fits = PlanBook::of(&job, &planner::plan(&job).expect("stars")).bytes().len() <= out.len();
                if fits { Ok(job) } else { Err(Refusal { number: 2, place: 0 }) }
            });
            by_verdict(due, |forecast| forecast.words, work, out)
        }
    };
    assert_eq!(try_cases(&mut Lent(by_forecast(Forecast::of)), 11, 0, JOBS, 1).faults, Vec::<String>::new());
    assert_noticed_in(by_forecast(without_rows), "and should be -2");
    let a_byte_less = |job: &Job| {
        let Forecast { words, bytes } = Forecast::of(job);
        Forecast { words, bytes: bytes - usize::from(job.runs.len() > 1) }
    };
    assert_noticed_in(by_forecast(a_byte_less), "and should be -2");
}

#[test]
fn wrong_books_of_jobs_are_noticed() {
    let changed = |change: fn(&mut Vec<u8>)| {
        move |number: u32, list: &[i32]| {
            let mut book = right_book(number, list);
            change(&mut book);
            book
        }
    };
    assert_noticed_beside(right_answer, changed(|book| book[1] ^= 1), "written again: 4806");
    assert_noticed_beside(right_answer, changed(|book| book[4] ^= 0x80), "is written and should be");
    assert_noticed_beside(
        right_answer,
        changed(|book| book.truncate(5)),
        "written again: the answer is 5 and should be",
    );
    let no_blank = |number: u32, list: &[i32]| if list.is_empty() { vec![] } else { right_book(number, list) };
    assert_noticed_beside(right_answer, no_blank, "written again: the answer is 0 and should be 8");
}

/// The listing by the independent planner.
fn right_listing(job: &[u8]) -> String {
    match verdict(job) {
        Err(refused) => listing::of_refusal(refused),
        Ok(job) => listing::of_plan(&PlanBook::of(&job, &planner::plan(&job).expect("stars"))),
    }
}

fn listing_faults(list: impl Fn(&[u8]) -> String) -> Vec<String> {
    let mut report = Report::of(Subject::Jobs);
    for n in 0..JOBS {
        let case = case(15, n);
        try_listing(&case, &list(&case.bytes), &mut report);
    }
    report.faults
}

#[test]
fn listings_are_held_to_what_is_due() {
    let assert_noticed = |words: &str, list: &dyn Fn(String) -> String| {
        let faults = listing_faults(|job| list(right_listing(job)));
        assert!(faults.iter().any(|fault| fault.contains(words)), "`{words}` is in none of {} faults", faults.len());
    };
    assert_eq!(listing_faults(right_listing), Vec::<String>::new());
    assert_noticed("and should be `refused 3 at", &|text| text.replace("refused 3 at ", "refused 3 at 1"));
    assert_noticed("and should be `refused 11 at 0`", &|text| text.trim_end().to_string());
    assert_noticed("no listing of a plan", &|text| text.replace("trench ", "trench  "));
    assert_noticed("but the routes dig", &|text| text.replace("trench 100 ", "trench 101 "));
    assert_noticed("the head's number of groups is ", &|text| text.replace(" groups 2 ", " groups 1 "));
    assert_noticed("its group's centre is ", &|text| text.replace(" centre 2 ", " centre 1 "));
    assert_noticed("no listing of a plan", &|text| text.replace(" groups ", " centre "));
}

/// The independent planner, with a chooser beside it that gives this answer and this place for all books.
struct WithChooser(i64, i64);

impl Caller for WithChooser {
    fn plan_in(&mut self, job: &[u8], work: &mut [u32], out: &mut [u8]) -> Option<Called> {
        kept(right_in(job, work, out))
    }

    fn chooser(&mut self) -> Option<&mut dyn Chooser> {
        Some(self)
    }
}

impl Chooser for WithChooser {
    fn choose(&mut self, _: &[u8], first: &[u8], second: &[u8]) -> Answered {
        assert_eq!(first, second);
        Answered { answer: self.0, strayed: None }
    }

    fn place(&mut self, _: &[u8], _: &[u8], _: &[u8]) -> Answered {
        Answered { answer: self.1, strayed: None }
    }
}

#[test]
fn a_plan_that_is_not_handed_back_is_noticed() {
    let report = try_cases(&mut WithChooser(1, 0), 7, 0, 42, 1);
    assert_eq!(report.faults, Vec::<String>::new());
    assert_eq!(report.handed_back, report.accepted.values().sum::<usize>());
    for (chooser, told) in [
        (WithChooser(-16, 0), "the plan as both books: the answer is -16 and should be 1"),
        (WithChooser(2, 0), "the plan as both books: the answer is 2 and should be 1"),
        (WithChooser(1, 1), "the plan as both books: the place is 1 and should be 0"),
    ] {
        let mut chooser = chooser;
        let report = try_cases(&mut chooser, 7, 0, 42, 1);
        assert_eq!(report.faults.len(), report.handed_back);
        assert!(report.faults.iter().all(|fault| fault.ends_with(told)), "{:?}", report.faults);
    }
}
