//! Cuts off the survey lines save nothing (02, C-19), whatever runs there are; and whoever digs more, or says less, is noticed.

use std::collections::BTreeMap;

use trench_check::cuts::{Tried, has_room, least};
use trench_check::enumerate;
use trench_check::generate;
use trench_check::graph::Survey;
use trench_check::job::{Job, Point, Run};
use trench_check::line;
use trench_check::planner;
use trench_check::random::Random;

fn job(words: &str) -> Job {
    line::parse(words, 7).expect("a job line").expect("a job")
}

/// Runs, and the least of all cuts, counted by hand.
#[test]
fn cuts_drawn_by_hand() {
    for (words, length) in [
        ("0,0 3,4", 7),
        ("0,0 0,1", 1),
        ("0,0 3,4; 3,4 0,0", 7),
        ("0,0 3,4; 0,0 3,4; 0,0 3,4", 7),
        ("0,0 3,3; 3,3 5,5", 10),
        ("0,0 4,3; 0,3 4,0", 10),
        ("0,0 2,0; 0,1 2,1", 4),
        ("0,0 6,6; 0,2 4,0; 4,6 6,2", 16),
        ("0,0 4,4; 0,2 0,4; 1,0 4,0", 10),
        ("0,2 4,2; 2,0 2,4", 8),
    ] {
        assert_eq!(least(&job(words), 1_000_000), Some(length), "{words}");
    }
    assert_eq!(least(&Job { number: 7, runs: Vec::new() }, 1), Some(0));
}

/// What is too large to be tried is not told.
#[test]
fn jobs_that_are_too_large() {
    assert_eq!(least(&job("0,0 8,8"), 1_000_000), None, "81 points");
    assert_eq!(least(&job("-1000000,0 1000000,0"), 1_000_000), None);
    assert_eq!(least(&job("0,0 7,7"), 3_431), None, "3,432 paths");
    assert_eq!(least(&job("0,0 7,7"), 3_432), Some(14));
}

#[test]
fn room_between_the_lines() {
    for (words, room) in
        [("0,0 3,4", true), ("0,0 1,1", false), ("0,0 2,1", true), ("0,0 9,0", false), ("0,0 2,2; 1,1 1,9", false)]
    {
        assert_eq!(has_room(&job(words)), room, "{words}");
    }
}

/// The runs may meet in any way: what the routes on the survey lines dig at the least is the least of all cuts. Stars, leases, and jobs
/// that the planner refuses are among them.
#[test]
fn the_survey_lines_are_enough_for_any_runs() {
    let mut tried: BTreeMap<(usize, bool), usize> = BTreeMap::new();
    for n in 0..6_000 {
        let job = generate::roomy(&mut Random::nth(20_261_117, n));
        let survey = Survey::of(job.clone());
        let on_lines = enumerate::all(&job, &survey.grid, 1_000_000).expect("few lines").trench;
        if let Some(anywhere) = least(&job, 100_000).filter(|_| has_room(&job)) {
            assert_eq!(on_lines, anywhere, "{}", line::show(&job));
            *tried.entry((job.runs.len(), survey.graph.stars().is_some())).or_default() += 1;
        }
    }
    let few = [
        (1, true, 500),
        (2, true, 500),
        (3, true, 500),
        (3, false, 200),
        (4, true, 250),
        (4, false, 400),
        (5, true, 100),
        (5, false, 500),
    ];
    for (runs, stars, count) in few {
        assert!(
            tried.get(&(runs, stars)).is_some_and(|&n| n >= count),
            "jobs of {runs} runs, stars {stars}: {tried:?}"
        );
    }
}

/// What is found of planners that say this of a job.
fn found(trench: impl Fn(&Job) -> Option<i64>) -> Tried {
    let mut tried = Tried::default();
    for n in 0..1_000 {
        let job = generate::roomy(&mut Random::nth(7, n));
        if let Some(trench) = trench(&job) {
            tried.hold(&job, trench);
        }
    }
    tried
}

#[test]
fn a_right_planner_passes() {
    let tried = found(|job| planner::plan(job).map(|plan| plan.trench));
    assert!(tried.faults.is_empty(), "{:?}", tried.faults);
    assert!(
        tried.jobs > 600 && tried.with_room > 400 && tried.shared > 250,
        "{} {} {}",
        tried.jobs,
        tried.with_room,
        tried.shared
    );
}

/// Nothing shared; one bend for every run, the row first; a decimetre less than the least.
#[test]
fn wrong_planners_are_noticed() {
    let bent = |job: &Job| {
        let survey = Survey::of(job.clone());
        let corners = |run: &Run| [run.first, Point::new(run.second.x, run.first.y), run.second];
        let routes: Vec<_> =
            job.runs.iter().map(|run| survey.grid.path(&corners(run)).expect("corners on the lines")).collect();
        survey.graph.stars().map(|_| planner::dug(&survey.grid, &routes))
    };
    let wrong: [(&str, &dyn Fn(&Job) -> Option<i64>); 3] = [
        ("nothing shared", &|job| planner::plan(job).map(|_| job.distance())),
        ("one bend", &bent),
        ("a decimetre less", &|job| planner::plan(job).map(|plan| plan.trench - 1)),
    ];
    for (name, planner) in wrong {
        let tried = found(planner);
        assert!(tried.faults.len() > 100, "{name}: {} of {}", tried.faults.len(), tried.jobs);
        assert!(tried.faults[0].contains("and cuts anywhere need"), "{}", tried.faults[0]);
    }
}
