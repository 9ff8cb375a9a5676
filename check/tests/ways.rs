//! The three ways to a least plan agree, on stars and on leases, and give the surveyed examples of document 01 as requests C-16
//! and C-18 leave them.

use trench_check::book::job_bytes;
use trench_check::enumerate;
use trench_check::generate::{self, CROSSINGS, KINDS};
use trench_check::graph::Survey;
use trench_check::in_out;
use trench_check::job::Job;
use trench_check::leases::{self, LAYOUTS};
use trench_check::line;
use trench_check::planner::{self, group_by_group};
use trench_check::random::Random;
use trench_check::refusal::verdict;

/// Runs; trench and saved, or the number and the place of the refusal.
const SURVEYED: [(&str, Result<(i64, i64), (i32, usize)>); 13] = [
    ("5,5 5,5", Err((17, 5))),
    ("0,0 3,4", Ok((7, 0))),
    ("0,0 3,4; 0,0 3,4", Ok((7, 7))),
    ("0,0 3,4; 0,0 3,4; 0,0 3,4", Err((11, 0))),
    ("0,0 3,3; 3,3 5,5", Ok((10, 0))),
    ("0,0 3,3; 3,0 6,3", Ok((9, 3))),
    ("0,0 4,3; 0,3 4,0", Ok((10, 4))),
    ("0,0 4,3; 1,1 2,2", Ok((7, 2))),
    ("0,0 6,6; 0,2 4,0; 4,6 6,2", Ok((16, 8))),
    ("0,0 4,4; 0,2 0,4; 1,0 4,0", Ok((10, 3))),
    ("0,2 4,2; 2,0 2,4", Ok((8, 0))),
    ("0,0 3,0; 2,0 5,0", Ok((5, 1))),
    ("0,0 40,30; 0,10 40,10; 20,20 20,50", Ok((100, 40))),
];

#[test]
fn the_surveyed_examples() {
    for (words, outcome) in SURVEYED {
        let job = line::parse(words, 7).expect("a job line").expect("a job");
        let plan = verdict(&job_bytes(&job)).map(|job| planner::plan(&job).expect("stars"));
        let figures = plan.map(|plan| (plan.trench, plan.saved));
        assert_eq!(figures.map_err(|refused| (refused.number, refused.place)), outcome, "{words}");
    }
}

#[test]
fn pits_of_the_listing_example() {
    let pits = |words| planner::plan(&line::parse(words, 7).unwrap().unwrap()).unwrap().pits;
    assert_eq!(pits("0,0 40,30; 0,10 40,10; 20,20 20,50"), 6);
}

/// Which of the two ways by enumeration could be gone for a job: they agree with the in-out graph.
fn agreed(job: &Job) -> [usize; 2] {
    let survey = Survey::of(job.clone());
    let graph = group_by_group(&survey, |runs, grid, centre| Some(in_out::least(runs, grid, centre))).expect("stars");
    let all = enumerate::all(job, &survey.grid, 50_000);
    let each = group_by_group(&survey, |runs, grid, centre| enumerate::each(runs, grid, centre, 50_000));
    [("all", all), ("each", each)].map(|(name, least)| match least {
        Some(least) => {
            assert_eq!(least.trench, graph.trench, "{name}: {}", line::show(job));
            1
        }
        None => 0,
    })
}

#[test]
fn enumeration_and_graph_agree_on_small_stars() {
    let (mut by_all, mut by_each) = (0, 0);
    for n in 0..6_000 {
        let kind = KINDS[n % KINDS.len()];
        let [all, each] = agreed(&generate::small_star(&mut Random::nth(20_260_801, n as u64), kind));
        by_all += all;
        by_each += each;
    }
    assert!(by_all > 5_000 && by_each > 5_000, "most jobs are small enough: {by_all} {by_each}");
}

/// The least over all runs together, with no thought of groups, is the sum of the groups' least.
#[test]
fn enumeration_and_graph_agree_on_small_leases() {
    let (mut by_all, mut by_each, mut several, mut shared) = (0, 0, 0, 0);
    for n in 0..6_000 {
        let layout = LAYOUTS[n % LAYOUTS.len()];
        let job = leases::small_lease(&mut Random::nth(20_260_802, n as u64), layout);
        let [all, each] = agreed(&job);
        by_all += all;
        by_each += each;
        let plan = planner::plan(&job).expect("stars");
        several += usize::from(all == 1 && plan.groups > 1);
        shared += usize::from(all == 1 && plan.groups > 1 && plan.saved > 0);
    }
    assert!(by_all > 4_000 && by_each > 5_000, "most jobs are small enough: {by_all} {by_each}");
    assert!(several > 3_000 && shared > 1_000, "most have several groups, and many save: {several} {shared}");
}

#[test]
fn the_makers_of_stars_make_stars() {
    let groups = |job: &Job| Survey::of(job.clone()).graph.stars().map(|stars| stars.len());
    for n in 0..2_000 {
        let kind = KINDS[n % KINDS.len()];
        let mut random = Random::nth(5, n as u64);
        let job = if n % 10 == 0 { generate::full_star(&mut random) } else { generate::star(&mut random, kind) };
        assert_eq!(groups(&job), Some(1), "{kind:?}: {}", line::show(&job));
        let crossing = CROSSINGS[n % CROSSINGS.len()];
        let job = generate::crossed_star(&mut random, crossing);
        assert_eq!(groups(&job), Some(1), "{crossing:?}: {}", line::show(&job));
    }
}

#[test]
fn the_makers_of_leases_make_stars() {
    let groups = |job: &Job| Survey::of(job.clone()).graph.stars().map(|stars| stars.len());
    let mut counts = [0; 33];
    for n in 0..3_000 {
        let layout = LAYOUTS[n % LAYOUTS.len()];
        let mut random = Random::nth(6, n as u64);
        let job = leases::lease(&mut random, layout);
        counts[groups(&job).unwrap_or_else(|| panic!("{layout:?}: {}", line::show(&job)))] += 1;
        let full = leases::full_lease(&mut random);
        let survey = Survey::of(full.clone());
        assert!(groups(&full) > Some(1), "{}", line::show(&full));
        assert_eq!((full.runs.len(), survey.grid.columns.len(), survey.grid.rows.len()), (32, 64, 64));
        assert_eq!(groups(&leases::spread_lease(&mut random, 4, 8)), Some(4));
        assert_eq!(groups(&leases::broken_lease(&mut random)), None, "some group is no star");
    }
    assert!(counts[1..].iter().all(|&count| count > 0), "leases of 1 to 32 groups: {counts:?}");
}
