//! Groups (02, C-16): found by labels and by walking from run to run, told of jobs drawn by hand, and as the proved program prints
//! them.

use trench_check::generate;
use trench_check::graph::{Graph, Survey};
use trench_check::grouped;
use trench_check::leases::{self, LAYOUTS};
use trench_check::line;
use trench_check::random::Random;

/// What is told of the job of a line.
fn told(words: &str) -> String {
    let job = line::parse(words, 7).expect("a job line").expect("a job");
    grouped::fields(&Survey::of(job).graph)[1..].join(" ")
}

#[test]
fn groups_drawn_by_hand() {
    assert_eq!(told("5,5 5,6"), "groups 1 centres 0", "a run alone is a group");
    assert_eq!(told("0,0 3,4; 0,0 3,4"), "groups 1 centres 0 0", "of two the one of lower number");
    assert_eq!(told("0,0 3,4; 0,0 3,4; 0,0 3,4"), "groups 1 centres none", "row 4 of the examples");
    assert_eq!(told("0,0 3,3; 3,3 5,5"), "groups 2 centres 0 1", "row 5: a common corner joins nobody");
    assert_eq!(told("0,2 4,2; 2,0 2,4"), "groups 2 centres 0 1", "row 11: nor does a crossing");
    assert_eq!(told("6,6 6,7; 0,0 6,6; 6,6 7,6; 0,0 6,6"), "groups 3 centres 0 1 2 1", "straight runs from a corner");
    assert_eq!(told("1,1 2,2; 0,0 9,9; 4,4 5,5; 20,0 21,1"), "groups 2 centres 1 1 1 3", "the centre stands second");
    assert_eq!(told("0,0 2,0; 5,0 7,0; 1,0 6,0"), "groups 1 centres 2 2 2", "the last run joins the first two");
    assert_eq!(told("0,0 2,0; 1,0 3,0; 5,0 7,0; 6,0 9,0"), "groups 2 centres 0 0 2 2", "two pairs");
    assert_eq!(told("0,0 2,0; 1,0 3,0; 5,0 7,0; 6,0 9,0; 2,0 6,0"), "groups 1 centres none", "joined by one more run");
    assert_eq!(told("0,0 2,0; 1,0 4,0; 3,0 6,0; 9,9 9,8"), "groups 2 centres 1 1 1 3", "a chain of three is a star");
    assert_eq!(told("0,0 2,0; 1,0 4,0; 3,0 6,0; 5,0 8,0; 9,9 9,8"), "groups 2 centres none", "a chain of four is none");
}

#[test]
fn a_job_without_runs_has_no_group() {
    let graph = Graph::by(0, |_, _| unreachable!("there are no two runs"));
    assert_eq!((graph.groups(), graph.centres()), (Vec::new(), Some(Vec::new())));
}

/// The runs that can be reached from one by steps from run to run.
fn reached(graph: &Graph, count: usize, from: usize) -> Vec<usize> {
    let (mut seen, mut next) = (vec![from], vec![from]);
    while let Some(i) = next.pop() {
        for j in (0..count).filter(|&j| graph.meet(i, j)) {
            if !seen.contains(&j) {
                seen.push(j);
                next.push(j);
            }
        }
    }
    seen.sort_unstable();
    seen
}

/// A group is what can be reached from each of its runs, and its centre is known by the figures alone: it meets all others, which
/// meet nobody else.
#[test]
fn groups_are_what_chains_of_meetings_join() {
    let mut refused = 0;
    for n in 0..3_000 {
        let mut random = Random::nth(41, n);
        let job = match n % 4 {
            0 => leases::lease(&mut random, LAYOUTS[n as usize / 4 % LAYOUTS.len()]),
            1 => leases::near(&mut random),
            2 => leases::broken_lease(&mut random),
            _ => generate::any(&mut random),
        };
        let (graph, count) = (Survey::of(job.clone()).graph, job.runs.len());
        let groups = graph.groups();
        let mut all: Vec<usize> = groups.concat();
        all.sort_unstable();
        assert_eq!(all, (0..count).collect::<Vec<_>>(), "{}", line::show(&job));
        assert!(groups.is_sorted_by_key(|group| group[0]), "in the order of their first runs");
        for group in &groups {
            group.iter().for_each(|&i| assert_eq!(&reached(&graph, count, i), group, "{}", line::show(&job)));
            let is_centre =
                |c: usize| graph.meets(c) + 1 == group.len() && group.iter().all(|&i| i == c || graph.meets(i) == 1);
            assert_eq!(graph.centre(group), group.iter().copied().find(|&c| is_centre(c)), "{}", line::show(&job));
        }
        refused += usize::from(graph.centres().is_none());
    }
    assert!((750..2_500).contains(&refused), "some have a group that is no star: {refused}");
}

/// The proved program prints lines, meets, groups and centres of many jobs. Where some group is no star it need not say how many
/// groups there are.
#[test]
fn the_stored_groups_are_found_here() {
    let folder = concat!(env!("CARGO_MANIFEST_DIR"), "/../crates/intersection_vectors");
    let read = |name: &str| std::fs::read_to_string(format!("{folder}/{name}")).expect("the stored groups");
    let (jobs, stored) = (read("stdin"), read("stdout"));
    assert_eq!(jobs.lines().count(), stored.lines().count());
    let (mut several, mut none) = (0, 0);
    for (line, stored) in jobs.lines().zip(stored.lines()) {
        let job = grouped::parse(line).unwrap_or_else(|wrong| panic!("{line}: {wrong}"));
        let (told, groups) = (grouped::told(&job), Survey::of(job).graph.groups().len());
        let refused = told.ends_with(" centres none");
        let without = told.replace(&format!(" groups {groups} "), " ");
        assert_eq!(stored, if refused && !stored.contains(" groups ") { &without } else { &told }, "{line}");
        several += usize::from(!refused && groups > 1);
        none += usize::from(refused);
    }
    assert!(several > 50 && none > 50, "jobs of several groups, and such that are refused: {several} {none}");
}

#[test]
fn lines_that_are_no_jobs_are_told() {
    let wrong = |line: &str| grouped::parse(line).expect_err("no job");
    assert_eq!(wrong(""), "a number of runs is wanted");
    assert_eq!(wrong("1 2 3 x 5"), "`x` is no number");
    assert_eq!(wrong("2 1 2 3 4"), "four numbers for each of 2 runs are wanted, and these are 4");
    assert_eq!(wrong("-1"), "four numbers for each of -1 runs are wanted, and these are 0");
    assert_eq!(
        grouped::parse("0").map(|job| grouped::told(&job)).as_deref(),
        Ok("columns 0 rows 0 meets groups 0 centres")
    );
}
