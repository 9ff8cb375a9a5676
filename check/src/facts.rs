//! What is special about a job, most of all about one of several groups: what a comparison must have tried often enough.

use crate::graph::Survey;
use crate::job::{Area, Point, Run};

/// Every fact that `of` can tell.
pub const ALL: [&str; 9] = [
    "several groups",
    "groups of two runs",
    "groups that touch",
    "groups that cross",
    "a group inside another's bounds",
    "a group on another's lines",
    "no star beside stars",
    "a run along a row",
    "a run along a column",
];

/// What is told besides of a job that is refused with 17.
pub const NOWHERE: &str = "a run that goes nowhere";

/// The facts that hold of a well-formed job.
pub fn of(survey: &Survey) -> Vec<&'static str> {
    let Survey { job, graph, .. } = survey;
    let groups = graph.groups();
    let runs = |group: &[usize]| -> Vec<Run> { group.iter().map(|&i| job.runs[i]).collect() };
    let groups_of_runs: Vec<Vec<Run>> = groups.iter().map(|group| runs(group)).collect();
    let pairs = || {
        let others = |i: usize| (0..groups.len()).filter(move |&j| j != i).map(move |j| (i, j));
        (0..groups.len()).flat_map(others).map(|(i, j)| (&groups_of_runs[i], &groups_of_runs[j]))
    };
    let of_two = |holds: fn(&Run, &Run) -> bool| pairs().any(|(a, b)| a.iter().any(|p| b.iter().any(|q| holds(p, q))));
    let star = |group: &Vec<usize>| graph.centre(group).is_some();
    let stars = groups.iter().all(star);
    let holds = [
        stars && groups.len() > 1,
        stars && groups.len() > 1 && groups.iter().any(|group| group.len() == 2),
        stars && of_two(touch),
        stars && of_two(cross),
        stars && pairs().any(|(a, b)| inside(a, b)),
        stars && of_two(has_line_of),
        !stars && groups.iter().any(|group| group.len() > 1 && star(group)),
        stars && job.runs.iter().any(|run| run.first.y == run.second.y),
        stars && job.runs.iter().any(|run| run.first.x == run.second.x),
    ];
    ALL.into_iter().zip(holds).filter(|(_, holds)| *holds).map(|(fact, _)| fact).collect()
}

/// Whether two runs have a corner of their boxes in common.
fn touch(p: &Run, q: &Run) -> bool {
    let corners = |area: Area| {
        let Area { low, high } = area;
        [low, high, Point::new(low.x, high.y), Point::new(high.x, low.y)]
    };
    corners(p.area()).iter().any(|corner| corners(q.area()).contains(corner))
}

/// Whether a run along a row and one along a column cross where neither ends.
fn cross(p: &Run, q: &Run) -> bool {
    let between = |a: i32, b: i32, at: i32| a.min(b) < at && at < a.max(b);
    p.first.y == p.second.y
        && q.first.x == q.second.x
        && between(p.first.x, p.second.x, q.first.x)
        && between(q.first.y, q.second.y, p.first.y)
}

/// Whether a line through the other run's points passes between the sides of the run's box.
fn has_line_of(p: &Run, q: &Run) -> bool {
    let Area { low, high } = p.area();
    [q.first, q.second].iter().any(|at| low.x < at.x && at.x < high.x || low.y < at.y && at.y < high.y)
}

/// The smallest rectangle that holds some runs.
fn bounds(runs: &[Run]) -> Area {
    let points = || runs.iter().flat_map(|run| [run.first, run.second]);
    let least = |value: fn(Point) -> i32| points().map(value).min().expect("a group has a run");
    let most = |value: fn(Point) -> i32| points().map(value).max().expect("a group has a run");
    Area { low: Point::new(least(|p| p.x), least(|p| p.y)), high: Point::new(most(|p| p.x), most(|p| p.y)) }
}

/// Whether a group lies inside the bounds of another.
fn inside(group: &[Run], other: &[Run]) -> bool {
    let (mine, others) = (bounds(group), bounds(other));
    let above_low = others.low.x < mine.low.x && others.low.y < mine.low.y;
    above_low && mine.high.x < others.high.x && mine.high.y < others.high.y
}
