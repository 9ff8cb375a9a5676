//! The independent planner: the least plan of a lease, by enumeration where the job is small and by the in-out graph of each group
//! where it is not, and all figures of a plan measured on its routes.

use crate::edges::EdgeSet;
use crate::enumerate::{self, Least, Path};
use crate::graph::Survey;
use crate::grid::Grid;
use crate::in_out;
use crate::job::{Job, Point, Run};
use crate::pits;

/// A plan: one route a run, in job order, each given by its corners.
#[derive(Clone, Debug, PartialEq, Eq)]
pub struct Plan {
    /// The number of groups.
    pub groups: usize,
    /// For each run the index of its group's centre in the job.
    pub centres: Vec<usize>,
    /// Each run's meets figure.
    pub meets: Vec<usize>,
    /// Each route's corners: the first point, each vertex at which it turns, the second point.
    pub corners: Vec<Vec<Point>>,
    /// The length of the routes' union.
    pub trench: i64,
    /// The sum of the runs' distances less trench.
    pub saved: i64,
    /// The number of pits: of points at which a route ends or turns, or two routes cross.
    pub pits: usize,
}

/// The number of grid edges up to which `plan` looks whether a job is small enough to enumerate.
const FEW_EDGES: usize = 60;
/// The number of sequences of routes up to which it then tries them all.
const FEW_SEQUENCES: usize = 2_000;

/// A least plan of the job, or none where some group is no star.
pub fn plan(job: &Job) -> Option<Plan> {
    plan_surveyed(&Survey::of(job.clone()))
}

/// The same for a job that is surveyed already.
pub fn plan_surveyed(survey: &Survey) -> Option<Plan> {
    let Survey { job, grid, .. } = survey;
    let by_graph = group_by_group(survey, |runs, grid, centre| Some(in_out::least(runs, grid, centre)))?;
    let small = grid.edge_count() <= FEW_EDGES;
    let by_enumeration = small.then(|| enumerate::all(job, grid, FEW_SEQUENCES)).flatten();
    if let Some(all) = &by_enumeration {
        assert_eq!(all.trench, by_graph.trench, "enumeration and in-out graph agree on {job:?}");
    }
    let least = by_enumeration.unwrap_or(by_graph);
    let plan = drawn(survey, &least.routes).expect("every group is a star");
    assert_eq!(plan.trench, least.trench, "the figure is the length of the union");
    Some(plan)
}

/// A least plan of each group, found in some way on the grid of the whole job from the group's runs and the centre's index among
/// them: the routes put together in job order, the lengths summed up, since no edge lies in the boxes of two groups. None where
/// some group is no star, or the way cannot be gone for it.
pub fn group_by_group(survey: &Survey, way: impl Fn(&[Run], &Grid, usize) -> Option<Least>) -> Option<Least> {
    let Survey { job, grid, graph } = survey;
    let mut all = Least { trench: 0, routes: vec![Path::new(); job.runs.len()] };
    for (group, centre) in graph.stars()? {
        let runs: Vec<Run> = group.iter().map(|&i| job.runs[i]).collect();
        let centre = group.iter().position(|&i| i == centre).expect("a centre is in its group");
        let least = way(&runs, grid, centre)?;
        all.trench += least.trench;
        group.iter().zip(least.routes).for_each(|(&i, path)| all.routes[i] = path);
    }
    Some(all)
}

/// The length of the union of these routes.
pub fn dug(grid: &Grid, routes: &[Path]) -> i64 {
    let union = routes.iter().fold(EdgeSet::none(grid), |union, path| union.union(&EdgeSet::along(grid, path)));
    union.length(grid)
}

/// The plan of these routes, its figures measured on them; none where some group is no star.
pub fn drawn(survey: &Survey, routes: &[Path]) -> Option<Plan> {
    let Survey { job, grid, graph } = survey;
    let trench = dug(grid, routes);
    let corners = routes.iter().map(|path| pits::corners(path).map(|v| grid.point(v)).collect()).collect();
    let pits = pits::of_paths(grid, routes).count();
    let (groups, centres, meets) = (graph.groups().len(), graph.centres()?, graph.figures());
    Some(Plan { groups, centres, meets, corners, trench, saved: job.distance() - trench, pits })
}
