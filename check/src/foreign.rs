//! Plans of a job as another planner may have made them, all of them true (02, C-17): least ones and others.

use crate::enumerate::Path;
use crate::graph::Survey;
use crate::grid::{Grid, Vertex, nearer};
use crate::job::Run;
use crate::plan_book::PlanBook;
use crate::planner::{self, dug};
use crate::random::Random;

/// How the routes of a plan were chosen.
#[derive(Clone, Copy, Debug, PartialEq, Eq)]
pub enum Style {
    /// By the independent planner: a least plan.
    Planned,
    /// From such a plan, route by route otherwise where that digs no more: often another least plan.
    Least,
    /// From such a plan, with some routes otherwise.
    Changed,
    /// Each with one bend at most, either way round.
    Bends,
    /// Each a staircase, whose steps are short or long.
    Stairs,
}

/// All of them.
pub const STYLES: [Style; 5] = [Style::Planned, Style::Least, Style::Changed, Style::Bends, Style::Stairs];

/// Routes for a job, one a run, in job order.
pub fn routes(random: &mut Random, survey: &Survey, style: Style) -> Vec<Path> {
    let Survey { job, grid, .. } = survey;
    let each = |random: &mut Random, route: fn(&mut Random, &Grid, &Run) -> Path| -> Vec<Path> {
        job.runs.iter().map(|run| route(random, grid, run)).collect()
    };
    match style {
        Style::Planned => planned(survey),
        Style::Least => least(random, survey),
        Style::Changed => changed(random, survey),
        Style::Bends => each(random, bend),
        Style::Stairs => each(random, stairs),
    }
}

/// The book of a plan with these routes, its figures measured on them.
pub fn book(survey: &Survey, routes: &[Path]) -> PlanBook {
    PlanBook::of(&survey.job, &planner::drawn(survey, routes).expect("every group is a star"))
}

fn planned(survey: &Survey) -> Vec<Path> {
    let plan = planner::plan_surveyed(survey).expect("every group is a star");
    plan.corners.iter().map(|corners| survey.grid.path(corners).expect("corners are vertices")).collect()
}

fn least(random: &mut Random, survey: &Survey) -> Vec<Path> {
    let mut routes = planned(survey);
    for _ in 0..2 * routes.len().min(12) {
        let at = random.below(routes.len());
        let other = otherwise(random, &routes[at]);
        let before = dug(&survey.grid, &routes);
        let old = std::mem::replace(&mut routes[at], other);
        if dug(&survey.grid, &routes) > before {
            routes[at] = old;
        }
    }
    routes
}

fn changed(random: &mut Random, survey: &Survey) -> Vec<Path> {
    let mut routes = planned(survey);
    for route in &mut routes {
        if random.once_in(3) {
            *route = otherwise(random, route);
        }
    }
    routes
}

/// The route with a part of it, or all of it, gone another way.
fn otherwise(random: &mut Random, route: &[Vertex]) -> Path {
    let (a, b) = (random.below(route.len()), random.below(route.len()));
    let (from, to) = if random.once_in(2) { (0, route.len() - 1) } else { (a.min(b), a.max(b)) };
    let part = walk(random, route[from], route[to]);
    [&route[..from], &part, &route[to + 1..]].concat()
}

/// A route with one bend at most.
pub fn bend(random: &mut Random, grid: &Grid, run: &Run) -> Path {
    let (from, to) = ends(grid, run);
    let along_row = random.once_in(2);
    steps(from, to, along_row, |_| false)
}

/// A route that is a staircase.
pub fn stairs(random: &mut Random, grid: &Grid, run: &Run) -> Path {
    let (from, to) = ends(grid, run);
    walk(random, from, to)
}

fn ends(grid: &Grid, run: &Run) -> (Vertex, Vertex) {
    (grid.vertex(run.first).expect("a run's points are vertices"), grid.vertex(run.second).expect("as above"))
}

/// A staircase from one vertex to another; in some it turns at every vertex.
pub(crate) fn walk(random: &mut Random, from: Vertex, to: Vertex) -> Path {
    let seldom = *random.pick(&[1, 2, 2, 5]);
    let along_row = random.once_in(2);
    steps(from, to, along_row, |_| random.once_in(seldom))
}

/// A path that comes nearer with every step, along the row first or along the column, and turns where it may and is told to.
fn steps(from: Vertex, to: Vertex, along_row: bool, mut turns: impl FnMut(Vertex) -> bool) -> Path {
    let (mut here, mut along_row) = (from, along_row);
    let mut path = vec![here];
    while here != to {
        along_row = if here.column == to.column {
            false
        } else if here.row == to.row {
            true
        } else {
            along_row != (here != from && turns(here))
        };
        if along_row {
            here.column = nearer(here.column, to.column);
        } else {
            here.row = nearer(here.row, to.row);
        }
        path.push(here);
    }
    path
}
