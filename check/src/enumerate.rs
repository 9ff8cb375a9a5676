//! The least plan of a small job by trying every choice of routes. Nothing is used here but the definitions of route and
//! union (01, "Routes and sharing"), and in `each` that the leaves of a star dig no edge together. `all` takes the runs as they
//! come and knows nothing of groups.

use crate::edges::{EdgeSet, bits};
use crate::grid::{Grid, Vertex};
use crate::job::{Job, Run};

/// A path of grid edges, given by its vertices from the run's first point to its second.
pub type Path = Vec<Vertex>;

/// Routes of least union, one for each run in job order, and the length of that union.
#[derive(Clone, Debug)]
pub struct Least {
    /// The union's length.
    pub trench: i64,
    /// The routes.
    pub routes: Vec<Path>,
}

/// The most routes of one run that are ever listed.
const MOST_ROUTES: usize = 20_000;

/// Every route of a run: every path of grid edges between its points whose length is their Manhattan distance. None where
/// there are more than `limit`, or more than 20,000.
pub fn routes(grid: &Grid, run: &Run, limit: usize) -> Option<Vec<Path>> {
    let start = grid.vertex(run.first).expect("a run's points are vertices");
    let mut found = Vec::new();
    extend(grid, run, &mut vec![start], run.distance(), limit.min(MOST_ROUTES), &mut found).then_some(found)
}

/// Adds to `found` every way to complete `path` with `budget` decimetres; false where there are too many.
fn extend(grid: &Grid, run: &Run, path: &mut Path, budget: i64, limit: usize, found: &mut Vec<Path>) -> bool {
    let here = *path.last().expect("a path has a first vertex");
    if budget == 0 {
        found.push(path.clone());
        return found.len() <= limit;
    }
    for next in grid.around(here).into_iter().flatten() {
        let rest = budget - grid.point(here).distance(grid.point(next));
        if grid.point(next).distance(run.second) <= rest {
            path.push(next);
            let few = extend(grid, run, path, rest, limit, found);
            path.pop();
            if !few {
                return false;
            }
        }
    }
    true
}

/// The least plan by trying every sequence of routes, one for each run. None where there are more than `limit` sequences.
/// The runs may meet in any way.
pub fn all(job: &Job, grid: &Grid, limit: usize) -> Option<Least> {
    let mut choices = Vec::new();
    let mut sequences = 1_usize;
    for run in &job.runs {
        let found = routes(grid, run, limit)?;
        sequences = sequences.checked_mul(found.len()).filter(|&n| n <= limit)?;
        choices.push(found);
    }
    let dug: Vec<Vec<EdgeSet>> =
        choices.iter().map(|paths| paths.iter().map(|path| EdgeSet::along(grid, path)).collect()).collect();
    let lengths: Vec<i64> = (0..grid.edge_count()).map(|index| grid.edge_length(index)).collect();
    let mut search = Search { dug: &dug, lengths: &lengths, chosen: Vec::new(), best: None };
    search.deepen(&EdgeSet::none(grid), 0);
    let (trench, chosen) = search.best.expect("every run has a route");
    Some(Least { trench, routes: chosen.iter().zip(&choices).map(|(&at, paths)| paths[at].clone()).collect() })
}

/// The search of `all`: the edges of every route, the routes chosen so far, the least union so far with its choice.
struct Search<'a> {
    dug: &'a [Vec<EdgeSet>],
    lengths: &'a [i64],
    chosen: Vec<usize>,
    best: Option<(i64, Vec<usize>)>,
}

impl Search<'_> {
    fn deepen(&mut self, union: &EdgeSet, length: i64) {
        let dug = self.dug;
        let Some(routes) = dug.get(self.chosen.len()) else {
            if self.best.as_ref().is_none_or(|(least, _)| length < *least) {
                self.best = Some((length, self.chosen.clone()));
            }
            return;
        };
        for (at, route) in routes.iter().enumerate() {
            let more: i64 = new_edges(route, union).map(|index| self.lengths[index]).sum();
            self.chosen.push(at);
            self.deepen(&union.union(route), length + more);
            self.chosen.pop();
        }
    }
}

/// The edges of `route` that are not yet in `union`.
fn new_edges(route: &EdgeSet, union: &EdgeSet) -> impl Iterator<Item = usize> {
    let words = route.words().iter().zip(union.words()).enumerate();
    words.flat_map(|(i, (a, b))| bits(a & !b).map(move |bit| i * 64 + bit))
}

/// The least plan of a star of these runs by trying every route of the centre and, for each, every route of each leaf by itself:
/// two leaves have no grid edge in both boxes, so no edge is on the routes of both, and each adds to the centre's route what it
/// does not share with it. None where there are more than `limit` pairs of routes to compare.
pub fn each(runs: &[Run], grid: &Grid, centre: usize, limit: usize) -> Option<Least> {
    let mut choices = Vec::new();
    for run in runs {
        choices.push(routes(grid, run, limit)?);
    }
    let of_leaves: usize = choices.iter().map(Vec::len).sum::<usize>() - choices[centre].len();
    choices[centre].len().checked_mul(of_leaves.max(1)).filter(|&n| n <= limit)?;
    let dug: Vec<Vec<EdgeSet>> =
        choices.iter().map(|paths| paths.iter().map(|path| EdgeSet::along(grid, path)).collect()).collect();
    let lengths: Vec<i64> = (0..grid.edge_count()).map(|index| grid.edge_length(index)).collect();
    let mut best: Option<(i64, Vec<usize>)> = None;
    for (at, route) in dug[centre].iter().enumerate() {
        let mut trench: i64 = route.indexes().map(|index| lengths[index]).sum();
        let mut chosen = vec![at; runs.len()];
        for leaf in (0..runs.len()).filter(|&i| i != centre) {
            let added = dug[leaf].iter().map(|path| new_edges(path, route).map(|index| lengths[index]).sum::<i64>());
            let (least, which) = added.zip(0..).min().expect("every run has a route");
            trench += least;
            chosen[leaf] = which;
        }
        if best.as_ref().is_none_or(|(least, _)| trench < *least) {
            best = Some((trench, chosen));
        }
    }
    let (trench, chosen) = best.expect("the centre has a route");
    Some(Least { trench, routes: chosen.iter().zip(&choices).map(|(&at, paths)| paths[at].clone()).collect() })
}
