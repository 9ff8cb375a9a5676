//! Cuts off the survey lines (02, C-19): the least union of Manhattan paths of unit steps between whole-decimetre points, one for each
//! run, by trying every sequence of paths. `least` knows nothing of survey lines, grids, groups or stars: a path goes from one
//! whole-decimetre point to the next, and a union is a set of unit edges.

use crate::grid::Grid;
use crate::job::{Area, Job, Point, Run};
use crate::line;

/// The unit edges in a rectangle of at most 64 points, a bit an edge: to the right of each point and upwards from it.
type Edges = u128;

/// The most points of the rectangle around a job that is small enough to be tried.
const MOST_POINTS: i64 = 64;
/// The most paths of one run that are ever listed.
const MOST_PATHS: usize = 5_000;
/// The sequences of paths up to which a plan is held to the least of all cuts.
const SEQUENCES: usize = 1_000_000;

/// The smallest rectangle around the points of all runs; none of a job without runs, or where it has too many points.
fn around(job: &Job) -> Option<Area> {
    let mut points = job.runs.iter().flat_map(|run| [run.first, run.second]);
    let first = points.next()?;
    let area = points.fold(Area::of(first, first), |area, p| Area {
        low: Point::new(area.low.x.min(p.x), area.low.y.min(p.y)),
        high: Point::new(area.high.x.max(p.x), area.high.y.max(p.y)),
    });
    let (wide, high) = (i64::from(area.high.x) - i64::from(area.low.x), i64::from(area.high.y) - i64::from(area.low.y));
    (wide < MOST_POINTS && high < MOST_POINTS && (wide + 1) * (high + 1) <= MOST_POINTS).then_some(area)
}

/// The unit edge between two points that are 1 apart, in whatever order they are given.
fn edge(area: &Area, p: Point, q: Point) -> Edges {
    let from = p.min(q);
    let at = (from.x - area.low.x) * (area.high.y - area.low.y + 1) + (from.y - area.low.y);
    1 << (2 * at + i32::from(p.x == q.x))
}

/// The unit edges of every path of a run: of so many unit steps as its points are apart, from the first to the second. None where
/// there are too many.
fn paths(area: &Area, run: &Run) -> Option<Vec<Edges>> {
    fn extend(area: &Area, here: Point, run: &Run, steps: i64, union: Edges, found: &mut Vec<Edges>) {
        if steps == 0 {
            found.push(union);
        }
        for (x, y) in [(-1, 0), (1, 0), (0, -1), (0, 1)] {
            let next = Point::new(here.x + x, here.y + y);
            if next.distance(run.second) < steps && found.len() <= MOST_PATHS {
                extend(area, next, run, steps - 1, union | edge(area, here, next), found);
            }
        }
    }
    let mut found = Vec::new();
    extend(area, run.first, run, run.distance(), 0, &mut found);
    (found.len() <= MOST_PATHS).then_some(found)
}

/// The least length of a union of such paths, one for each run, by trying every sequence of them. None where the job's points are
/// too far apart, or there are more than `limit` sequences. The runs may meet in any way.
pub fn least(job: &Job, limit: usize) -> Option<i64> {
    if job.runs.is_empty() {
        return Some(0);
    }
    let area = around(job)?;
    let choices: Vec<Vec<Edges>> = job.runs.iter().map(|run| paths(&area, run)).collect::<Option<_>>()?;
    choices.iter().try_fold(1_usize, |n, paths| n.checked_mul(paths.len()).filter(|&n| n <= limit))?;
    let mut best = u32::MAX;
    deepen(&choices, 0, &mut best);
    Some(best.into())
}

/// Tries every path of each run that is left, beside this union; one that is no shorter than the best already is not gone on with,
/// since a union does not get shorter by more paths.
fn deepen(choices: &[Vec<Edges>], union: Edges, best: &mut u32) {
    if union.count_ones() >= *best {
        return;
    }
    let Some((paths, rest)) = choices.split_first() else {
        *best = union.count_ones();
        return;
    };
    paths.iter().for_each(|path| deepen(rest, union | path, best));
}

/// Whether some path of some run leaves the survey lines: its box has a width, a height, and a column or row that is none of them.
pub fn has_room(job: &Job) -> bool {
    let grid = Grid::hanan(job);
    let beside = |lines: &[i32], low: i32, high: i32| (low..=high).any(|line| !lines.contains(&line));
    job.runs.iter().any(|run| {
        let Area { low, high } = run.area();
        low.x < high.x && low.y < high.y && (beside(&grid.columns, low.x, high.x) || beside(&grid.rows, low.y, high.y))
    })
}

/// What a trial of plans against all cuts found.
#[derive(Default)]
pub struct Tried {
    /// The jobs that were planned and are small enough for all paths to be tried.
    pub jobs: usize,
    /// Those of them in which some path leaves the survey lines.
    pub with_room: usize,
    /// Those with room in which the least plan shares.
    pub shared: usize,
    /// What was wrong, in words.
    pub faults: Vec<String>,
}

impl Tried {
    /// Holds the trench of a plan of the job to the least of all cuts, where the job is small enough.
    pub fn hold(&mut self, job: &Job, trench: i64) {
        let Some(least) = least(job, SEQUENCES) else { return };
        let room = has_room(job);
        self.jobs += 1;
        self.with_room += usize::from(room);
        self.shared += usize::from(room && least < job.distance());
        if trench != least {
            self.faults.push(format!("{}: the trench is {trench}, and cuts anywhere need {least}", line::show(job)));
        }
    }
}
