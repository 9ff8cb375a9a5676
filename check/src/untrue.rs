//! Plan books that are read but not handed back for a job (02, C-17): each is wrong in one respect, and its other figures are those of
//! its routes and of the job. The refusal follows from what was done, and not from judging the book.

use crate::book_cases::{count, route};
use crate::choice::{OTHER_JOB, UNTRUE};
use crate::enumerate::Path;
use crate::foreign::{self, walk};
use crate::graph::Survey;
use crate::grid::{Grid, Vertex};
use crate::job::{Area, FAR, MOST_RUNS, Point, Run};
use crate::pits;
use crate::plan_book::{MOST_CORNERS, PlanBook};
use crate::planner::{self, Plan};
use crate::random::Random;

/// What is wrong with a book.
#[derive(Clone, Copy, Debug, PartialEq, Eq)]
pub enum Way {
    /// The head's trench.
    Trench,
    /// The head's saved.
    Saved,
    /// Trench and saved, of which the sum is right.
    Sum,
    /// Trench and saved, as if no two routes shared anything.
    Unshared,
    /// Trench, saved and pits are those of a least plan, and its routes dig more.
    Better,
    /// The head's pits.
    Pits,
    /// The head's pits count no crossings.
    Crossings,
    /// The meets of one route.
    Meets,
    /// The head's groups.
    Groups,
    /// The centre of one route.
    Centre,
    /// The centre of two runs that meet is the one of higher number.
    HigherCentre,
    /// Every centre is its index in the job, from 0.
    CentreByIndex,
    /// A route with a corner off the survey lines, as long as it should be.
    OffLines,
    /// A route that goes around an edge and is longer.
    Detour,
    /// A route that goes around a cell of the grid, back to where it was, and is longer.
    Loop,
    /// A route that starts elsewhere.
    FirstMoved,
    /// A route that ends elsewhere.
    SecondMoved,
    /// A route that starts elsewhere and is as long as it should be.
    FirstElsewhere,
    /// A route that ends elsewhere and is as long as it should be.
    SecondElsewhere,
    /// A route from the run's second point to its first.
    Reversed,
    /// The routes of two runs between other points, each with the other's corners.
    Exchanged,
    /// The older kinds.
    Older,
    /// The job number.
    JobNumber,
    /// One route too many.
    RunMore,
    /// One route too few.
    RunLess,
    /// The run number of one route.
    RunNumber,
    /// The run numbers of two routes, each with the other's.
    NumbersSwapped,
    /// Two routes, each in the other's place.
    RoutesSwapped,
}

/// All of them.
pub const WAYS: [Way; 28] = [
    Way::Trench,
    Way::Saved,
    Way::Sum,
    Way::Unshared,
    Way::Better,
    Way::Pits,
    Way::Crossings,
    Way::Meets,
    Way::Groups,
    Way::Centre,
    Way::HigherCentre,
    Way::CentreByIndex,
    Way::OffLines,
    Way::Detour,
    Way::Loop,
    Way::FirstMoved,
    Way::SecondMoved,
    Way::FirstElsewhere,
    Way::SecondElsewhere,
    Way::Reversed,
    Way::Exchanged,
    Way::Older,
    Way::JobNumber,
    Way::RunMore,
    Way::RunLess,
    Way::RunNumber,
    Way::NumbersSwapped,
    Way::RoutesSwapped,
];

impl Way {
    /// The number of the refusal.
    pub fn number(self) -> i32 {
        match self {
            Way::JobNumber | Way::RunMore | Way::RunLess | Way::RunNumber => OTHER_JOB,
            Way::NumbersSwapped | Way::RoutesSwapped => OTHER_JOB,
            _ => UNTRUE,
        }
    }
}

/// A book of these routes, one a run of the job, that is wrong in this way and in no other; none where it cannot be.
pub fn spoilt(random: &mut Random, survey: &Survey, routes: &[Path], way: Way) -> Option<PlanBook> {
    let book = foreign::book(survey, routes);
    match way {
        Way::Trench | Way::Saved | Way::Sum | Way::Unshared | Way::Pits | Way::Groups | Way::JobNumber => {
            figure(random, survey, book, way)
        }
        Way::Better => better(survey, book),
        Way::Crossings => crossings(survey, routes, book),
        Way::Meets | Way::Centre | Way::RunNumber => field(random, survey, book, way),
        Way::HigherCentre | Way::CentreByIndex => centres(survey, book, way),
        Way::OffLines => off_lines(random, survey, routes),
        Way::Exchanged => exchanged(random, survey, routes),
        Way::Older => Some(book.as_older()),
        Way::RunMore | Way::RunLess => one_more_or_less(random, book, way == Way::RunMore),
        Way::NumbersSwapped | Way::RoutesSwapped => swapped(random, book, way == Way::RoutesSwapped),
        _ => {
            let at = random.below(routes.len().max(1));
            let path = misled(random, survey, at, routes.get(at)?, way)?;
            let mut changed = routes.to_vec();
            changed[at] = path;
            measured(survey, survey.grid.clone(), &changed)
        }
    }
}

/// The book of these paths on a grid that holds them, with its figures measured on them. They need not be routes of the runs: where
/// they dig more than the runs' distances, saved is that number below 0 as 32 bits hold it. None where a path has too many corners.
fn measured(survey: &Survey, grid: Grid, paths: &[Path]) -> Option<PlanBook> {
    let on_grid = Survey { grid, ..survey.clone() };
    let plan = planner::drawn(&on_grid, paths).expect("every group is a star");
    let saved = plan.saved as u32;
    let readable = plan.corners.iter().all(|corners| corners.len() <= MOST_CORNERS);
    readable.then(|| PlanBook { saved, ..PlanBook::of(&survey.job, &Plan { saved: 0, ..plan }) })
}

/// Another value for a field of so many bits: a near one, 0, one bit changed, or any.
fn other(random: &mut Random, value: u32, bits: usize) -> u32 {
    let mask = u32::MAX >> (32 - bits);
    loop {
        let (flip, any) = (1 << random.below(bits), random.word() as u32);
        let near = [value.wrapping_add(1), value.wrapping_sub(1), value.wrapping_add(2)];
        let other =
            *random.pick(&[near[0], near[0], near[1], near[1], near[2], 0, value ^ flip, value ^ flip, any]) & mask;
        if other != value {
            return other;
        }
    }
}

fn other_half(random: &mut Random, value: u16) -> u16 {
    other(random, value.into(), 16) as u16
}

/// One of the items, if there are any.
fn one_of<T: Copy>(random: &mut Random, items: &[T]) -> Option<T> {
    (!items.is_empty()).then(|| *random.pick(items))
}

/// A figure of the head.
fn figure(random: &mut Random, survey: &Survey, mut book: PlanBook, way: Way) -> Option<PlanBook> {
    match way {
        Way::Trench => book.trench = other(random, book.trench, 32),
        Way::Saved => book.saved = other(random, book.saved, 32),
        Way::Sum => {
            let by = if random.once_in(2) { 1 } else { other(random, 0, 32) };
            (book.trench, book.saved) = (book.trench.wrapping_sub(by), book.saved.wrapping_add(by));
        }
        Way::Unshared if book.saved == 0 => return None,
        Way::Unshared => (book.trench, book.saved) = (book.trench + book.saved, 0),
        Way::Pits => book.pits = other_half(random, book.pits),
        Way::Groups => {
            let (any, runs) = (other_half(random, book.last), book.runs);
            book.last = if random.once_in(4) && runs != book.last { runs } else { any };
        }
        _ => book.job = other(random, survey.job.number, 32),
    }
    Some(book)
}

fn better(survey: &Survey, book: PlanBook) -> Option<PlanBook> {
    let least = PlanBook::of(&survey.job, &planner::plan_surveyed(survey)?);
    let PlanBook { trench, saved, pits, .. } = least;
    (trench < book.trench).then_some(PlanBook { trench, saved, pits, ..book })
}

fn crossings(survey: &Survey, routes: &[Path], book: PlanBook) -> Option<PlanBook> {
    let pits = pits::of_paths(&survey.grid, routes);
    (!pits.crossings.is_empty()).then_some(PlanBook { pits: pits.corners.len() as u16, ..book })
}

/// A field of one route's record.
fn field(random: &mut Random, survey: &Survey, mut book: PlanBook, way: Way) -> Option<PlanBook> {
    let at = random.below(book.routes.len().max(1));
    let number = one_of(random, &survey.job.runs)?.number;
    let route = book.routes.get_mut(at)?;
    match way {
        Way::Meets => route.meets = other_half(random, route.meets),
        Way::Centre if number != route.centre && !random.once_in(3) => route.centre = number,
        Way::Centre => route.centre = other_half(random, route.centre),
        _ if number != route.run && random.once_in(3) => route.run = number,
        _ => route.run = other_half(random, route.run),
    }
    Some(book)
}

/// All centres named by another rule than the job's.
fn centres(survey: &Survey, book: PlanBook, way: Way) -> Option<PlanBook> {
    let mut other = book.clone();
    for (group, centre) in survey.graph.stars()? {
        let number = match way {
            Way::CentreByIndex => centre as u16,
            _ if group.len() == 2 => survey.job.runs[group[1]].number,
            _ => continue,
        };
        group.iter().for_each(|&i| other.routes[i].centre = number);
    }
    (other != book).then_some(other)
}

/// A number between two neighbours of these that are more than 1 apart, from low to high; none where there are no such two.
fn between(random: &mut Random, lines: &[i32], low: i32, high: i32) -> Option<i32> {
    let wide = |pair: &&[i32]| low <= pair[0] && pair[1] <= high && pair[1] - pair[0] > 1;
    let gaps: Vec<&[i32]> = lines.windows(2).filter(wide).collect();
    let gap = one_of(random, &gaps)?;
    Some(random.from(gap[0] + 1, gap[1] - 1))
}

/// One route goes over a line that is none of the survey's: a column, a row, or both.
fn off_lines(random: &mut Random, survey: &Survey, routes: &[Path]) -> Option<PlanBook> {
    let Survey { job, grid, .. } = survey;
    let at = random.below(routes.len().max(1));
    let run = job.runs.get(at)?;
    let (p, q, Area { low, high }) = (run.first, run.second, run.area());
    if low.x == high.x || low.y == high.y {
        return None;
    }
    let (x, y) = (between(random, &grid.columns, low.x, high.x), between(random, &grid.rows, low.y, high.y));
    let detached = match (x, y) {
        (Some(x), Some(y)) if random.once_in(3) => {
            vec![p, Point::new(x, p.y), Point::new(x, y), Point::new(q.x, y), q]
        }
        (Some(x), y) if y.is_none() || random.once_in(2) => vec![p, Point::new(x, p.y), Point::new(x, q.y), q],
        (_, y) => vec![p, Point::new(p.x, y?), Point::new(q.x, y?), q],
    };
    let corners = |i: usize| match i == at {
        true => detached.clone(),
        false => pits::corners(&routes[i]).map(|v| grid.point(v)).collect(),
    };
    let corners: Vec<Vec<Point>> = (0..routes.len()).map(corners).collect();
    let points = job.runs.iter().flat_map(|run| [run.first, run.second]).chain(detached.iter().copied());
    let finer = Grid::through(points);
    let paths: Vec<Path> = corners.iter().map(|corners| finer.path(corners).expect("all lines are there")).collect();
    measured(survey, finer, &paths)
}

/// A vertex that is as far from this run's first point as its second, and is not that one.
fn as_far(random: &mut Random, grid: &Grid, run: &Run) -> Option<Vertex> {
    let as_far = |&v: &Vertex| grid.point(v) != run.second && run.first.distance(grid.point(v)) == run.distance();
    let ends: Vec<Vertex> = grid.vertices().filter(as_far).collect();
    one_of(random, &ends)
}

/// A path in place of a run's route, as the way has it.
fn misled(random: &mut Random, survey: &Survey, at: usize, route: &[Vertex], way: Way) -> Option<Path> {
    let (grid, run) = (&survey.grid, &survey.job.runs[at]);
    let path: Path = match way {
        Way::Reversed => route.iter().rev().copied().collect(),
        Way::FirstElsewhere => {
            let start = as_far(random, grid, &run.reversed())?;
            walk(random, start, route[route.len() - 1])
        }
        Way::SecondElsewhere => {
            let end = as_far(random, grid, run)?;
            walk(random, route[0], end)
        }
        Way::FirstMoved => moved_first(random, grid, route)?,
        Way::SecondMoved => {
            let reversed: Path = route.iter().rev().copied().collect();
            moved_first(random, grid, &reversed)?.into_iter().rev().collect()
        }
        Way::Detour => around_edge(random, grid, route)?,
        _ => around_cell(random, grid, route)?,
    };
    let turns_back = path.windows(3).any(|three| three[0] == three[2]);
    (!turns_back).then_some(path)
}

/// The path without its first vertex, or with one more before it.
fn moved_first(random: &mut Random, grid: &Grid, path: &[Vertex]) -> Option<Path> {
    if random.once_in(2) {
        return Some(path[1..].to_vec());
    }
    let before = *random.pick(&grid.around(path[0]));
    Some([&[before?], path].concat())
}

/// The path with one of its edges gone around, over the line beside it.
fn around_edge(random: &mut Random, grid: &Grid, path: &[Vertex]) -> Option<Path> {
    let at = random.below(path.len() - 1);
    let (u, v) = (path[at], path[at + 1]);
    let side = random.below(2);
    let beside = |w: Vertex| {
        let [left, right, below, above] = grid.around(w);
        if u.row == v.row { [below, above][side] } else { [left, right][side] }
    };
    Some([&path[..=at], &[beside(u)?, beside(v)?], &path[at + 1..]].concat())
}

/// The path with a way around a cell at one of its vertices.
fn around_cell(random: &mut Random, grid: &Grid, path: &[Vertex]) -> Option<Path> {
    let at = random.below(path.len());
    let v = path[at];
    let [left, right, below, above] = grid.around(v);
    let (beside, across) = ((*random.pick(&[left, right]))?, (*random.pick(&[below, above]))?);
    let opposite = Vertex { column: beside.column, row: across.row };
    let cell = if random.once_in(2) { [beside, opposite, across, v] } else { [across, opposite, beside, v] };
    Some([&path[..=at], &cell, &path[at + 1..]].concat())
}

/// Two indexes below a number that differ; none where there are no two.
fn two(random: &mut Random, count: usize) -> Option<(usize, usize)> {
    let a = random.below(count.max(1));
    let b = (a + 1 + random.below(count.max(2) - 1)) % count.max(1);
    (a != b).then_some((a, b))
}

fn exchanged(random: &mut Random, survey: &Survey, routes: &[Path]) -> Option<PlanBook> {
    let (a, b) = two(random, routes.len())?;
    let points = |i: usize| (survey.job.runs[i].first, survey.job.runs[i].second);
    let mut changed = routes.to_vec();
    changed.swap(a, b);
    (points(a) != points(b)).then(|| measured(survey, survey.grid.clone(), &changed)).flatten()
}

/// A route more, behind the others with a number above theirs or anywhere with any number; or one less.
fn one_more_or_less(random: &mut Random, mut book: PlanBook, more: bool) -> Option<PlanBook> {
    let runs = book.routes.len();
    if more {
        let above = book.routes.last().map_or(1, |last| last.run + 1);
        let (number, at) =
            if random.once_in(2) { (above, runs) } else { (random.word() as u16, random.below(runs + 1)) };
        let like = book.routes.first().map(|first| first.corners.clone());
        let corners = like.unwrap_or(vec![Point::new(0, random.from(-FAR, FAR))]);
        book.routes.insert(at, route(number, 0, number, corners));
    } else if runs > 0 {
        book.routes.remove(random.below(runs));
    }
    count(&mut book);
    (book.routes.len() != runs && book.routes.len() <= MOST_RUNS).then_some(book)
}

fn swapped(random: &mut Random, mut book: PlanBook, whole: bool) -> Option<PlanBook> {
    let (a, b) = two(random, book.routes.len())?;
    if whole {
        book.routes.swap(a, b);
    } else {
        let (one, other) = (book.routes[a].run, book.routes[b].run);
        (book.routes[a].run, book.routes[b].run) = (other, one);
    }
    Some(book)
}
