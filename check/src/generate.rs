//! Stars of every kind, from a seed: built leaf by leaf on a small lattice, which is then stretched to other coordinates; stars in
//! which cables cross; jobs with no design, among them small ones with room between their survey lines.

use crate::job::{Area, FAR, Job, MOST_RUNS, Point, Run, TOP_NUMBER};
use crate::random::Random;

/// What is special about a star.
#[derive(Clone, Copy, Debug, PartialEq, Eq)]
pub enum Kind {
    /// One run, of any shape.
    Alone,
    /// Two runs between the same points, perhaps from other ends.
    Equal,
    /// A leaf whose box holds the whole box of the centre.
    Around,
    /// Leaves that reach beyond the centre's box.
    Beyond,
    /// Small leaves all over the centre's box.
    Scattered,
    /// Leaves that touch one another in corners.
    Touching,
    /// Straight leaves, which may cross one another.
    Straight,
    /// Straight leaves along the sides of the centre's box, or beyond them.
    Sides,
    /// Long thin leaves across the centre's box.
    Strips,
    /// Leaves along a diagonal, corner to corner.
    Diagonal,
    /// Straight leaves end to end, as stairs.
    Stairs,
    /// A straight centre.
    Line,
    /// Leaves of all these kinds.
    Mixed,
}

/// All kinds of stars.
pub const KINDS: [Kind; 13] = [
    Kind::Alone,
    Kind::Equal,
    Kind::Around,
    Kind::Beyond,
    Kind::Scattered,
    Kind::Touching,
    Kind::Straight,
    Kind::Sides,
    Kind::Strips,
    Kind::Diagonal,
    Kind::Stairs,
    Kind::Line,
    Kind::Mixed,
];

/// Which cables are made to cross in a star of straight leaves, and where. Those of two leaves cross in every plan; whether the
/// centre comes there depends on its route, and in many least plans it does.
#[derive(Clone, Copy, Debug, PartialEq, Eq)]
pub enum Crossing {
    /// Leaves beside one another, all across the way of the centre.
    Across,
    /// Two leaves cross in their one common point, somewhere in the centre's box.
    Pair,
    /// Two leaves cross where the centre ends.
    End,
    /// The centre crosses a leaf where another leaf ends.
    Stop,
    /// Two leaves cross where the centre turns: it shares one of them up to there, and the other from there on.
    Turn,
    /// Two leaves cross where the centre goes straight on: three routes through one vertex.
    Three,
}

/// All of them.
pub const CROSSINGS: [Crossing; 6] =
    [Crossing::Across, Crossing::Pair, Crossing::End, Crossing::Stop, Crossing::Turn, Crossing::Three];

/// Whether the common points of two boxes are more than one, and so a grid edge lies in both.
pub(crate) fn share(a: &Area, b: &Area) -> bool {
    a.common(b).is_some_and(|common| common.low != common.high)
}

/// A star under construction on a lattice: the centre's box first, then the leaves'.
struct Star {
    boxes: Vec<Area>,
    span: i32,
}

impl Star {
    /// A leaf fits if it meets the centre and no other leaf.
    fn fits(&self, leaf: &Area) -> bool {
        let on_lattice = Area::of(Point::new(0, 0), Point::new(self.span, self.span));
        on_lattice.holds(leaf.low)
            && on_lattice.holds(leaf.high)
            && share(&self.boxes[0], leaf)
            && self.boxes[1..].iter().all(|other| !share(other, leaf))
    }

    fn grow(&mut self, random: &mut Random, kind: Kind, leaves: usize) {
        let mut tries = 60 + 40 * leaves;
        while self.boxes.len() <= leaves && tries > 0 {
            tries -= 1;
            let leaf = self.propose(random, kind);
            if self.fits(&leaf) {
                self.boxes.push(leaf);
            }
        }
    }

    fn anywhere(&self, random: &mut Random) -> Point {
        Point::new(random.from(0, self.span), random.from(0, self.span))
    }

    fn in_centre(&self, random: &mut Random) -> Point {
        let Area { low, high } = self.boxes[0];
        Point::new(random.from(low.x, high.x), random.from(low.y, high.y))
    }

    /// A box with one corner at p, whose sides are at most `size`.
    fn at(&self, random: &mut Random, p: Point, width: i32, height: i32) -> Area {
        let dx = random.from(1, width.max(1)) * if random.once_in(2) { 1 } else { -1 };
        let dy = random.from(1, height.max(1)) * if random.once_in(2) { 1 } else { -1 };
        Area::of(p, Point::new(p.x + dx, p.y + dy))
    }

    fn segment(&self, random: &mut Random, p: Point, size: i32) -> Area {
        let size = random.from(1, size.max(1)) * if random.once_in(2) { 1 } else { -1 };
        let end = if random.once_in(2) { Point::new(p.x + size, p.y) } else { Point::new(p.x, p.y + size) };
        Area::of(p, end)
    }

    /// Adds a straight leaf through p, so far to the lower side and so far to the upper one, if it fits.
    fn through(&mut self, p: Point, along_row: bool, lower: i32, upper: i32) {
        let leaf = if along_row {
            Area::of(Point::new(p.x - lower, p.y), Point::new(p.x + upper, p.y))
        } else {
            Area::of(Point::new(p.x, p.y - lower), Point::new(p.x, p.y + upper))
        };
        if self.fits(&leaf) {
            self.boxes.push(leaf);
        }
    }

    /// Adds a straight leaf across the centre's box, if it fits; most of them begin before it and end behind it.
    fn across(&mut self, random: &mut Random, along_row: bool) {
        let Area { low, high } = self.boxes[0];
        let p = self.in_centre(random);
        let (lower, upper) = if along_row { (p.x - low.x, high.x - p.x) } else { (p.y - low.y, high.y - p.y) };
        let mut beyond = || i32::from(!random.once_in(5));
        self.through(p, along_row, lower + beyond(), upper + beyond());
    }

    /// Adds the leaves of a crossing, for a centre that goes from low to high.
    fn cross(&mut self, random: &mut Random, crossing: Crossing) {
        let Area { low, high } = self.boxes[0];
        let p = Point::new(random.from(low.x + 1, high.x - 1), random.from(low.y + 1, high.y - 1));
        let mut short = || random.from(1, 2);
        match crossing {
            Crossing::Across => (0..4).for_each(|_| self.across(random, false)),
            Crossing::Pair => {
                self.through(p, true, short(), short());
                self.through(p, false, short(), short());
            }
            Crossing::End => {
                self.through(low, true, 1, high.x - low.x + short() - 1);
                self.through(low, false, 1, high.y - low.y + short() - 1);
            }
            Crossing::Stop => {
                self.through(p, true, p.x - low.x, 0);
                self.through(p, true, 0, high.x - p.x);
                self.through(p, false, short(), short());
            }
            Crossing::Turn => {
                self.through(p, false, p.y - low.y, 1);
                self.through(p, true, 1, high.x - p.x);
            }
            Crossing::Three => {
                self.through(p, true, p.x - low.x, high.x - p.x);
                self.through(p, false, 1, 1);
            }
        }
    }

    fn propose(&self, random: &mut Random, kind: Kind) -> Area {
        let span = self.span;
        match kind {
            Kind::Alone | Kind::Beyond => Area::of(self.anywhere(random), self.in_centre(random)),
            Kind::Equal => self.boxes[0],
            Kind::Around => {
                let Area { low, high } = self.boxes[0];
                let p = Point::new(random.from(0, low.x), random.from(0, low.y));
                Area::of(p, Point::new(random.from(high.x, span), random.from(high.y, span)))
            }
            Kind::Scattered => {
                let p = self.in_centre(random);
                self.at(random, p, 1 + span / 12, 1 + span / 12)
            }
            Kind::Touching => {
                let Area { low, high } = *random.pick(&self.boxes);
                let x = *random.pick(&[low.x, high.x]);
                let y = *random.pick(&[low.y, high.y]);
                self.at(random, Point::new(x, y), 1 + span / 4, 1 + span / 4)
            }
            Kind::Straight => {
                let p = self.in_centre(random);
                self.segment(random, p, span)
            }
            Kind::Sides => {
                let Area { low, high } = self.boxes[0];
                let mut p = self.anywhere(random);
                let mut q = self.in_centre(random);
                if random.once_in(2) {
                    p.x = *random.pick(&[low.x, high.x]);
                    q.x = p.x;
                } else {
                    p.y = *random.pick(&[low.y, high.y]);
                    q.y = p.y;
                }
                Area::of(p, q)
            }
            Kind::Strips => {
                let p = self.in_centre(random);
                if random.once_in(2) { self.at(random, p, span, 1) } else { self.at(random, p, 1, span) }
            }
            Kind::Diagonal => {
                let last = self.boxes.last().expect("the centre is there");
                let p =
                    if self.boxes.len() == 1 { self.in_centre(random) } else { *random.pick(&[last.low, last.high]) };
                self.at(random, p, 1 + span / 8, 1 + span / 8)
            }
            Kind::Stairs => {
                let last = self.boxes.last().expect("the centre is there");
                let p = if self.boxes.len() == 1 { self.boxes[0].low } else { last.high };
                let size = random.from(1, 1 + span / 16);
                let q = if random.once_in(2) { Point::new(p.x + size, p.y) } else { Point::new(p.x, p.y + size) };
                Area::of(p, q)
            }
            Kind::Line | Kind::Mixed => {
                let other = *random.pick(&KINDS[3..11]);
                self.propose(random, other)
            }
        }
    }
}

/// A star of this kind with at most so many runs on a lattice of this span (at least 2), its coordinates not yet stretched.
pub(crate) fn on_lattice(random: &mut Random, kind: Kind, runs: usize, span: i32) -> Vec<Area> {
    let margin = if random.once_in(3) { 0 } else { random.from(0, span / 3) };
    let (mut p, mut q) = (Point::new(margin, margin), Point::new(span - margin, span - margin));
    if kind == Kind::Around || random.once_in(6) {
        let inner =
            |random: &mut Random| Point::new(random.from(margin, span - margin), random.from(margin, span - margin));
        (p, q) = (inner(random), inner(random));
    }
    let straight = kind == Kind::Line || matches!(kind, Kind::Straight | Kind::Mixed) && random.once_in(4);
    if straight {
        if random.once_in(2) { q.x = p.x } else { q.y = p.y }
    }
    if p == q {
        q = if p.x < span { Point::new(p.x + 1, p.y) } else { Point::new(p.x - 1, p.y) };
    }
    let mut star = Star { boxes: vec![Area::of(p, q)], span };
    let leaves = match kind {
        Kind::Alone => 0,
        Kind::Equal | Kind::Around => 1,
        _ => runs.saturating_sub(1),
    };
    star.grow(random, kind, leaves);
    star.boxes
}

/// The least and the greatest of some values.
pub(crate) fn ends(values: impl Iterator<Item = i32> + Clone) -> (i32, i32) {
    (values.clone().min().expect("a value"), values.max().expect("a value"))
}

/// The points of a box as a run has them: either slope, from either end.
fn as_run(random: &mut Random, area: &Area) -> (Point, Point) {
    let Area { low, high } = *area;
    let (p, q) = if random.once_in(2) { (low, high) } else { (Point::new(low.x, high.y), Point::new(high.x, low.y)) };
    if random.once_in(2) { (p, q) } else { (q, p) }
}

/// Other values for these, in the same order, from low to high.
fn stretched(random: &mut Random, values: &[i32], low: i32, high: i32) -> Vec<(i32, i32)> {
    let mut old = values.to_vec();
    old.sort_unstable();
    old.dedup();
    let new = random.rising(old.len(), low, high);
    old.into_iter().zip(new).collect()
}

/// The points with their columns and rows moved to other coordinates: what meets and what touches stays as it is.
fn stretch(random: &mut Random, runs: &mut [(Point, Point)], low: i32, high: i32) {
    let all: Vec<Point> = runs.iter().flat_map(|&(p, q)| [p, q]).collect();
    let xs = stretched(random, &all.iter().map(|p| p.x).collect::<Vec<_>>(), low, high);
    let ys = stretched(random, &all.iter().map(|p| p.y).collect::<Vec<_>>(), low, high);
    let new = |table: &[(i32, i32)], value: i32| table[table.partition_point(|&(old, _)| old < value)].1;
    let moved = |p: Point| Point::new(new(&xs, p.x), new(&ys, p.y));
    for run in runs.iter_mut() {
        *run = (moved(run.0), moved(run.1));
    }
}

/// Run numbers that rise: 1, 2, 3; or any; or the highest.
fn numbers(random: &mut Random, count: usize) -> Vec<u16> {
    let n = count as i32;
    let chosen = match random.below(4) {
        0 => random.rising(count, 1, TOP_NUMBER),
        1 => (TOP_NUMBER - n + 1..=TOP_NUMBER).collect(),
        _ => (1..=n).collect(),
    };
    chosen.into_iter().map(|number| number as u16).collect()
}

fn job_number(random: &mut Random) -> u32 {
    match random.below(8) {
        0 => 0,
        1 => u32::MAX,
        2 => 1 << 31,
        _ => random.word() as u32,
    }
}

/// A job of these runs, numbered.
pub(crate) fn numbered(random: &mut Random, points: &[(Point, Point)]) -> Job {
    let numbers = numbers(random, points.len());
    let runs = points.iter().zip(numbers).map(|(&(first, second), number)| Run { number, first, second }).collect();
    Job { number: job_number(random), runs }
}

/// A small star of this kind, its runs numbered 1, 2, 3: so few routes that all choices of them can often be tried.
pub fn small_star(random: &mut Random, kind: Kind) -> Job {
    let runs = 2 + random.below(5);
    let span = random.from(2, 9);
    let boxes = on_lattice(random, kind, runs, span);
    nearby_numbered(random, &boxes)
}

/// The job of these boxes, each from some end to the other, stretched a little or not and in any order, numbered 1, 2, 3.
pub(crate) fn nearby_numbered(random: &mut Random, boxes: &[Area]) -> Job {
    let mut points: Vec<(Point, Point)> = boxes.iter().map(|area| as_run(random, area)).collect();
    if random.once_in(2) {
        let reach = random.from(8, 20);
        stretch(random, &mut points, -reach, reach);
    }
    random.shuffle(&mut points);
    numbered_from_1(&points)
}

/// A small star of straight leaves with such a crossing, its runs numbered 1, 2, 3.
pub fn crossed_star(random: &mut Random, crossing: Crossing) -> Job {
    let corner = |random: &mut Random, low: i32| Point::new(random.from(low, low + 1), random.from(low, low + 1));
    let centre = Area::of(corner(random, 1), corner(random, 5));
    let mut star = Star { boxes: vec![centre], span: 8 };
    star.cross(random, crossing);
    for _ in 0..1 + random.below(3) {
        let along_row = random.once_in(2);
        star.across(random, along_row);
    }
    let mut points: Vec<(Point, Point)> = star.boxes.iter().map(|area| (area.low, area.high)).collect();
    turned(random, &mut points, star.span);
    if random.once_in(2) {
        let reach = random.from(8, 20);
        stretch(random, &mut points, -reach, reach);
    }
    random.shuffle(&mut points);
    numbered_from_1(&points)
}

/// The whole mirrored or not, with x for y or not, and each run from either end.
pub(crate) fn turned(random: &mut Random, runs: &mut [(Point, Point)], span: i32) {
    let [other_x, other_y, swapped] = [0; 3].map(|_| random.once_in(2));
    let moved = |p: Point| {
        let (x, y) = (if other_x { span - p.x } else { p.x }, if other_y { span - p.y } else { p.y });
        if swapped { Point::new(y, x) } else { Point::new(x, y) }
    };
    for run in runs.iter_mut() {
        *run = if random.once_in(2) { (moved(run.0), moved(run.1)) } else { (moved(run.1), moved(run.0)) };
    }
}

/// The job 1 of these runs, numbered 1, 2, 3.
fn numbered_from_1(points: &[(Point, Point)]) -> Job {
    let runs = points.iter().zip(1..).map(|(&(first, second), number)| Run { number, first, second }).collect();
    Job { number: 1, runs }
}

/// A star of this kind with up to 32 runs, at any coordinates.
pub fn star(random: &mut Random, kind: Kind) -> Job {
    let runs = if random.once_in(3) { MOST_RUNS } else { 2 + random.below(MOST_RUNS - 1) };
    let span = random.from(2 + runs as i32 / 4, 70);
    let boxes = on_lattice(random, kind, runs, span);
    anywhere_numbered(random, &boxes)
}

/// The job of these boxes, each from some end to the other, stretched over any coordinates and numbered in any order.
pub(crate) fn anywhere_numbered(random: &mut Random, boxes: &[Area]) -> Job {
    let mut points: Vec<(Point, Point)> = boxes.iter().map(|area| as_run(random, area)).collect();
    match random.below(4) {
        0 => {}
        1 => stretch(random, &mut points, -100, 100),
        _ => stretch(random, &mut points, -FAR, FAR),
    }
    if random.once_in(4) {
        to_the_edge(random, &mut points);
    }
    random.shuffle(&mut points);
    numbered(random, &points)
}

/// The outermost columns and rows moved to the ends of the range.
fn to_the_edge(random: &mut Random, runs: &mut [(Point, Point)]) {
    let all: Vec<Point> = runs.iter().flat_map(|&(p, q)| [p, q]).collect();
    let (left, right) = ends(all.iter().map(|p| p.x));
    let (bottom, top) = ends(all.iter().map(|p| p.y));
    let both = random.once_in(2);
    let outward = |value: i32, low: i32, high: i32| match value {
        _ if low == high => {
            if both {
                FAR
            } else {
                -FAR
            }
        }
        _ if value == low && both => -FAR,
        _ if value == high => FAR,
        _ => value,
    };
    let moved = |p: Point| Point::new(outward(p.x, left, right), outward(p.y, bottom, top));
    for run in runs.iter_mut() {
        *run = (moved(run.0), moved(run.1));
    }
}

/// A star with 32 runs that has 64 columns and 64 rows: the largest grid.
pub fn full_star(random: &mut Random) -> Job {
    spread_star(random, MOST_RUNS)
}

/// A star of so many runs on twice as many columns and rows, all of which pass the centre's box.
pub fn spread_star(random: &mut Random, runs: usize) -> Job {
    let boxes = spread_boxes(random, runs);
    spread_numbered(random, &boxes)
}

/// The job of these boxes, stretched over all coordinates or not.
pub(crate) fn spread_numbered(random: &mut Random, boxes: &[Area]) -> Job {
    let mut points: Vec<(Point, Point)> = boxes.iter().map(|area| as_run(random, area)).collect();
    if random.once_in(2) {
        stretch(random, &mut points, -FAR, FAR);
    }
    random.shuffle(&mut points);
    numbered(random, &points)
}

/// The boxes of such a star, the centre's first.

pub(crate) fn spread_boxes(random: &mut Random, runs: usize) -> Vec<Area> {
    let size = 2 * runs as i32 - 1;
    let mut order: Vec<i32> = (0..runs as i32 - 1).collect();
    match random.below(3) {
        0 => {}
        1 => order.reverse(),
        _ => random.shuffle(&mut order),
    }
    let leaf = |(i, &j): (usize, &i32)| {
        let low = Point::new(2 * i as i32 + 1, 2 * j + 1);
        Area::of(low, Point::new(low.x + 1, low.y + 1))
    };
    let mut boxes = vec![Area::of(Point::new(0, 0), Point::new(size, size))];
    boxes.extend(order.iter().enumerate().map(leaf));
    boxes
}

/// Runs with no design, each between two points, on so few lines that some jobs are stars or leases; or no run.
pub fn any(random: &mut Random) -> Job {
    let count = if random.once_in(4) { random.below(MOST_RUNS + 1) } else { random.below(5) };
    let reach = *random.pick(&[2, 4, 8, 100, FAR]);
    let point = |random: &mut Random| Point::new(random.from(-reach, reach), random.from(-reach, reach));
    let points: Vec<(Point, Point)> = (0..count).map(|_| apart(random, point)).collect();
    numbered(random, &points)
}

/// Two different points made in this way.
fn apart(random: &mut Random, point: impl Fn(&mut Random) -> Point) -> (Point, Point) {
    loop {
        let (first, second) = (point(random), point(random));
        if first != second {
            return (first, second);
        }
    }
}

/// Up to 5 runs with no design on a few columns and rows, with room between these, in a square of at most 8 x 8 whole-decimetre points:
/// so small that all paths of unit steps can often be tried. They are numbered 1, 2, 3.
pub fn roomy(random: &mut Random) -> Job {
    let reach = random.from(5, 7);
    let [columns, rows] = [0; 2].map(|_| {
        let lines = 3 + random.below(3);
        random.rising(lines, 0, reach)
    });
    let point = |random: &mut Random| Point::new(*random.pick(&columns), *random.pick(&rows));
    let points: Vec<(Point, Point)> = (0..1 + random.below(5)).map(|_| apart(random, point)).collect();
    numbered_from_1(&points)
}
