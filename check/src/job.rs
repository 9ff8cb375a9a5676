//! Points, runs and jobs. Lengths are in decimetres.

/// The greatest coordinate of a well-formed job; the least is its negative.
pub const FAR: i32 = 1_000_000;
/// The greatest run number of a well-formed job.
pub const TOP_NUMBER: i32 = 9_999;
/// The most runs of a well-formed job.
pub const MOST_RUNS: usize = 32;

/// A point of the survey.
#[derive(Clone, Copy, Debug, PartialEq, Eq, PartialOrd, Ord, Hash)]
pub struct Point {
    /// East.
    pub x: i32,
    /// North.
    pub y: i32,
}

impl Point {
    /// The point (x, y).
    pub const fn new(x: i32, y: i32) -> Point {
        Point { x, y }
    }

    /// The Manhattan distance: the x distance plus the y distance.
    pub fn distance(self, other: Point) -> i64 {
        gap(self.x, other.x) + gap(self.y, other.y)
    }
}

/// The distance of two coordinates.
pub fn gap(a: i32, b: i32) -> i64 {
    (i64::from(a) - i64::from(b)).abs()
}

/// A cable's two points, with the number by which people call it.
#[derive(Clone, Copy, Debug, PartialEq, Eq)]
pub struct Run {
    /// The run number, 1 to 9,999 in a well-formed job.
    pub number: u16,
    /// The point at which its route starts.
    pub first: Point,
    /// The point at which its route ends.
    pub second: Point,
}

impl Run {
    /// The length of every route of this run.
    pub fn distance(&self) -> i64 {
        self.first.distance(self.second)
    }

    /// The smallest upright rectangle that holds both points.
    pub fn area(&self) -> Area {
        Area::of(self.first, self.second)
    }

    /// Whether y falls where x rises: the other slope of document 000's flipped pairs. A straight run has none, since it is
    /// regular and flipped at once.
    pub fn falls(&self) -> bool {
        let (left, right) =
            if self.first.x <= self.second.x { (self.first, self.second) } else { (self.second, self.first) };
        left.x < right.x && right.y < left.y
    }

    /// The run between the same points from the other end.
    pub fn reversed(&self) -> Run {
        Run { number: self.number, first: self.second, second: self.first }
    }
}

/// An upright rectangle with its boundary: a run's box, which may be a segment, or the common part of two, which may be a point.
#[derive(Clone, Copy, Debug, PartialEq, Eq)]
pub struct Area {
    /// The corner of least x and least y.
    pub low: Point,
    /// The corner of greatest x and greatest y.
    pub high: Point,
}

impl Area {
    /// The smallest rectangle that holds both points.
    pub fn of(p: Point, q: Point) -> Area {
        Area { low: Point::new(p.x.min(q.x), p.y.min(q.y)), high: Point::new(p.x.max(q.x), p.y.max(q.y)) }
    }

    /// Whether the point lies in the rectangle or on its boundary.
    pub fn holds(&self, p: Point) -> bool {
        self.low.x <= p.x && p.x <= self.high.x && self.low.y <= p.y && p.y <= self.high.y
    }

    /// The common points of two rectangles, if there are any.
    pub fn common(&self, other: &Area) -> Option<Area> {
        let low = Point::new(self.low.x.max(other.low.x), self.low.y.max(other.low.y));
        let high = Point::new(self.high.x.min(other.high.x), self.high.y.min(other.high.y));
        (low.x <= high.x && low.y <= high.y).then_some(Area { low, high })
    }
}

/// A job: its number and its runs, in the order of the job book.
#[derive(Clone, Debug, PartialEq, Eq)]
pub struct Job {
    /// The job number, any value.
    pub number: u32,
    /// The runs.
    pub runs: Vec<Run>,
}

impl Job {
    /// The sum of the runs' Manhattan distances: the cable needed, and the trench if nothing were shared.
    pub fn distance(&self) -> i64 {
        self.runs.iter().map(Run::distance).sum()
    }
}
