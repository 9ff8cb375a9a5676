//! Plan books (01, "Plan book"): written from a plan, and read back (02, C-12), in either set of kinds (02, C-16).

use crate::book::{CORNER, END, OLDER_HEAD, OLDER_ROUTE, PLAN_HEAD, ROUTE};
use crate::job::{FAR, Job, MOST_RUNS, Point};
use crate::planner::Plan;
use crate::refusal::{Refusal, half, point, word};

/// The most corners of one route.
pub const MOST_CORNERS: usize = 127;

/// The length of a head of either kind, with its kind byte.
pub const HEAD_LENGTH: usize = 1 + 18;
/// The length of a route record, without the corners behind it.
pub const ROUTE_LENGTH: usize = 1 + 8;
/// The length of a route record in an older book.
pub const OLDER_ROUTE_LENGTH: usize = 1 + 6;
/// The length of a corner.
pub const CORNER_LENGTH: usize = 1 + 8;
/// The length of an end.
pub const END_LENGTH: usize = 1 + 2;

/// The set of kinds that a plan book has. Corners and ends are the same in both.
#[derive(Clone, Copy, Debug, PartialEq, Eq)]
pub enum Kinds {
    /// Those of every plan that is written: the head counts the groups, and each route names the centre of its group.
    Newer,
    /// Those of plans that were written before there were groups: the head names the centre. They are read (02, C-16).
    Older,
}

/// Both sets.
pub const BOTH_KINDS: [Kinds; 2] = [Kinds::Newer, Kinds::Older];

impl Kinds {
    /// The kind of the head.
    pub fn head(self) -> u8 {
        if self == Kinds::Newer { PLAN_HEAD } else { OLDER_HEAD }
    }

    /// The kind of a route.
    pub fn route(self) -> u8 {
        if self == Kinds::Newer { ROUTE } else { OLDER_ROUTE }
    }

    /// The length of a route record.
    pub fn route_length(self) -> usize {
        if self == Kinds::Newer { ROUTE_LENGTH } else { OLDER_ROUTE_LENGTH }
    }

    /// The other set.
    pub fn other(self) -> Kinds {
        if self == Kinds::Newer { Kinds::Older } else { Kinds::Newer }
    }
}

/// What a plan book says.
#[derive(Clone, Debug, PartialEq, Eq)]
pub struct PlanBook {
    /// Its set of kinds.
    pub kinds: Kinds,
    /// The head's job number.
    pub job: u32,
    /// The head's number of runs.
    pub runs: u16,
    /// The head's trench.
    pub trench: u32,
    /// The head's saved.
    pub saved: u32,
    /// The head's pits, as they stand: plans written before C-14 carry a figure without crossings and are still read (02, C-14).
    pub pits: u16,
    /// The head's last field: the number of groups; in an older book the centre's run number, 0 where there is no run.
    pub last: u16,
    /// The routes.
    pub routes: Vec<RouteRecord>,
    /// The end's total of corner records.
    pub total: u16,
}

/// A route record and the corners behind it.
#[derive(Clone, Debug, PartialEq, Eq)]
pub struct RouteRecord {
    /// The run number.
    pub run: u16,
    /// The meets figure.
    pub meets: u16,
    /// The number of corners that the record announces.
    pub count: u16,
    /// The run number of the group's centre; 0 in an older book, whose records do not name it.
    pub centre: u16,
    /// The corners that stand behind it.
    pub corners: Vec<Point>,
}

impl PlanBook {
    /// The book of a plan for this job.
    pub fn of(job: &Job, plan: &Plan) -> PlanBook {
        let half = |count: usize| u16::try_from(count).expect("a count that its field holds");
        let word = |length: i64| u32::try_from(length).expect("a length that its field holds");
        let route = |i: usize| RouteRecord {
            run: job.runs[i].number,
            meets: half(plan.meets[i]),
            count: half(plan.corners[i].len()),
            centre: job.runs[plan.centres[i]].number,
            corners: plan.corners[i].clone(),
        };
        PlanBook {
            kinds: Kinds::Newer,
            job: job.number,
            runs: half(job.runs.len()),
            trench: word(plan.trench),
            saved: word(plan.saved),
            pits: half(plan.pits),
            last: half(plan.groups),
            routes: (0..job.runs.len()).map(route).collect(),
            total: half(plan.corners.iter().map(Vec::len).sum()),
        }
    }

    /// The same plan as it was written before there were groups, when all runs were one star: its head names the centre.
    pub fn as_older(self) -> PlanBook {
        let last = self.routes.first().map_or(0, |route| route.centre);
        let routes = self.routes.into_iter().map(|route| RouteRecord { centre: 0, ..route }).collect();
        PlanBook { kinds: Kinds::Older, last, routes, ..self }
    }

    /// The book of these bytes, or the first refusal that applies (02, C-12): 12, 8 and 13 record by record, and 14 only after
    /// a whole book.
    pub fn read(bytes: &[u8]) -> Result<PlanBook, Refusal> {
        let book = whole_records(bytes)?;
        book.counts_agree()?;
        Ok(book)
    }

    /// Refusal 14, in the book's order: the head's runs, each route's corners, the end's total.
    fn counts_agree(&self) -> Result<(), Refusal> {
        let agree = |said: u16, counted: usize, place: usize| {
            if usize::from(said) == counted { Ok(()) } else { Err(Refusal { number: 14, place }) }
        };
        let places = self.places();
        agree(self.runs, self.routes.len(), 0)?;
        for (route, &place) in self.routes.iter().zip(&places) {
            agree(route.count, route.corners.len(), place)?;
            if route.corners.is_empty() {
                return Err(Refusal { number: 14, place });
            }
        }
        agree(self.total, self.corners(), places[self.routes.len()])
    }

    /// The number of corner records.
    pub fn corners(&self) -> usize {
        self.routes.iter().map(|route| route.corners.len()).sum()
    }

    /// The place of each route record, and then that of the end record.
    pub fn places(&self) -> Vec<usize> {
        let mut places = vec![HEAD_LENGTH];
        for route in &self.routes {
            places.push(places[places.len() - 1] + self.kinds.route_length() + CORNER_LENGTH * route.corners.len());
        }
        places
    }

    /// The bytes of the book.
    pub fn bytes(&self) -> Vec<u8> {
        let mut bytes = vec![self.kinds.head()];
        bytes.extend(self.job.to_le_bytes());
        bytes.extend(self.runs.to_le_bytes());
        bytes.extend(self.trench.to_le_bytes());
        bytes.extend(self.saved.to_le_bytes());
        bytes.extend(self.pits.to_le_bytes());
        bytes.extend(self.last.to_le_bytes());
        for route in &self.routes {
            bytes.push(self.kinds.route());
            bytes.extend([route.run, route.meets, route.count].iter().flat_map(|field| field.to_le_bytes()));
            if self.kinds == Kinds::Newer {
                bytes.extend(route.centre.to_le_bytes());
            }
            for corner in &route.corners {
                bytes.push(CORNER);
                bytes.extend([corner.x, corner.y].iter().flat_map(|field| field.to_le_bytes()));
            }
        }
        bytes.push(END);
        bytes.extend(self.total.to_le_bytes());
        bytes
    }
}

/// The length of a record of this kind, of either set, with its kind byte; none for an unknown kind.
pub fn record_length(kind: u8) -> Option<usize> {
    match kind {
        PLAN_HEAD | OLDER_HEAD => Some(HEAD_LENGTH),
        ROUTE => Some(ROUTE_LENGTH),
        OLDER_ROUTE => Some(OLDER_ROUTE_LENGTH),
        CORNER => Some(CORNER_LENGTH),
        END => Some(END_LENGTH),
        _ => None,
    }
}

/// The records of a book with no count compared, or the first of the refusals 12, 8 and 13: front to back, and within a record
/// in this order.
fn whole_records(bytes: &[u8]) -> Result<PlanBook, Refusal> {
    let mut read: Option<PlanBook> = None;
    let mut place = 0;
    loop {
        let refused = |number: i32| Refusal { number, place };
        let kind = *bytes.get(place).ok_or(refused(12))?;
        let length = record_length(kind).ok_or(refused(12))?;
        let body = bytes.get(place + 1..place + length).ok_or(refused(12))?;
        match (kind, &mut read) {
            (PLAN_HEAD, None) => read = Some(head(Kinds::Newer, body)),
            (OLDER_HEAD, None) => read = Some(head(Kinds::Older, body)),
            (_, Some(book)) if kind == book.kinds.route() && book.routes.len() < MOST_RUNS => {
                book.routes.push(route(book.kinds, body));
            }
            (CORNER, Some(book)) => {
                let route = book.routes.last_mut().filter(|route| route.corners.len() < MOST_CORNERS);
                let corners = &mut route.ok_or(refused(12))?.corners;
                let corner = point(body, 0);
                if !in_range(corner) {
                    return Err(refused(8));
                }
                if !turns(corners, corner) {
                    return Err(refused(13));
                }
                corners.push(corner);
            }
            (END, Some(_)) if place + length < bytes.len() => {
                return Err(Refusal { number: 12, place: place + length });
            }
            (END, Some(book)) => {
                book.total = half(body, 0);
                return Ok(read.expect("the first record is a head"));
            }
            _ => return Err(refused(12)),
        }
        place += length;
    }
}

fn head(kinds: Kinds, body: &[u8]) -> PlanBook {
    PlanBook {
        kinds,
        job: word(body, 0),
        runs: half(body, 4),
        trench: word(body, 6),
        saved: word(body, 10),
        pits: half(body, 14),
        last: half(body, 16),
        routes: Vec::new(),
        total: 0,
    }
}

fn route(kinds: Kinds, body: &[u8]) -> RouteRecord {
    let centre = if kinds == Kinds::Newer { half(body, 6) } else { 0 };
    RouteRecord { run: half(body, 0), meets: half(body, 2), count: half(body, 4), centre, corners: Vec::new() }
}

fn in_range(p: Point) -> bool {
    [p.x, p.y].iter().all(|value| (-FAR..=FAR).contains(value))
}

/// Whether a corner may stand behind these of its route: straight from the last one, and not on one line with the last two.
fn turns(before: &[Point], next: Point) -> bool {
    match *before {
        [] => true,
        [last] => straight(last, next),
        [.., other, last] => {
            let on_one_line = other.x == last.x && last.x == next.x || other.y == last.y && last.y == next.y;
            straight(last, next) && !on_one_line
        }
    }
}

/// Whether two different points stand on one row or on one column.
fn straight(p: Point, q: Point) -> bool {
    p != q && (p.x == q.x || p.y == q.y)
}
