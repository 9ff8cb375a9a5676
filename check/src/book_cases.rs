//! Plan books to try a reader with, of both sets of kinds: planned ones, made-up ones that no planner would write, damaged ones,
//! and bytes with no design.

use crate::book::{CORNER, END, OLDER_HEAD, OLDER_ROUTE, PLAN_HEAD, ROUTE};
use crate::book_damage;
use crate::generate::{self, KINDS};
use crate::job::{FAR, Job, MOST_RUNS, Point};
use crate::leases::{self, LAYOUTS};
use crate::plan_book::{
    BOTH_KINDS, CORNER_LENGTH, HEAD_LENGTH, Kinds, MOST_CORNERS, PlanBook, RouteRecord, record_length,
};
use crate::planner;
use crate::random::Random;
use crate::refusal::Refusal;

/// What a plan book, or a list of runs, was made to be.
#[derive(Clone, Copy, Debug, PartialEq, Eq)]
pub enum Made {
    /// Accepted.
    Whole,
    /// Refused in this way.
    Refused(Refusal),
    /// Whatever reading it gives.
    Anyhow,
}

/// A plan book to try.
#[derive(Clone, Debug)]
pub struct BookCase {
    /// The bytes.
    pub bytes: Vec<u8>,
    /// What is due by the way the book was made.
    pub made: Made,
    /// What kind of book it is.
    pub what: String,
}

/// Whole books that every comparison starts with, each in both sets of kinds: routes, corners of each, the greatest coordinate, and
/// what stands in every other field.
const SPECIAL: [(usize, usize, i32, u32); 7] = [
    (0, 0, 0, 0),
    (0, 0, 0, u32::MAX),
    (1, 1, FAR, 0),
    (1, MOST_CORNERS, FAR, 1),
    (MOST_RUNS, 1, FAR, u32::MAX),
    (MOST_RUNS, MOST_CORNERS, FAR, u32::MAX),
    (MOST_RUNS, 2, 1, 0x0102_0304),
];

/// The n-th plan book of a seed. The first are special ones, the same for every seed.
pub fn book_case(seed: u64, n: u64) -> BookCase {
    let anyhow = |what: &str, bytes: Vec<u8>| BookCase { bytes, made: Made::Anyhow, what: what.to_string() };
    let whole = |what: String, book: PlanBook| BookCase { bytes: book.bytes(), made: Made::Whole, what };
    if let Some(&(routes, corners, far, figure)) = SPECIAL.get(n as usize / 2) {
        let kinds = BOTH_KINDS[n as usize % 2];
        let what = format!("{routes} routes of {corners} corners, {kinds:?} kinds");
        return whole(what, squares(kinds, routes, corners, far, figure));
    }
    let n = n - 2 * SPECIAL.len() as u64;
    if n < TOO_LONG {
        return too_long(BOTH_KINDS[n as usize % 2], n / 2 == 0);
    }
    let n = n - TOO_LONG;
    if n < 256 {
        return anyhow("one byte", vec![n as u8]);
    }
    let mut random = Random::nth(seed, n);
    let (turn, round) = (n % 20, (n / 20) as usize);
    match turn {
        0 | 1 => whole("planned".to_string(), planned(&mut random)),
        2..=6 => {
            let routes = (5 * round + turn as usize) % (MOST_RUNS + 1);
            let kinds = BOTH_KINDS[round % 2];
            whole(format!("made up, {routes} routes, {kinds:?} kinds"), made_up(&mut random, kinds, routes))
        }
        7..=13 => {
            let way = (round * 7 + turn as usize - 7) % book_damage::WAYS;
            let damaged = book_damage::damaged(&mut random, way);
            let made = Made::Refused(damaged.refusal);
            BookCase { bytes: damaged.bytes, made, what: damaged.what.to_string() }
        }
        14 | 15 => anyhow("touched book", touched(&mut random)),
        16..=18 => anyhow("any records", any_records(&mut random)),
        _ => anyhow("noise", noise(&mut random)),
    }
}

/// The books of `too_long`.
const TOO_LONG: u64 = 4;

/// A book that is longer than any that is read: by a 33rd route, or by one byte behind the end.
fn too_long(kinds: Kinds, by_route: bool) -> BookCase {
    let routes = if by_route { MOST_RUNS + 1 } else { MOST_RUNS };
    let mut bytes = squares(kinds, routes, MOST_CORNERS, FAR, 1).bytes();
    let place = if by_route {
        HEAD_LENGTH + MOST_RUNS * (kinds.route_length() + MOST_CORNERS * CORNER_LENGTH)
    } else {
        bytes.len()
    };
    if !by_route {
        bytes.push(CORNER);
    }
    let what = format!("longer than any book, {kinds:?} kinds");
    BookCase { bytes, made: Made::Refused(Refusal { number: 12, place }), what }
}

/// A whole book with so many routes of so many corners, all of them corners of one square, and with this number in each field
/// that counts nothing.
fn squares(kinds: Kinds, routes: usize, corners: usize, far: i32, figure: u32) -> PlanBook {
    let side = |k: usize| if k % 4 < 2 { -far } else { far };
    let around: Vec<Point> = (0..corners).map(|k| Point::new(side(k), side(k + 1))).collect();
    let half = figure as u16;
    let centre = if kinds == Kinds::Newer { half } else { 0 };
    let routes = (0..routes).map(|_| route(half, half, centre, around.clone())).collect();
    let (job, trench, saved) = (figure, figure, figure);
    let mut book = PlanBook { kinds, job, runs: 0, trench, saved, pits: half, last: half, routes, total: 0 };
    count(&mut book);
    book
}

/// A route of these corners, with its count. In a book of the older kinds the centre has to be 0.
pub fn route(run: u16, meets: u16, centre: u16, corners: Vec<Point>) -> RouteRecord {
    RouteRecord { run, meets, count: corners.len() as u16, centre, corners }
}

/// Sets every count to what it counts.
pub fn count(book: &mut PlanBook) {
    book.runs = book.routes.len() as u16;
    book.routes.iter_mut().for_each(|route| route.count = route.corners.len() as u16);
    book.total = book.corners() as u16;
}

/// The plan that the independent planner writes for a generated star or lease, or for a blank job; that of a star or a blank job
/// often as it was written before there were groups.
pub fn planned(random: &mut Random) -> PlanBook {
    let kind = *random.pick(&KINDS);
    let layout = *random.pick(&LAYOUTS);
    let job = match random.below(16) {
        0 => Job { number: random.word() as u32, runs: Vec::new() },
        1 => generate::star(random, kind),
        2 => leases::lease(random, layout),
        3..=8 => leases::small_lease(random, layout),
        _ => generate::small_star(random, kind),
    };
    let book = PlanBook::of(&job, &planner::plan(&job).expect("every group is a star"));
    if book.last < 2 && random.once_in(2) { book.as_older() } else { book }
}

/// A book of so many routes, with right counts and proper corners, that no planner needs to have written: any figures, and routes
/// that may go anywhere.
pub fn made_up(random: &mut Random, kinds: Kinds, routes: usize) -> PlanBook {
    let mut book = PlanBook {
        kinds,
        job: any_word(random),
        runs: 0,
        trench: any_word(random),
        saved: any_word(random),
        pits: any_half(random),
        last: any_half(random),
        routes: Vec::new(),
        total: 0,
    };
    let longest = *random.pick(&[1, 2, 3, 6, 6, 20, 20, MOST_CORNERS]);
    for _ in 0..routes {
        let corners = if random.once_in(4) { longest } else { 1 + random.below(longest) };
        let corners = chain(random, corners);
        let centre = if kinds == Kinds::Newer { any_half(random) } else { 0 };
        book.routes.push(route(any_half(random), any_half(random), centre, corners));
    }
    count(&mut book);
    book
}

/// A 32-bit field that nobody judges.
fn any_word(random: &mut Random) -> u32 {
    let any = random.word() as u32;
    *random.pick(&[0, 1, 255, 256, 65_535, 65_536, 1 << 31, u32::MAX, any, any])
}

/// A 16-bit field that nobody judges.
fn any_half(random: &mut Random) -> u16 {
    let any = random.word() as u16;
    *random.pick(&[0, 1, 2, 255, 256, 10_000, 1 << 15, u16::MAX, any, any])
}

/// So many corners, at least one, that turn at each between: along a row and a column by turns, to and fro.
pub fn chain(random: &mut Random, corners: usize) -> Vec<Point> {
    let reach = *random.pick(&[1, 2, 100, FAR, FAR]);
    let value = |random: &mut Random| {
        let any = random.from(-reach, reach);
        *random.pick(&[-reach, reach, any, any])
    };
    let mut here = Point::new(value(random), value(random));
    let mut along_row = random.once_in(2);
    let mut chain = vec![here];
    while chain.len() < corners {
        let field = if along_row { &mut here.x } else { &mut here.y };
        let old = *field;
        while *field == old {
            *field = value(random);
        }
        along_row = !along_row;
        chain.push(here);
    }
    chain
}

/// A whole book of few or many routes.
pub fn whole_book(random: &mut Random) -> PlanBook {
    let routes = *random.pick(&[1, 1, 2, 3, 5, 9, MOST_RUNS - 1, MOST_RUNS]);
    let kinds = *random.pick(&BOTH_KINDS);
    if random.once_in(4) { planned(random) } else { made_up(random, kinds, routes) }
}

/// Every kind of a plan book's records, of both sets.
pub(crate) const ALL_KINDS: [u8; 6] = [PLAN_HEAD, OLDER_HEAD, ROUTE, OLDER_ROUTE, CORNER, END];

/// A whole book, touched: whatever is due for it.
fn touched(random: &mut Random) -> Vec<u8> {
    let bytes = whole_book(random).bytes();
    touch(random, bytes)
}

/// The bytes of a book with one or two changed, cut out or put in, or a part of it put elsewhere.
pub(crate) fn touch(random: &mut Random, mut bytes: Vec<u8>) -> Vec<u8> {
    for _ in 0..1 + random.below(2) {
        let at = random.below(bytes.len());
        match random.below(6) {
            0 => bytes[at] ^= 1 << random.below(8),
            1 => bytes[at] = random.word() as u8,
            2 => {
                bytes.remove(at);
            }
            3 => bytes.insert(at, *random.pick(&[PLAN_HEAD, ROUTE, OLDER_ROUTE, CORNER, END, 0, 1, 0xFF])),
            4 => bytes[at] = *random.pick(&ALL_KINDS),
            _ => {
                let end = bytes.len().min(at + 1 + random.below(30));
                let part = bytes[at..end].to_vec();
                let to = random.below(bytes.len());
                bytes.splice(to..to, part);
            }
        }
    }
    bytes
}

/// Whole records, most of them in order and of one set, with corners that are near each other. About half of these books are
/// accepted, and a reader that slips on any rule is likely to differ on some.
fn any_records(random: &mut Random) -> Vec<u8> {
    let kinds = *random.pick(&BOTH_KINDS);
    let mut bytes = Vec::new();
    let (mut routes, mut corners) = (0_u16, 0_u16);
    let mut count_at = None;
    let mut here = Point::new(0, 0);
    if !random.once_in(30) {
        head_record(random, kinds, &mut bytes);
    }
    for _ in 0..random.below(12) {
        let in_order = match count_at {
            None => kinds.route(),
            Some(at) if bytes[at] == 0 => CORNER,
            Some(_) => *random.pick(&[kinds.route(), CORNER, CORNER, CORNER]),
        };
        let any = *random.pick(&ALL_KINDS);
        match if random.once_in(30) { any } else { in_order } {
            PLAN_HEAD => head_record(random, Kinds::Newer, &mut bytes),
            OLDER_HEAD => head_record(random, Kinds::Older, &mut bytes),
            kind @ (ROUTE | OLDER_ROUTE) => {
                count_at = Some(bytes.len() + 5);
                bytes.push(kind);
                bytes.extend([any_half(random), any_half(random), 0].iter().flat_map(|field| field.to_le_bytes()));
                if kind == ROUTE {
                    bytes.extend(any_half(random).to_le_bytes());
                }
                routes += 1;
            }
            CORNER => {
                here = near_corner(random, here, corners % 2 == 0);
                bytes.push(CORNER);
                bytes.extend([here.x, here.y].iter().flat_map(|field| field.to_le_bytes()));
                corners += 1;
                if let Some(at) = count_at.filter(|_| !random.once_in(50)) {
                    bytes[at] += 1;
                }
            }
            _ => bytes.extend([END, 0, 0]),
        }
    }
    if bytes.len() >= HEAD_LENGTH && !random.once_in(20) {
        bytes[5..7].copy_from_slice(&routes.to_le_bytes());
    }
    if !random.once_in(20) {
        let total = if random.once_in(20) { corners ^ 1 } else { corners };
        bytes.push(END);
        bytes.extend(total.to_le_bytes());
    }
    bytes
}

/// A corner behind this one: most often a turn, and else anything near.
fn near_corner(random: &mut Random, here: Point, along_row: bool) -> Point {
    match (random.below(20), along_row) {
        (0, _) => Point::new(random.from(0, 2), random.from(0, 2)),
        (_, true) => Point::new(3 - here.x, here.y),
        (_, false) => Point::new(here.x, 3 - here.y),
    }
}

fn head_record(random: &mut Random, kinds: Kinds, bytes: &mut Vec<u8>) {
    bytes.push(kinds.head());
    bytes.extend(random.bytes(HEAD_LENGTH - 1));
}

/// Bytes with no design, of any length up to 700; many have kinds at places where records may stand.
pub(crate) fn noise(random: &mut Random) -> Vec<u8> {
    let length = random.below(700);
    let mut bytes = random.bytes(length);
    let kinds = *random.pick(&BOTH_KINDS);
    let mut place = 0;
    while random.below(50) > 0 && place < length {
        let route = if random.once_in(20) { kinds.other().route() } else { kinds.route() };
        let behind = *random.pick(&[route, CORNER, CORNER, CORNER, END, kinds.head()]);
        let kind = if place == 0 { kinds.head() } else { behind };
        bytes[place] = kind;
        if kind == CORNER && place + CORNER_LENGTH <= length {
            let near = [random.from(0, 1), random.from(0, 1)].map(i32::to_le_bytes).concat();
            bytes[place + 1..place + CORNER_LENGTH].copy_from_slice(&near);
        }
        place += record_length(kind).expect("a kind of a plan book");
    }
    bytes
}
