//! Plan books of both sets of kinds that something damaged or cut, each with the refusal that requests C-12 and C-16 give for it.
//! The refusal follows from how the damage was done, and not from reading the book: so it is a second opinion on every reader.

use crate::book::{CORNER, END, JOB_HEAD, OLDER_HEAD, OLDER_ROUTE, PLAN_HEAD, ROUTE, RUN, job_bytes};
use crate::book_cases::{ALL_KINDS, chain, count, made_up, route, whole_book};
use crate::damage::{Damaged, made, outside, then_anything};
use crate::generate::{self, KINDS};
use crate::job::{MOST_RUNS, Point};
use crate::plan_book::{
    BOTH_KINDS, CORNER_LENGTH, END_LENGTH, HEAD_LENGTH, Kinds, MOST_CORNERS, PlanBook, RouteRecord, record_length,
};
use crate::random::Random;

/// A whole book with at least one route, its bytes, and where its records stand.
struct Whole {
    book: PlanBook,
    bytes: Vec<u8>,
    /// The place and the kind of each record.
    records: Vec<(usize, u8)>,
}

impl Whole {
    fn of(book: PlanBook) -> Whole {
        let mut records = vec![(0, book.kinds.head())];
        let mut place = HEAD_LENGTH;
        for route in &book.routes {
            records.push((place, book.kinds.route()));
            place += book.kinds.route_length();
            for _ in &route.corners {
                records.push((place, CORNER));
                place += CORNER_LENGTH;
            }
        }
        records.push((place, END));
        Whole { bytes: book.bytes(), book, records }
    }

    fn any(random: &mut Random) -> Whole {
        let book = whole_book(random);
        Whole::of(if book.routes.is_empty() { made_up(random, book.kinds, 1) } else { book })
    }

    /// The place of the end record.
    fn end(&self) -> usize {
        self.bytes.len() - END_LENGTH
    }

    /// The place of a route's record.
    fn route(&self, i: usize) -> usize {
        self.records.iter().filter(|record| record.1 == self.book.kinds.route()).nth(i).expect("a route").0
    }

    /// The place of a route's corner.
    fn corner(&self, i: usize, j: usize) -> usize {
        self.route(i) + self.book.kinds.route_length() + CORNER_LENGTH * j
    }

    /// Some record behind the head: its place.
    fn behind_head(&self, random: &mut Random) -> usize {
        random.pick(&self.records[1..]).0
    }

    /// The bytes with others put in at a place.
    fn with(&self, place: usize, more: &[u8]) -> Vec<u8> {
        [&self.bytes[..place], more, &self.bytes[place..]].concat()
    }
}

/// The number of ways in which `damaged` damages a book.
pub const WAYS: usize = 38;

/// A whole plan book damaged in the way of this number, below `WAYS`.
pub fn damaged(random: &mut Random, way: usize) -> Damaged {
    match way {
        0 => cut_inside(random, |kind| [PLAN_HEAD, OLDER_HEAD].contains(&kind)),
        1 => cut_inside(random, |kind| [ROUTE, OLDER_ROUTE].contains(&kind)),
        2 => cut_inside(random, |kind| kind == CORNER),
        3 => cut_inside(random, |kind| kind == END),
        4 => cut_behind_a_record(random),
        5 => no_end(random),
        6 => unknown_kind(random),
        7 => unknown_kind_last(random),
        8 => no_head(random),
        9 => job_book(random),
        10 => second_head(random),
        11 => corner_first(random),
        12 => route_33(random),
        13 => corner_128(random),
        14 => after_end(random),
        15 => end_early(random),
        16 => outside_its_range(random),
        17 => outside_and_no_turn(random),
        18 => corner_twice(random),
        19 => sloped(random),
        20 => straight_on(random),
        21 => wrong_runs(random),
        22 => wrong_corners(random),
        23 => no_corner(random),
        24 => wrong_total(random),
        25 => route_missing(random),
        26 => last_corner_missing(random),
        27 => two_counts(random),
        28 => count_and_record(random),
        29 => two_corners(random, false),
        30 => two_corners(random, true),
        31 => limit_and_coordinate(random),
        32 => head_of_the_other_set(random),
        33 => route_of_the_other_set(random),
        34 => routes_of_the_other_set(random),
        35 => kind_of_the_other_set(random),
        36 => second_head_of_the_other_set(random),
        _ => other_set_and_corner(random),
    }
}

fn cut_inside(random: &mut Random, chosen: impl Fn(u8) -> bool) -> Damaged {
    let whole = Whole::any(random);
    let records: Vec<(usize, u8)> = whole.records.iter().filter(|record| chosen(record.1)).copied().collect();
    let (place, kind) = *random.pick(&records);
    let length = place + 1 + random.below(record_length(kind).expect("a kind") - 1);
    made("cut inside a record", whole.bytes[..length].to_vec(), 12, place)
}

fn cut_behind_a_record(random: &mut Random) -> Damaged {
    if random.once_in(8) {
        return made("empty", Vec::new(), 12, 0);
    }
    let whole = Whole::any(random);
    let place = whole.behind_head(random);
    made("cut behind a record", whole.bytes[..place].to_vec(), 12, place)
}

fn no_end(random: &mut Random) -> Damaged {
    let whole = Whole::any(random);
    made("no end", whole.bytes[..whole.end()].to_vec(), 12, whole.end())
}

fn some_unknown_kind(random: &mut Random) -> u8 {
    let near =
        [0x00, 0xFF, JOB_HEAD, RUN, 0x4D, 0x42, 0x44, 0x59, 0x5B, 0x70, 0x71, 0x6E, 0x6F, 0x63, 0x7A, 0xD0, 0xD1, 0x53];
    let kind = if random.once_in(2) { *random.pick(&near) } else { random.word() as u8 };
    if record_length(kind).is_some() { 0 } else { kind }
}

fn unknown_kind(random: &mut Random) -> Damaged {
    let mut whole = Whole::any(random);
    let place = random.pick(&whole.records).0;
    whole.bytes[place] = some_unknown_kind(random);
    made("unknown kind", then_anything(random, &whole.bytes, place + 1), 12, place)
}

fn unknown_kind_last(random: &mut Random) -> Damaged {
    let whole = Whole::any(random);
    let place = random.pick(&whole.records).0;
    let bytes = [&whole.bytes[..place], &[some_unknown_kind(random)]].concat();
    made("unknown kind as last byte", bytes, 12, place)
}

fn no_head(random: &mut Random) -> Damaged {
    let mut whole = Whole::any(random);
    if random.once_in(2) {
        whole.bytes[0] = *random.pick(&[ROUTE, OLDER_ROUTE, CORNER, END]);
        return made("other kind on the head", whole.bytes, 12, 0);
    }
    let place = whole.behind_head(random);
    made("no head", then_anything(random, &whole.bytes[place..], 3), 12, 0)
}

fn job_book(random: &mut Random) -> Damaged {
    let kind = *random.pick(&KINDS);
    made("a job book", job_bytes(&generate::small_star(random, kind)), 12, 0)
}

/// A second head before some record, whole or cut.
fn second_head(random: &mut Random) -> Damaged {
    let whole = Whole::any(random);
    let place = whole.behind_head(random);
    let changed = whole.with(place, &whole.bytes[..HEAD_LENGTH]);
    let from = place + 1 + random.below(HEAD_LENGTH);
    made("second head", then_anything(random, &changed, from), 12, place)
}

/// A corner straight behind the head, whole or cut.
fn corner_first(random: &mut Random) -> Damaged {
    let whole = Whole::any(random);
    let behind_route = HEAD_LENGTH + whole.book.kinds.route_length();
    let changed = match random.below(2) {
        0 => whole.with(HEAD_LENGTH, &whole.bytes[behind_route..][..CORNER_LENGTH]),
        _ => [&whole.bytes[..HEAD_LENGTH], &whole.bytes[behind_route..]].concat(),
    };
    let from = HEAD_LENGTH + 1 + random.below(CORNER_LENGTH);
    made("corner before any route", then_anything(random, &changed, from), 12, HEAD_LENGTH)
}

/// A book of 33 routes or more, each count as it should be; whole or cut behind the 33rd route's kind.
fn route_33(random: &mut Random) -> Damaged {
    let routes = MOST_RUNS + 1 + random.below(3);
    let kinds = *random.pick(&BOTH_KINDS);
    let mut book = made_up(random, kinds, routes);
    if random.once_in(2) {
        book.runs = MOST_RUNS as u16;
    }
    let whole = Whole::of(book);
    let place = whole.route(MOST_RUNS);
    let from = place + 1 + random.below(kinds.route_length());
    made("33rd route", then_anything(random, &whole.bytes, from), 12, place)
}

/// A route of 128 corners or more. Behind the kind of the 128th anything may stand, since it is refused for what it is.
fn corner_128(random: &mut Random) -> Damaged {
    let mut book = Whole::any(random).book;
    let at = random.below(book.routes.len());
    let corners = MOST_CORNERS + 1 + random.below(3);
    book.routes[at].corners = chain(random, corners);
    count(&mut book);
    let whole = Whole::of(book);
    let place = whole.corner(at, MOST_CORNERS);
    let from = place + 1 + random.below(CORNER_LENGTH);
    made("128th corner", then_anything(random, &whole.bytes, from), 12, place)
}

/// Bytes behind the end; the counts may be wrong besides.
fn after_end(random: &mut Random) -> Damaged {
    let mut whole = Whole::any(random);
    if random.once_in(2) {
        spoil_some_count(random, &mut whole.book);
        whole.bytes = whole.book.bytes();
    }
    let place = whole.bytes.len();
    let mut bytes = whole.bytes;
    match random.below(3) {
        0 => bytes.push(if random.once_in(5) { 0 } else { *random.pick(&ALL_KINDS) }),
        1 => bytes.extend_from_within(..place.min(300)),
        _ => bytes.extend((0..1 + random.below(30)).map(|_| random.word() as u8)),
    }
    made("byte after the end", bytes, 12, place)
}

/// An end's kind on a route or a corner: its other bytes stand behind the end.
fn end_early(random: &mut Random) -> Damaged {
    let mut whole = Whole::any(random);
    let place = random.pick(&whole.records[1..whole.records.len() - 1]).0;
    whole.bytes[place] = END;
    made("end's kind on another record", whole.bytes, 12, place + END_LENGTH)
}

/// Some corner: its route and its index there.
fn some_corner(random: &mut Random, book: &PlanBook) -> (usize, usize) {
    let i = random.below(book.routes.len());
    (i, random.below(book.routes[i].corners.len()))
}

fn put_outside(random: &mut Random, corner: &mut Point) {
    let value = outside(random);
    match random.below(3) {
        0 => corner.x = value,
        1 => corner.y = value,
        _ => *corner = Point::new(value, outside(random)),
    }
}

/// The book's bytes with a corner in which something is wrong, and then anything.
fn wrong_corner(random: &mut Random, what: &'static str, book: PlanBook, at: (usize, usize), number: i32) -> Damaged {
    let whole = Whole::of(book);
    let place = whole.corner(at.0, at.1);
    made(what, then_anything(random, &whole.bytes, place + CORNER_LENGTH), number, place)
}

fn outside_its_range(random: &mut Random) -> Damaged {
    let mut book = Whole::any(random).book;
    let (i, j) = some_corner(random, &book);
    put_outside(random, &mut book.routes[i].corners[j]);
    wrong_corner(random, "coordinate outside its range", book, (i, j), 8)
}

/// A corner outside the range that goes straight on, or slopes from the one before: 8 comes before 13.
fn outside_and_no_turn(random: &mut Random) -> Damaged {
    let mut book = Whole::any(random).book;
    let i = random.below(book.routes.len());
    let length = 3 + random.below(4);
    book.routes[i].corners = chain(random, length);
    count(&mut book);
    let j = 2 + random.below(length - 2);
    let (other, last) = (book.routes[i].corners[j - 2], book.routes[i].corners[j - 1]);
    let value = outside(random);
    book.routes[i].corners[j] = match random.below(3) {
        0 => Point::new(value, outside(random)),
        _ if other.x == last.x => Point::new(last.x, value),
        _ => Point::new(value, last.y),
    };
    wrong_corner(random, "coordinate outside its range, and no turn", book, (i, j), 8)
}

/// Replaces a corner, not the first, of some route of the book by what `change` makes of those before it, which are at least so
/// many; or puts one in.
fn changed_corner(
    random: &mut Random,
    what: &'static str,
    before: usize,
    change: impl Fn(&mut Random, &[Point]) -> Point,
) -> Damaged {
    let mut book = Whole::any(random).book;
    let i = random.below(book.routes.len());
    if book.routes[i].corners.len() <= before {
        let length = before + 1 + random.below(3);
        book.routes[i].corners = chain(random, length);
    }
    let length = book.routes[i].corners.len();
    let j = before + random.below(length - before);
    let corner = change(random, &book.routes[i].corners[..j]);
    if random.once_in(2) && length < MOST_CORNERS {
        book.routes[i].corners.insert(j, corner);
    } else {
        book.routes[i].corners[j] = corner;
    }
    if random.once_in(2) {
        count(&mut book);
    }
    wrong_corner(random, what, book, (i, j), 13)
}

fn corner_twice(random: &mut Random) -> Damaged {
    changed_corner(random, "corner twice", 1, |_, before| before[before.len() - 1])
}

/// A coordinate in range that is not this one.
fn other_value(random: &mut Random, value: i32) -> i32 {
    let step = random.from(1, 1_000);
    if value > 0 { value - step } else { value + step }
}

fn sloped(random: &mut Random) -> Damaged {
    changed_corner(random, "corner off the lines of the one before", 1, |random, before| {
        let last = before[before.len() - 1];
        Point::new(other_value(random, last.x), other_value(random, last.y))
    })
}

/// A third corner on one line with two: farther on, between them, behind the first, or the first again.
fn straight_on(random: &mut Random) -> Damaged {
    changed_corner(random, "three corners on one line", 2, |random, before| {
        let (other, last) = (before[before.len() - 2], before[before.len() - 1]);
        let back = random.once_in(3);
        match other.x == last.x {
            _ if back => other,
            true => Point::new(last.x, other_value(random, last.y)),
            false => Point::new(other_value(random, last.x), last.y),
        }
    })
}

/// A count other than this one.
fn other_count(random: &mut Random, count: u16) -> u16 {
    match random.below(4) {
        0 => count.wrapping_add(1),
        1 => count.wrapping_sub(1),
        2 => count ^ 0x100,
        _ => count ^ (1 + random.below(65_535) as u16),
    }
}

fn wrong_runs(random: &mut Random) -> Damaged {
    let mut book = whole_book(random);
    book.runs = other_count(random, book.runs);
    made("wrong number of runs", book.bytes(), 14, 0)
}

fn wrong_corners(random: &mut Random) -> Damaged {
    let mut whole = Whole::any(random);
    let i = random.below(whole.book.routes.len());
    whole.book.routes[i].count = other_count(random, whole.book.routes[i].count);
    made("wrong number of corners", whole.book.bytes(), 14, whole.route(i))
}

/// A route with no corner, whether its count says so or not.
fn no_corner(random: &mut Random) -> Damaged {
    let mut book = Whole::any(random).book;
    let i = random.below(book.routes.len());
    book.routes[i].corners.clear();
    count(&mut book);
    if random.once_in(3) {
        book.routes[i].count = random.word() as u16;
    }
    let whole = Whole::of(book);
    made("route with no corner", whole.bytes.clone(), 14, whole.route(i))
}

fn wrong_total(random: &mut Random) -> Damaged {
    let mut whole = Whole::of(whole_book(random));
    whole.book.total = other_count(random, whole.book.total);
    made("wrong total", whole.book.bytes(), 14, whole.end())
}

/// A route left out with its corners, or put in once more; the other counts may be those of the routes that are there.
fn route_missing(random: &mut Random) -> Damaged {
    let mut book = Whole::any(random).book;
    let runs = book.runs;
    let i = random.below(book.routes.len());
    if random.once_in(2) || book.routes.len() == MOST_RUNS {
        book.routes.remove(i);
    } else {
        let again: RouteRecord = book.routes[i].clone();
        book.routes.insert(i, again);
    }
    if random.once_in(2) {
        count(&mut book);
    }
    book.runs = runs;
    made("a route left out or put in", book.bytes(), 14, 0)
}

fn last_corner_missing(random: &mut Random) -> Damaged {
    let mut book = Whole::any(random).book;
    let i = random.below(book.routes.len());
    book.routes[i].corners.pop();
    if random.once_in(2) {
        book.total = book.corners() as u16;
    }
    let whole = Whole::of(book);
    made("a route's last corner left out", whole.bytes.clone(), 14, whole.route(i))
}

/// The counts of a book in its order: the head's, each route's, the end's.
fn counts(book: &mut PlanBook) -> Vec<&mut u16> {
    let PlanBook { runs, routes, total, .. } = book;
    let routes = routes.iter_mut().map(|route| &mut route.count);
    std::iter::once(runs).chain(routes).chain(std::iter::once(total)).collect()
}

fn spoil_some_count(random: &mut Random, book: &mut PlanBook) -> usize {
    let mut counts = counts(book);
    let at = random.below(counts.len());
    *counts[at] = other_count(random, *counts[at]);
    at
}

/// Two counts that are wrong: the first in the book's order is told, at the record that carries it.
fn two_counts(random: &mut Random) -> Damaged {
    let mut whole = Whole::any(random);
    let places: Vec<usize> = whole.records.iter().filter(|record| record.1 != CORNER).map(|record| record.0).collect();
    let first = spoil_some_count(random, &mut whole.book);
    let mut second = first;
    while second == first {
        second = random.below(places.len());
    }
    let mut counts = counts(&mut whole.book);
    *counts[second] = other_count(random, *counts[second]);
    made("two wrong counts", whole.book.bytes(), 14, places[first.min(second)])
}

/// A wrong count, and a record that is wrong before it or behind it: the record is told.
fn count_and_record(random: &mut Random) -> Damaged {
    let mut book = Whole::any(random).book;
    let (i, j) = some_corner(random, &book);
    if random.once_in(3) {
        spoil_some_count(random, &mut book);
        let whole = Whole::of(book);
        let place = whole.behind_head(random);
        return made("wrong count, and no end", whole.bytes[..place].to_vec(), 12, place);
    }
    put_outside(random, &mut book.routes[i].corners[j]);
    spoil_some_count(random, &mut book);
    let whole = Whole::of(book);
    made("wrong count, and coordinate outside its range", whole.bytes.clone(), 8, whole.corner(i, j))
}

/// A corner outside the range and another that is no turn, in one route and in this order or the other: the first is told.
fn two_corners(random: &mut Random, turn_first: bool) -> Damaged {
    let mut book = Whole::any(random).book;
    let i = random.below(book.routes.len());
    let length = 4 + random.below(20);
    let mut corners = chain(random, length);
    let a = 1 + random.below(length - 3);
    let b = a + 2 + random.below(length - a - 2);
    let (turn, coordinate) = if turn_first { (a, b) } else { (b, a) };
    corners[turn] = corners[turn - 1];
    put_outside(random, &mut corners[coordinate]);
    book.routes[i] = route(book.routes[i].run, book.routes[i].meets, book.routes[i].centre, corners);
    if random.once_in(2) {
        count(&mut book);
    }
    let whole = Whole::of(book);
    let (what, number) = if turn_first { ("13, then 8", 13) } else { ("8, then 13", 8) };
    made(what, whole.bytes.clone(), number, whole.corner(i, a))
}

/// A 128th corner or a 33rd route that is the first wrong record, or the second behind a coordinate outside its range.
fn limit_and_coordinate(random: &mut Random) -> Damaged {
    let mut book = Whole::any(random).book;
    let i = random.below(book.routes.len());
    let length = MOST_CORNERS + 1 + random.below(3);
    let mut corners = chain(random, length);
    let j =
        if random.once_in(2) { random.below(MOST_CORNERS) } else { MOST_CORNERS + random.below(length - MOST_CORNERS) };
    put_outside(random, &mut corners[j]);
    book.routes[i] = route(book.routes[i].run, book.routes[i].meets, book.routes[i].centre, corners);
    count(&mut book);
    let whole = Whole::of(book);
    if j < MOST_CORNERS {
        made("8, then a 128th corner", whole.bytes.clone(), 8, whole.corner(i, j))
    } else {
        made("128th corner, and 8", whole.bytes.clone(), 12, whole.corner(i, MOST_CORNERS))
    }
}

/// The bytes of a route's record and of its corners, in a set of kinds.
fn route_in(kinds: Kinds, record: &RouteRecord) -> Vec<u8> {
    let centre = if kinds == Kinds::Newer { record.centre } else { 0 };
    let routes = vec![RouteRecord { centre, ..record.clone() }];
    let book = PlanBook { kinds, job: 0, runs: 1, trench: 0, saved: 0, pits: 0, last: 0, routes, total: 0 };
    let bytes = book.bytes();
    bytes[HEAD_LENGTH..bytes.len() - END_LENGTH].to_vec()
}

/// The head of the other set before routes that are all of one: the first of them is told.
fn head_of_the_other_set(random: &mut Random) -> Damaged {
    let mut whole = Whole::any(random);
    whole.bytes[0] = whole.book.kinds.other().head();
    let from = HEAD_LENGTH + 1 + random.below(whole.book.kinds.route_length());
    made("head of the other set", then_anything(random, &whole.bytes, from), 12, HEAD_LENGTH)
}

/// One route of the other set, whole in itself, or cut behind its kind.
fn route_of_the_other_set(random: &mut Random) -> Damaged {
    let whole = Whole::any(random);
    let i = random.below(whole.book.routes.len());
    let (from, to) = (whole.route(i), whole.book.places()[i + 1]);
    let other = route_in(whole.book.kinds.other(), &whole.book.routes[i]);
    let changed = [&whole.bytes[..from], &other, &whole.bytes[to..]].concat();
    let cut = from + 1 + random.below(other.len());
    made("route of the other set", then_anything(random, &changed, cut), 12, from)
}

/// A route of the other set put in before another, or as the last; or all routes of the other set from one on.
fn routes_of_the_other_set(random: &mut Random) -> Damaged {
    let whole = Whole::any(random);
    let PlanBook { kinds, routes, .. } = &whole.book;
    let i = random.below(routes.len() + 1);
    let place = whole.book.places()[i];
    let bytes = if i < routes.len() && random.once_in(2) {
        let others: Vec<u8> = routes[i..].iter().flat_map(|route| route_in(kinds.other(), route)).collect();
        [&whole.bytes[..place], &others, &whole.bytes[whole.end()..]].concat()
    } else {
        whole.with(place, &route_in(kinds.other(), random.pick(routes)))
    };
    made("routes of the other set", bytes, 12, place)
}

/// A route's kind changed to that of the other set, its bytes left as they are.
fn kind_of_the_other_set(random: &mut Random) -> Damaged {
    let mut whole = Whole::any(random);
    let i = random.below(whole.book.routes.len());
    let place = whole.route(i);
    whole.bytes[place] = whole.book.kinds.other().route();
    made("other set's kind on a route", whole.bytes, 12, place)
}

fn second_head_of_the_other_set(random: &mut Random) -> Damaged {
    let whole = Whole::any(random);
    let place = whole.behind_head(random);
    let mut head = whole.bytes[..HEAD_LENGTH].to_vec();
    head[0] = whole.book.kinds.other().head();
    let from = place + 1 + random.below(HEAD_LENGTH);
    made("second head, of the other set", then_anything(random, &whole.with(place, &head), from), 12, place)
}

/// A route of the other set, and a corner that is wrong before it or behind it: the first is told.
fn other_set_and_corner(random: &mut Random) -> Damaged {
    let mut book = Whole::any(random).book;
    let again = book.routes[0].clone();
    if book.routes.len() < MOST_RUNS {
        book.routes.push(again);
        count(&mut book);
    }
    let (at, (i, j)) = (1 + random.below(book.routes.len() - 1), some_corner(random, &book));
    put_outside(random, &mut book.routes[i].corners[j]);
    let whole = Whole::of(book);
    let (from, to) = (whole.route(at), whole.book.places()[at + 1]);
    let other = route_in(whole.book.kinds.other(), &whole.book.routes[at]);
    let bytes = [&whole.bytes[..from], &other, &whole.bytes[to..]].concat();
    if i < at {
        made("8, then a route of the other set", bytes, 8, whole.corner(i, j))
    } else {
        made("route of the other set, then 8", bytes, 12, from)
    }
}
