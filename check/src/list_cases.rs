//! Lists of runs to try a writer of job books with (02, C-15): a table of every limit from both sides, well-formed lists, lists
//! made wrong in one way and in two at once, and numbers with no design.

use std::sync::LazyLock;

use crate::book_cases::Made;
use crate::damage::outside;
use crate::generate::{self, KINDS};
use crate::job::{FAR, MOST_RUNS, TOP_NUMBER};
use crate::job_list::{RUN_NUMBERS, book_length, list_of};
use crate::random::Random;
use crate::refusal::Refusal;

/// A list to try.
#[derive(Clone, Debug)]
pub struct ListCase {
    /// One word that says how the list was made.
    pub label: String,
    /// The job number.
    pub number: u32,
    /// The numbers.
    pub list: Vec<i32>,
    /// The length of a buffer to try it with.
    pub room: usize,
    /// What is due by the way the list was made, where the buffer is long enough.
    pub made: Made,
}

impl ListCase {
    /// The least buffer for the runs of this list.
    pub fn limit(&self) -> usize {
        book_length(self.list.len() / RUN_NUMBERS)
    }

    /// What is due by the way the list was made, with a buffer of so many bytes.
    pub fn due(&self, room: usize) -> Made {
        match self.made {
            Made::Whole if room < self.limit() => refused(2, 0),
            made => made,
        }
    }
}

fn refused(number: i32, place: usize) -> Made {
    Made::Refused(Refusal { number, place })
}

/// The n-th list of a seed. The first are those of the table, the same for every seed.
pub fn list_case(seed: u64, n: u64) -> ListCase {
    if let Some(case) = TABLE.get(n as usize) {
        return case.clone();
    }
    let n = n as usize - TABLE.len();
    let (turn, round) = (n % (1 + WAYS.len()), n / (1 + WAYS.len()));
    let mut random = Random::nth(seed, n as u64);
    let (label, (list, made), buffer) = match turn.checked_sub(1).map(|way| WAYS[way]) {
        None => (EVERY_COUNT, (whole(&mut random, round % (MOST_RUNS + 1)), Made::Whole), Buffer::Enough),
        Some((label, make, buffer)) => (label, make(&mut random), buffer),
    };
    let mut case = ListCase { label: label.to_string(), number: job_number(&mut random), list, room: 0, made };
    case.room = buffer.room(&mut random, case.limit());
    case
}

fn job_number(random: &mut Random) -> u32 {
    let any = random.word() as u32;
    *random.pick(&[0, 1, 255, 256, 1 << 31, u32::MAX, any, any])
}

// The table.

/// Lists at each limit from both sides. What is due was worked out by hand.
pub static TABLE: LazyLock<Vec<ListCase>> =
    LazyLock::new(|| [numbers_in_table(), coordinates(), points(), lengths(), buffers(), two_at_once()].concat());

/// A row of the table.
fn row(label: &str, list: Vec<i32>, room: usize, made: Made) -> ListCase {
    ListCase { label: label.to_string(), number: 0xFEDC_BA98, list, room, made }
}

/// Runs with these numbers, in range but for that.
fn with_numbers(numbers: &[i32]) -> Vec<i32> {
    numbers.iter().zip(0..).flat_map(|(&number, i)| [number, -7 - i, 300 + i, 30_000 * i, -1]).collect()
}

/// So many runs, numbered from 1.
fn runs(count: i32) -> Vec<i32> {
    with_numbers(&(1..=count).collect::<Vec<_>>())
}

/// The list with one number changed: that of this index in its run.
fn with(mut list: Vec<i32>, run: usize, at: usize, value: i32) -> Vec<i32> {
    list[RUN_NUMBERS * run + at] = value;
    list
}

fn numbers_in_table() -> Vec<ListCase> {
    let right: [(&str, &[i32]); 5] = [
        ("number-one", &[1]),
        ("number-9999", &[9_999]),
        ("number-next", &[5, 6, 7]),
        ("number-far-apart", &[1, 256, 9_999]),
        ("number-9999-last", &[9_997, 9_998, 9_999]),
    ];
    let wrong: [(&str, &[i32], usize); 19] = [
        ("number-zero", &[0], 0),
        ("number-minus-one", &[-1], 0),
        ("number-10000", &[10_000], 0),
        ("number-least", &[i32::MIN], 0),
        ("number-greatest", &[i32::MAX], 0),
        ("number-65537", &[65_537], 0),
        ("number-minus-65535", &[-65_535], 0),
        ("number-zero-second", &[1, 0, 3], 1),
        ("number-minus-one-second", &[1, -1, 3], 1),
        ("number-65538-second", &[1, 65_538, 3], 1),
        ("number-least-second", &[1, i32::MIN, 3], 1),
        ("number-10000-last", &[1, 2, 10_000], 2),
        ("number-greatest-last", &[1, 2, i32::MAX], 2),
        ("number-equal", &[5, 5, 6], 1),
        ("number-equal-last", &[5, 6, 6], 2),
        ("number-falling", &[5, 4, 6], 1),
        ("number-falling-last", &[1, 9_999, 9_998], 2),
        ("number-falling-by-byte", &[256, 255], 1),
        ("number-one-twice", &[1, 1], 1),
    ];
    let right = right.iter().map(|(label, numbers)| row(label, with_numbers(numbers), 65, Made::Whole));
    let wrong = wrong.iter().map(|(label, numbers, run)| row(label, with_numbers(numbers), 65, refused(7, *run)));
    right.chain(wrong).collect()
}

fn coordinates() -> Vec<ListCase> {
    let values = [
        ("highest", FAR, Made::Whole),
        ("lowest", -FAR, Made::Whole),
        ("above", FAR + 1, refused(8, 1)),
        ("below", -FAR - 1, refused(8, 1)),
        ("greatest", i32::MAX, refused(8, 1)),
        ("least", i32::MIN, refused(8, 1)),
    ];
    let fields = ["first-x", "first-y", "second-x", "second-y"];
    let of_field = |(field, at): (&str, usize)| {
        values.map(|(what, value, made)| row(&format!("{field}-{what}"), with(runs(3), 1, at, value), 65, made))
    };
    let mut rows: Vec<ListCase> = fields.into_iter().zip(1..).flat_map(of_field).collect();
    rows.push(row("first-run-above", with(runs(2), 0, 1, FAR + 1), 65, refused(8, 0)));
    rows.push(row("last-run-below", with(runs(32), 31, 4, -FAR - 1), 616, refused(8, 31)));
    rows
}

/// The list with both points of a run replaced.
fn between(list: Vec<i32>, run: usize, first: (i32, i32), second: (i32, i32)) -> Vec<i32> {
    let points = [first.0, first.1, second.0, second.1];
    (1..).zip(points).fold(list, |list, (at, value)| with(list, run, at, value))
}

/// Two points that coincide, and such that differ in as little as they can.
fn points() -> Vec<ListCase> {
    let right = [
        ("points-x-one-more", (5, 5), (6, 5)),
        ("points-x-one-less", (5, 5), (4, 5)),
        ("points-y-one-more", (5, 5), (5, 6)),
        ("points-y-one-less", (5, 5), (5, 4)),
        ("points-exchanged", (5, 6), (6, 5)),
        ("points-opposite", (-5, -5), (5, 5)),
        ("points-a-high-half-apart", (5, 5), (65_541, 5)),
        ("points-highest-but-one", (FAR, FAR), (FAR, FAR - 1)),
    ];
    let wrong = [
        ("points-coincide", (5, 5), 17),
        ("points-coincide-zero", (0, 0), 17),
        ("points-coincide-highest", (FAR, FAR), 17),
        ("points-coincide-lowest", (-FAR, -FAR), 17),
        ("points-coincide-above", (FAR + 1, 5), 8),
        ("points-coincide-below", (5, -FAR - 1), 8),
        ("points-coincide-least", (i32::MIN, i32::MIN), 8),
    ];
    let right = right.map(|(label, first, second)| row(label, between(runs(3), 1, first, second), 65, Made::Whole));
    let wrong = wrong.map(|(label, at, number)| row(label, between(runs(3), 1, at, at), 65, refused(number, 1)));
    let of_run = |count: i32, run: usize, label: &str| {
        row(label, between(runs(count), run, (-7, 300), (-7, 300)), 616, refused(17, run))
    };
    let others = [of_run(1, 0, "points-of-one-run"), of_run(3, 0, "points-of-first"), of_run(32, 31, "points-of-last")];
    right.into_iter().chain(wrong).chain(others).collect()
}

fn lengths() -> Vec<ListCase> {
    let mut rows: Vec<ListCase> = [0, 1, 2, 31, 32]
        .map(|count| row(&format!("runs-{count}"), runs(count), book_length(count as usize), Made::Whole))
        .to_vec();
    rows.extend([33, 34].map(|count| row(&format!("runs-{count}"), runs(count), 700, refused(9, 32))));
    for length in [1, 2, 3, 4, 6, 7, 8, 9, 159, 161, 164, 166] {
        rows.push(row(&format!("length-{length}"), runs(34)[..length].to_vec(), 700, refused(3, length)));
    }
    rows
}

fn buffers() -> Vec<ListCase> {
    let tried: [(i32, &[usize]); 4] =
        [(0, &[0, 1, 7, 8, 9]), (1, &[0, 8, 26, 27, 28]), (3, &[1, 46, 64, 65, 66]), (32, &[597, 615, 616, 617, 700])];
    let of = |count: i32, room: usize| row(&format!("runs-{count}-in-{room}"), runs(count), room, Made::Whole);
    tried.iter().flat_map(|&(count, rooms)| rooms.iter().map(move |&room| of(count, room))).collect()
}

fn two_at_once() -> Vec<ListCase> {
    let many = |first: i32| with(runs(33), 0, 0, first);
    let nowhere = |list: Vec<i32>, run: usize| between(list, run, (9, 9), (9, 9));
    vec![
        row("two-alone", with_numbers(&[1]), 26, Made::Whole),
        row("seven-alone", with_numbers(&[0]), 27, refused(7, 0)),
        row("two-and-seven", with_numbers(&[0]), 26, refused(7, 0)),
        row("two-and-seven-last", with_numbers(&[1, 2, 2]), 64, refused(7, 2)),
        row("two-and-eight", with(runs(3), 2, 4, FAR + 1), 64, refused(8, 2)),
        row("two-and-nine", runs(33), 634, refused(9, 32)),
        row("two-and-three", runs(2)[..9].to_vec(), 0, refused(3, 9)),
        row("three-and-seven", with(runs(2), 0, 0, 0)[..6].to_vec(), 65, refused(3, 6)),
        row("three-and-eight", with(runs(2), 0, 1, FAR + 1)[..9].to_vec(), 65, refused(3, 9)),
        row("three-and-nine", runs(34)[..166].to_vec(), 700, refused(3, 166)),
        row("nine-and-seven", many(0), 700, refused(9, 32)),
        row("nine-and-seven-last", with(runs(33), 32, 0, 5), 700, refused(9, 32)),
        row("nine-and-eight", with(runs(33), 0, 1, i32::MIN), 700, refused(9, 32)),
        row("seven-and-eight", with(with(runs(3), 1, 0, 1), 1, 3, FAR + 1), 65, refused(7, 1)),
        row("seven-then-eight", with(with(runs(3), 0, 0, 0), 1, 1, FAR + 1), 65, refused(7, 0)),
        row("eight-then-seven", with(with(runs(3), 0, 1, FAR + 1), 1, 0, 0), 65, refused(8, 0)),
        row("seven-then-seven", with_numbers(&[3, 2, 1]), 65, refused(7, 1)),
        row("eight-then-eight", with(with(runs(3), 1, 4, i32::MAX), 2, 1, i32::MIN), 65, refused(8, 1)),
        row("two-and-seventeen", nowhere(runs(3), 2), 64, refused(17, 2)),
        row("three-and-seventeen", nowhere(runs(2), 0)[..9].to_vec(), 65, refused(3, 9)),
        row("nine-and-seventeen", nowhere(runs(33), 0), 700, refused(9, 32)),
        row("seven-and-seventeen", nowhere(with(runs(3), 1, 0, 1), 1), 65, refused(7, 1)),
        row("seven-then-seventeen", nowhere(with(runs(3), 0, 0, 0), 1), 65, refused(7, 0)),
        row("seventeen-then-seven", nowhere(with(runs(3), 1, 0, 0), 0), 65, refused(17, 0)),
        row("eight-then-seventeen", nowhere(with(runs(3), 0, 1, FAR + 1), 1), 65, refused(8, 0)),
        row("seventeen-then-eight", nowhere(with(runs(3), 1, 1, FAR + 1), 0), 65, refused(17, 0)),
        row("seventeen-then-seventeen", nowhere(nowhere(runs(3), 2), 1), 65, refused(17, 1)),
    ]
}

// Lists at random.

/// The buffer that a list is made for.
#[derive(Clone, Copy, Debug, PartialEq, Eq)]
enum Buffer {
    /// Long enough, often just so.
    Enough,
    /// Too short.
    Short,
}

impl Buffer {
    fn room(self, random: &mut Random, limit: usize) -> usize {
        let more = random.below(40);
        let less = random.below(limit);
        match self {
            Buffer::Enough => *random.pick(&[limit, limit, limit + 1, limit + more]),
            Buffer::Short => *random.pick(&[limit - 1, limit - 1, 0, less]),
        }
    }
}

type Make = fn(&mut Random) -> (Vec<i32>, Made);

/// What well-formed lists are called that have 0, 1, 2 and so on to 32 runs by turns.
const EVERY_COUNT: &str = "every-count";

/// What lists of more than 34 runs are called. All others have at most 170 numbers and a buffer of at most 700 bytes.
pub const FAR_TOO_MANY: &str = "far-too-many";

/// What each other way to make a list is called, the way, and the buffer.
const WAYS: [(&str, Make, Buffer); 47] = [
    ("full", full, Buffer::Enough),
    ("at-the-ends", at_the_ends, Buffer::Enough),
    ("star", star, Buffer::Enough),
    ("straight", straight, Buffer::Enough),
    ("short", any_runs, Buffer::Short),
    ("low-number", |random| wrong_number(random, low), Buffer::Enough),
    ("high-number", |random| wrong_number(random, high), Buffer::Enough),
    ("wide-number", |random| wrong_number(random, wide), Buffer::Enough),
    ("number-again", number_again, Buffer::Enough),
    ("number-overtaken", number_overtaken, Buffer::Enough),
    ("coordinate", coordinate, Buffer::Enough),
    ("coordinates", coordinates_of_run, Buffer::Enough),
    ("points", nowhere, Buffer::Enough),
    ("points-outside", nowhere_outside, Buffer::Enough),
    ("ragged", ragged, Buffer::Enough),
    ("too-many", |random| too_many(random, 33, 34), Buffer::Enough),
    (FAR_TOO_MANY, |random| too_many(random, 35, 200), Buffer::Enough),
    ("short-and-number", |random| wrong_number(random, any_wrong), Buffer::Short),
    ("short-and-number-again", number_again, Buffer::Short),
    ("short-and-coordinate", coordinate, Buffer::Short),
    ("short-and-points", nowhere, Buffer::Short),
    ("short-and-too-many", |random| too_many(random, 33, 34), Buffer::Short),
    ("short-and-ragged", ragged, Buffer::Short),
    ("number-and-coordinate", |random| number_and(random, spoil_coordinate), Buffer::Enough),
    ("number-and-points", |random| number_and(random, spoil_points), Buffer::Enough),
    ("number-then-coordinate", |random| two_runs(random, spoil_number, spoil_coordinate, 7), Buffer::Enough),
    ("coordinate-then-number", |random| two_runs(random, spoil_coordinate, spoil_number, 8), Buffer::Enough),
    ("number-then-number", |random| two_runs(random, spoil_number, spoil_number, 7), Buffer::Enough),
    ("coordinate-then-coordinate", |random| two_runs(random, spoil_coordinate, spoil_coordinate, 8), Buffer::Enough),
    ("number-then-points", |random| two_runs(random, spoil_number, spoil_points, 7), Buffer::Enough),
    ("coordinate-then-points", |random| two_runs(random, spoil_coordinate, spoil_points, 8), Buffer::Enough),
    ("points-then-number", |random| two_runs(random, spoil_points, spoil_number, 17), Buffer::Enough),
    ("points-then-coordinate", |random| two_runs(random, spoil_points, spoil_coordinate, 17), Buffer::Enough),
    ("points-then-points", |random| two_runs(random, spoil_points, spoil_points, 17), Buffer::Enough),
    ("short-and-two-runs", |random| two_runs(random, spoil_coordinate, spoil_number, 8), Buffer::Short),
    ("ragged-and-number", |random| ragged_and(random, spoil_number), Buffer::Enough),
    ("ragged-and-coordinate", |random| ragged_and(random, spoil_coordinate), Buffer::Enough),
    ("ragged-and-points", |random| ragged_and(random, spoil_points), Buffer::Enough),
    ("ragged-and-too-many", ragged_and_too_many, Buffer::Enough),
    ("too-many-and-number", |random| too_many_and(random, spoil_number), Buffer::Enough),
    ("too-many-and-coordinate", |random| too_many_and(random, spoil_coordinate), Buffer::Enough),
    ("too-many-and-points", |random| too_many_and(random, spoil_points), Buffer::Enough),
    ("extremes", extremes, Buffer::Enough),
    ("near-limits", near_limits, Buffer::Enough),
    ("near-limits-short", near_limits, Buffer::Short),
    ("near-points", near_points, Buffer::Enough),
    ("noise", noise, Buffer::Enough),
];

/// What the ways to make a list are called.
pub fn labels() -> impl Iterator<Item = &'static str> {
    std::iter::once(EVERY_COUNT).chain(WAYS.iter().map(|(label, ..)| *label))
}

/// A number of runs from the least to 32.
fn some_runs(random: &mut Random, least: usize) -> usize {
    let any = least + random.below(MOST_RUNS + 1 - least);
    let few = least + random.below(4);
    *random.pick(&[few, few, any, any, MOST_RUNS])
}

/// A well-formed list of so many runs, or more of them than a job may have: numbers that rise, coordinates in range, points that
/// differ.
fn whole(random: &mut Random, runs: usize) -> Vec<i32> {
    let numbers = match random.below(4) {
        0 => random.rising(runs, 1, TOP_NUMBER),
        1 => (TOP_NUMBER + 1 - runs as i32..=TOP_NUMBER).collect(),
        _ => (1..=runs as i32).collect(),
    };
    let reach = *random.pick(&[2, 300, FAR, FAR]);
    let mut list: Vec<i32> = numbers.iter().flat_map(|&number| [number, 0, 0, 0, 0]).collect();
    redraw(&mut list, || random.from(-reach, reach));
    list
}

/// Draws the coordinates of every run anew, until its points differ.
fn redraw(list: &mut [i32], mut coordinate: impl FnMut() -> i32) {
    for run in list.chunks_exact_mut(RUN_NUMBERS) {
        run[1..].fill_with(&mut coordinate);
        while run[1..3] == run[3..] {
            run[1..].fill_with(&mut coordinate);
        }
    }
}

fn any_runs(random: &mut Random) -> (Vec<i32>, Made) {
    let runs = random.below(MOST_RUNS + 1);
    (whole(random, runs), Made::Whole)
}

fn full(random: &mut Random) -> (Vec<i32>, Made) {
    (whole(random, MOST_RUNS), Made::Whole)
}

/// Every coordinate at an end of its range, or one before it.
fn at_the_ends(random: &mut Random) -> (Vec<i32>, Made) {
    let runs = some_runs(random, 1);
    let mut list = whole(random, runs);
    redraw(&mut list, || *random.pick(&[FAR, -FAR, FAR - 1, 1 - FAR, 0, -1]));
    (list, Made::Whole)
}

/// Every run along a row or a column: its points share their y or their x, and not both.
fn straight(random: &mut Random) -> (Vec<i32>, Made) {
    let runs = some_runs(random, 1);
    let mut list = whole(random, runs);
    for run in list.chunks_exact_mut(RUN_NUMBERS) {
        let same = if run[1] == run[3] || run[2] != run[4] && random.once_in(2) { 1 } else { 2 };
        run[same + 2] = run[same];
    }
    (list, Made::Whole)
}

fn star(random: &mut Random) -> (Vec<i32>, Made) {
    let kind = *random.pick(&KINDS);
    (list_of(&generate::star(random, kind)), Made::Whole)
}

/// The number before that of a run, 0 before the first.
fn number_before(list: &[i32], run: usize) -> i32 {
    if run == 0 { 0 } else { list[RUN_NUMBERS * (run - 1)] }
}

fn low(random: &mut Random, _: i32) -> i32 {
    let any = random.from(i32::MIN, -1);
    *random.pick(&[0, 0, -1, i32::MIN, any])
}

fn high(random: &mut Random, _: i32) -> i32 {
    let any = random.from(TOP_NUMBER + 1, i32::MAX);
    *random.pick(&[TOP_NUMBER + 1, TOP_NUMBER + 1, i32::MAX, any])
}

/// A number whose last 16 bits are those of a right one.
fn wide(random: &mut Random, number: i32) -> i32 {
    let by = 65_536 * random.from(1, 30_000);
    *random.pick(&[number + 65_536, number - 65_536, number + by, number - by])
}

fn any_wrong(random: &mut Random, number: i32) -> i32 {
    let wrong = *random.pick(&[low, high, wide]);
    wrong(random, number)
}

/// A list of which one run is made wrong in a way that has this number.
fn one_wrong(random: &mut Random, number: i32, spoil: impl FnOnce(&mut Random, &mut [i32], usize)) -> (Vec<i32>, Made) {
    let runs = some_runs(random, 1);
    let mut list = whole(random, runs);
    let run = random.below(runs);
    spoil(random, &mut list, run);
    (list, refused(number, run))
}

/// One run with such a number in place of its own.
fn wrong_number(random: &mut Random, wrong: fn(&mut Random, i32) -> i32) -> (Vec<i32>, Made) {
    one_wrong(random, 7, |random, list, run| list[RUN_NUMBERS * run] = wrong(random, list[RUN_NUMBERS * run]))
}

/// One run with the number before it once more, or a lower one.
fn number_again(random: &mut Random) -> (Vec<i32>, Made) {
    let runs = some_runs(random, 2);
    let mut list = whole(random, runs);
    let run = 1 + random.below(runs - 1);
    let before = number_before(&list, run);
    let lower = random.from(1, before);
    list[RUN_NUMBERS * run] = *random.pick(&[before, lower]);
    (list, refused(7, run))
}

/// One run with a number from that behind it up to 9,999: the one behind it is then not above.
fn number_overtaken(random: &mut Random) -> (Vec<i32>, Made) {
    let runs = some_runs(random, 2);
    let mut list = whole(random, runs);
    let run = random.below(runs - 1);
    let behind = list[RUN_NUMBERS * (run + 1)];
    let higher = random.from(behind, TOP_NUMBER);
    list[RUN_NUMBERS * run] = *random.pick(&[behind, higher]);
    (list, refused(7, run + 1))
}

/// Makes the number of a run wrong. The one before it has to be right for this run to be at fault.
fn spoil_number(random: &mut Random, list: &mut [i32], run: usize) {
    let (before, own) = (number_before(list, run), list[RUN_NUMBERS * run]);
    let other = any_wrong(random, own);
    list[RUN_NUMBERS * run] = *random.pick(&[before, 0, other, other]);
}

/// Puts one coordinate of a run outside its range.
fn spoil_coordinate(random: &mut Random, list: &mut [i32], run: usize) {
    list[RUN_NUMBERS * run + 1 + random.below(4)] = outside(random);
}

fn coordinate(random: &mut Random) -> (Vec<i32>, Made) {
    one_wrong(random, 8, spoil_coordinate)
}

/// The coordinates of a run.
fn points_of(list: &mut [i32], run: usize) -> &mut [i32] {
    &mut list[RUN_NUMBERS * run + 1..RUN_NUMBERS * (run + 1)]
}

/// All coordinates of a run outside their range.
fn coordinates_of_run(random: &mut Random) -> (Vec<i32>, Made) {
    one_wrong(random, 8, |random, list, run| points_of(list, run).fill_with(|| outside(random)))
}

/// Puts both points of a run on one of them.
fn spoil_points(random: &mut Random, list: &mut [i32], run: usize) {
    let from = 2 * random.below(2);
    points_of(list, run).copy_within(from..from + 2, 2 - from);
}

/// A run whose points coincide.
fn nowhere(random: &mut Random) -> (Vec<i32>, Made) {
    let runs = some_runs(random, 1);
    let mut list = whole(random, runs);
    let any = random.below(runs);
    let run = *random.pick(&[0, any, any, runs - 1]);
    spoil_points(random, &mut list, run);
    (list, refused(17, run))
}

/// A run whose points coincide outside their range.
fn nowhere_outside(random: &mut Random) -> (Vec<i32>, Made) {
    one_wrong(random, 8, |random, list, run| {
        spoil_coordinate(random, list, run);
        let points = points_of(list, run);
        let from = if points[..2].iter().all(|value| (-FAR..=FAR).contains(value)) { 2 } else { 0 };
        points.copy_within(from..from + 2, 2 - from);
    })
}

/// Leaves out 1 to 4 of the last numbers, or adds as many.
fn ragged_end(random: &mut Random, list: &mut Vec<i32>) -> Made {
    let count = 1 + random.below(4);
    if random.once_in(2) && !list.is_empty() {
        list.truncate(list.len() - count);
    } else {
        let any = random.word() as i32;
        let value = *random.pick(&[1, 0, -1, TOP_NUMBER, any]);
        list.resize(list.len() + count, value);
    }
    refused(3, list.len())
}

fn ragged(random: &mut Random) -> (Vec<i32>, Made) {
    let runs = some_runs(random, 0);
    let mut list = whole(random, runs);
    let made = ragged_end(random, &mut list);
    (list, made)
}

/// More runs than 32, right but for that.
fn too_many(random: &mut Random, least: usize, most: usize) -> (Vec<i32>, Made) {
    let runs = least + random.below(most + 1 - least);
    (whole(random, runs), refused(9, MOST_RUNS))
}

/// Makes a run of a list wrong.
type Spoil = fn(&mut Random, &mut [i32], usize);

/// A run whose number is wrong, and something else besides.
fn number_and(random: &mut Random, spoil: Spoil) -> (Vec<i32>, Made) {
    one_wrong(random, 7, |random, list, run| {
        spoil_number(random, list, run);
        spoil(random, list, run);
    })
}

/// Two runs that are wrong: the first is told, with this number.
fn two_runs(random: &mut Random, first: Spoil, second: Spoil, number: i32) -> (Vec<i32>, Made) {
    let runs = some_runs(random, 2);
    let mut list = whole(random, runs);
    let run = random.below(runs - 1);
    let later = run + 1 + random.below(runs - 1 - run);
    second(random, &mut list, later);
    first(random, &mut list, run);
    (list, refused(number, run))
}

fn ragged_and(random: &mut Random, spoil: Spoil) -> (Vec<i32>, Made) {
    let runs = some_runs(random, 2);
    let mut list = whole(random, runs);
    spoil(random, &mut list, 0);
    let made = ragged_end(random, &mut list);
    (list, made)
}

fn ragged_and_too_many(random: &mut Random) -> (Vec<i32>, Made) {
    let (mut list, _) = too_many(random, 33, 34);
    list.truncate(list.len() - 1 - random.below(4));
    if list.len() < RUN_NUMBERS * (MOST_RUNS + 1) && random.once_in(2) {
        list.extend([1; RUN_NUMBERS]);
    }
    let made = refused(3, list.len());
    (list, made)
}

fn too_many_and(random: &mut Random, spoil: Spoil) -> (Vec<i32>, Made) {
    let (mut list, made) = too_many(random, 33, 34);
    let runs = list.len() / RUN_NUMBERS;
    let run = *random.pick(&[0, MOST_RUNS - 1, MOST_RUNS, runs - 1]);
    spoil(random, &mut list, run);
    (list, made)
}

/// Few runs of nothing but the ends of 32 bits, -1, 0 and 1.
fn extremes(random: &mut Random) -> (Vec<i32>, Made) {
    let length = random.below(4 * RUN_NUMBERS);
    ((0..length).map(|_| *random.pick(&[i32::MIN, i32::MAX, -1, 0, 1])).collect(), Made::Anyhow)
}

/// A list in which some numbers are replaced by others at or past the limits.
fn near_limits(random: &mut Random) -> (Vec<i32>, Made) {
    let runs = some_runs(random, 0);
    let mut list = whole(random, runs);
    for _ in 0..random.below(4).min(list.len()) {
        let at = random.below(list.len());
        let own = list[at];
        let numbers = [0, 1, TOP_NUMBER, TOP_NUMBER + 1, own.saturating_sub(1), own.saturating_add(1)];
        let coordinates = [FAR, FAR + 1, -FAR, -FAR - 1, i32::MIN, i32::MAX];
        list[at] = *random.pick(if at % RUN_NUMBERS == 0 { &numbers } else { &coordinates });
    }
    if random.once_in(20) {
        ragged_end(random, &mut list);
    }
    (list, Made::Anyhow)
}

/// A list in which the second points of some runs are the first ones, or beside them.
fn near_points(random: &mut Random) -> (Vec<i32>, Made) {
    let runs = some_runs(random, 1);
    let mut list = whole(random, runs);
    for run in list.chunks_exact_mut(RUN_NUMBERS) {
        if random.once_in(4) {
            let [dx, dy] = [0; 2].map(|_| *random.pick(&[0, 0, 0, 1, -1]));
            (run[3], run[4]) = ((run[1] + dx).clamp(-FAR, FAR), (run[2] + dy).clamp(-FAR, FAR));
        }
    }
    (list, Made::Anyhow)
}

/// Numbers with no design, of any length up to 170; the first of many are small enough to be right.
fn noise(random: &mut Random) -> (Vec<i32>, Made) {
    let most = *random.pick(&[3, 34, 34]);
    let length = RUN_NUMBERS * random.below(most + 1);
    let mut list: Vec<i32> = (0..length).map(|_| random.word() as i32).collect();
    let right = random.below(MOST_RUNS);
    list.iter_mut().take(RUN_NUMBERS * right).for_each(|number| *number %= TOP_NUMBER + 1);
    if random.once_in(4) {
        list.truncate(length.saturating_sub(random.below(RUN_NUMBERS)));
    }
    (list, Made::Anyhow)
}
