//! Job books that something damaged or cut, or that were typed wrong, each with the refusal that documents 01 and 02 give for it. The
//! refusal follows from how the damage was done, and not from reading the book: so it is a second opinion on every reader.

use std::ops::Range;

use crate::book::{END, JOB_HEAD, RUN, job_bytes};
use crate::generate::{self, KINDS, numbered};
use crate::job::{FAR, Job, MOST_RUNS, Point, Run, TOP_NUMBER};
use crate::leases::{self, LAYOUTS};
use crate::random::Random;
use crate::refusal::{Refusal, record_length};

/// A book that is to be refused.
#[derive(Clone, Debug)]
pub struct Damaged {
    /// The bytes.
    pub bytes: Vec<u8>,
    /// The refusal that is due.
    pub refusal: Refusal,
    /// What was done.
    pub what: &'static str,
}

/// The offset of the record of this index: 0 is the head, 1 the first run.
fn offset(record: usize) -> usize {
    if record == 0 { 0 } else { 5 + 19 * (record - 1) }
}

/// The number of ways in which `damaged` damages a book.
pub const WAYS: usize = 30;

/// Those of them in which some run goes nowhere, whether that is what is told or not.
pub const NOWHERE: Range<usize> = 20..30;

/// A whole job damaged in the way of this number, below `WAYS`.
pub fn damaged(random: &mut Random, way: usize) -> Damaged {
    let job = if random.once_in(8) { generate::full_star(random) } else { star_or_lease(random) };
    let bytes = job_bytes(&job);
    let runs = job.runs.len();
    let end = offset(runs + 1);
    let some_run = 1 + random.below(runs);
    match way {
        0 => cut(random, bytes, runs),
        1 => unknown_kind(random, bytes, runs),
        2 => unknown_kind_last(random, bytes, runs),
        3 => no_head(random, &bytes),
        4 => second_head(random, bytes, runs),
        5 => second_head_cut(random, bytes, runs),
        6 => after_end(random, bytes),
        7 => wrong_count(random, bytes, end, runs),
        8 => blank(random, &bytes),
        9 => wrong_number(random, job, some_run, false),
        10 => wrong_number(random, job, some_run, true),
        11 => wrong_coordinate(random, job, some_run),
        12 => one_run_too_many(random, false, false),
        13 => one_run_too_many(random, true, false),
        14 => head_for_run(random, bytes, some_run),
        15 => end_for_run(random, job, some_run),
        16 => other_kind_for_end(random, bytes, end),
        17 => other_kind_for_head(random, bytes),
        18 => no_star(random),
        19 => no_end(random, bytes, end),
        20 => nowhere(random, job),
        21 => nowhere_then_anything(random, job, some_run),
        22 => nowhere_outside(random, job, some_run),
        23 => nowhere_and_number(random, job, some_run),
        24 => nowhere_then_other(random, job, some_run),
        25 => other_then_nowhere(random, job),
        26 => nowhere_and_count(random, job, some_run),
        27 => nowhere_in_no_star(random),
        28 => one_run_too_many(random, false, true),
        _ => nowhere_not_looked_at(random, job, some_run),
    }
}

fn star_or_lease(random: &mut Random) -> Job {
    let (kind, layout) = (*random.pick(&KINDS), *random.pick(&LAYOUTS));
    if random.once_in(2) { generate::star(random, kind) } else { leases::lease(random, layout) }
}

/// The bytes up to a place, and then anything: what comes behind the record at fault does not matter.
pub(crate) fn then_anything(random: &mut Random, bytes: &[u8], place: usize) -> Vec<u8> {
    let mut changed = bytes[..place].to_vec();
    match random.below(3) {
        0 => changed.extend(&bytes[place..]),
        1 => {}
        _ => changed.extend((0..random.below(60)).map(|_| random.word() as u8)),
    }
    changed
}

/// A book that is to be refused in this way.
pub(crate) fn made(what: &'static str, bytes: Vec<u8>, number: i32, place: usize) -> Damaged {
    Damaged { bytes, refusal: Refusal { number, place }, what }
}

fn cut(random: &mut Random, bytes: Vec<u8>, runs: usize) -> Damaged {
    let length = random.below(bytes.len());
    let place = (0..=runs + 1).map(offset).filter(|&place| place <= length).max().expect("the head's place is 0");
    made("cut", bytes[..length].to_vec(), 3, place)
}

fn no_end(random: &mut Random, bytes: Vec<u8>, end: usize) -> Damaged {
    if random.once_in(8) {
        return made("empty", Vec::new(), 3, 0);
    }
    made("no end", bytes[..end].to_vec(), 3, end)
}

fn some_unknown_kind(random: &mut Random) -> u8 {
    let near = [0x00, 0xFF, 0x47, 0x49, 0x51, 0x53, 0x59, 0x5B, 0x50, 0x4E, 0x43, 0x68, 0x72, 0x7A, 0x4F];
    let kind = if random.once_in(2) { *random.pick(&near) } else { random.word() as u8 };
    if record_length(kind).is_some() { 0 } else { kind }
}

fn unknown_kind(random: &mut Random, mut bytes: Vec<u8>, runs: usize) -> Damaged {
    let place = offset(random.below(runs + 2));
    bytes[place] = some_unknown_kind(random);
    let bytes = then_anything(random, &bytes, place + 1);
    made("unknown kind", bytes, 4, place)
}

fn unknown_kind_last(random: &mut Random, bytes: Vec<u8>, runs: usize) -> Damaged {
    let place = offset(random.below(runs + 2));
    let mut bytes = bytes[..place].to_vec();
    bytes.push(some_unknown_kind(random));
    made("unknown kind as last byte", bytes, 4, place)
}

fn no_head(random: &mut Random, bytes: &[u8]) -> Damaged {
    let run_first = then_anything(random, &bytes[5..], 19);
    if random.once_in(3) {
        let mut end_first = vec![END];
        end_first.extend(&run_first[1..]);
        return made("end in place of a head", end_first, 5, 0);
    }
    made("no head", run_first, 5, 0)
}

fn second_head(random: &mut Random, bytes: Vec<u8>, runs: usize) -> Damaged {
    let place = offset(1 + random.below(runs + 1));
    let mut changed = bytes[..place].to_vec();
    changed.extend(&bytes[..5]);
    changed.extend(&bytes[place..]);
    let changed = then_anything(random, &changed, place + 5);
    made("second head", changed, 5, place)
}

fn second_head_cut(random: &mut Random, bytes: Vec<u8>, runs: usize) -> Damaged {
    let place = offset(1 + random.below(runs + 1));
    let mut changed = bytes[..place].to_vec();
    changed.extend(&bytes[..1 + random.below(4)]);
    made("second head, cut", changed, 3, place)
}

fn after_end(random: &mut Random, mut bytes: Vec<u8>) -> Damaged {
    let place = bytes.len();
    match random.below(3) {
        0 => bytes.push(*random.pick(&[JOB_HEAD, RUN, END, 0])),
        1 => bytes.extend(bytes.clone()),
        _ => bytes.extend((0..1 + random.below(30)).map(|_| random.word() as u8)),
    }
    made("byte after the end", bytes, 5, place)
}

fn wrong_count(random: &mut Random, mut bytes: Vec<u8>, end: usize, runs: usize) -> Damaged {
    let runs = runs as u16;
    let count = match random.below(4) {
        0 => runs + 1,
        1 => runs.wrapping_sub(1),
        2 => runs | 0x100,
        _ => runs ^ (1 + random.below(65_535) as u16),
    };
    bytes[end + 1..].copy_from_slice(&count.to_le_bytes());
    let bytes = then_anything(random, &bytes, end + 3);
    made("wrong count", bytes, 6, end)
}

/// A blank job, which has a head and an end, with a wrong count, with bytes behind it, or cut.
fn blank(random: &mut Random, bytes: &[u8]) -> Damaged {
    let blank = [&bytes[..5], &[END, 0, 0]].concat();
    match random.below(3) {
        0 => wrong_count(random, blank, 5, 0),
        1 => after_end(random, blank),
        _ => cut(random, blank, 0),
    }
}

/// A coordinate just outside its range, or far outside.
pub(crate) fn outside(random: &mut Random) -> i32 {
    let far = if random.once_in(2) { random.from(FAR + 1, i32::MAX) } else { random.from(i32::MIN, -FAR - 1) };
    *random.pick(&[FAR + 1, -FAR - 1, i32::MIN, i32::MAX, far])
}

fn put_outside(random: &mut Random, run: &mut Run) {
    let value = outside(random);
    let fields = [&mut run.first.x, &mut run.first.y, &mut run.second.x, &mut run.second.y];
    let at = random.below(4);
    for (i, field) in fields.into_iter().enumerate() {
        if i == at || random.once_in(5) {
            *field = value;
        }
    }
}

fn wrong_number(random: &mut Random, mut job: Job, record: usize, coordinate_too: bool) -> Damaged {
    let before = if record == 1 { 0 } else { job.runs[record - 2].number };
    let above = random.from(TOP_NUMBER + 1, 65_535) as u16;
    let lower = random.from(0, i32::from(before)) as u16;
    job.runs[record - 1].number = *random.pick(&[0, before, lower, 10_000, 65_535, above]);
    if coordinate_too {
        put_outside(random, &mut job.runs[record - 1]);
    }
    let place = offset(record);
    let bytes = then_anything(random, &job_bytes(&job), place + 19);
    made(if coordinate_too { "wrong run number and coordinate" } else { "wrong run number" }, bytes, 7, place)
}

fn wrong_coordinate(random: &mut Random, mut job: Job, record: usize) -> Damaged {
    put_outside(random, &mut job.runs[record - 1]);
    let place = offset(record);
    let bytes = then_anything(random, &job_bytes(&job), place + 19);
    made("wrong coordinate", bytes, 8, place)
}

/// A book of 33 runs, the last of which may hold anything, or goes nowhere; whole or cut.
fn one_run_too_many(random: &mut Random, cut: bool, goes_nowhere: bool) -> Damaged {
    let mut job = generate::full_star(random);
    for (run, number) in job.runs.iter_mut().zip(1..) {
        run.number = number;
    }
    let mut last = Run { number: 33, first: Point::new(0, 0), second: Point::new(1, 1) };
    if goes_nowhere {
        coincide(random, &mut last);
    } else if random.once_in(2) {
        last.number = random.word() as u16;
        put_outside(random, &mut last);
    }
    job.runs.push(last);
    let bytes = job_bytes(&job);
    let place = offset(MOST_RUNS + 1);
    if cut {
        let length = place + 1 + random.below(18);
        return made("33rd run, cut", bytes[..length].to_vec(), 3, place);
    }
    let what = if goes_nowhere { "33rd run, whose points coincide" } else { "33rd run" };
    made(what, then_anything(random, &bytes, place + 19), 9, place)
}

fn head_for_run(random: &mut Random, mut bytes: Vec<u8>, record: usize) -> Damaged {
    let place = offset(record);
    bytes[place] = JOB_HEAD;
    let bytes = then_anything(random, &bytes, place + 5);
    made("head's kind on a run", bytes, 5, place)
}

/// A run's kind changed to an end's: its run number is then the count.
fn end_for_run(random: &mut Random, job: Job, record: usize) -> Damaged {
    let mut bytes = job_bytes(&job);
    let place = offset(record);
    bytes[place] = END;
    let before = record - 1;
    let right = usize::from(job.runs[before].number) == before;
    if right {
        return made("end's kind on a run", bytes, 5, place + 3);
    }
    made("end's kind on a run", then_anything(random, &bytes, place + 3), 6, place)
}

fn other_kind_for_end(random: &mut Random, mut bytes: Vec<u8>, end: usize) -> Damaged {
    bytes[end] = *random.pick(&[JOB_HEAD, RUN]);
    made("other kind on the end", bytes, 3, end)
}

fn other_kind_for_head(random: &mut Random, mut bytes: Vec<u8>) -> Damaged {
    bytes[0] = *random.pick(&[RUN, END]);
    made("other kind on the head", bytes, 5, 0)
}

/// A well-formed job of which some group is no star.
fn no_star(random: &mut Random) -> Damaged {
    made("no star", job_bytes(&leases::broken_lease(random)), 11, 0)
}

/// Puts both points of a run on one: the first, the second, 0,0 or a corner of the range.
fn coincide(random: &mut Random, run: &mut Run) {
    let [x, y] = [0; 2].map(|_| *random.pick(&[-FAR, FAR]));
    let point = *random.pick(&[run.first, run.second, Point::new(0, 0), Point::new(x, y)]);
    (run.first, run.second) = (point, point);
}

/// A job of which the first run goes nowhere, or the last, or any, and perhaps some behind it. Every group of it is a star: but for
/// this fault it would be planned.
fn nowhere(random: &mut Random, mut job: Job) -> Damaged {
    let runs = job.runs.len();
    let any = 1 + random.below(runs);
    let record = *random.pick(&[1, any, runs]);
    coincide(random, &mut job.runs[record - 1]);
    if random.once_in(3) {
        job.runs[record..].iter_mut().for_each(|run| coincide(random, run));
    }
    made("points that coincide", job_bytes(&job), 17, offset(record))
}

fn nowhere_then_anything(random: &mut Random, mut job: Job, record: usize) -> Damaged {
    coincide(random, &mut job.runs[record - 1]);
    let place = offset(record);
    let bytes = then_anything(random, &job_bytes(&job), place + 19);
    made("points that coincide, then anything", bytes, 17, place)
}

/// A run whose points are one, outside the range in x, in y or in both.
fn nowhere_outside(random: &mut Random, mut job: Job, record: usize) -> Damaged {
    let run = &mut job.runs[record - 1];
    let (Point { x, y }, far) = (run.first, outside(random));
    let point = *random.pick(&[Point::new(far, y), Point::new(x, far), Point::new(far, far)]);
    (run.first, run.second) = (point, point);
    let place = offset(record);
    let bytes = then_anything(random, &job_bytes(&job), place + 19);
    made("points that coincide outside the range", bytes, 8, place)
}

fn nowhere_and_number(random: &mut Random, mut job: Job, record: usize) -> Damaged {
    coincide(random, &mut job.runs[record - 1]);
    Damaged { what: "wrong run number, and points that coincide", ..wrong_number(random, job, record, false) }
}

/// A run that goes nowhere, and behind it a run with a wrong number or a wrong coordinate, a record of unknown kind, or a byte after
/// the end.
fn nowhere_then_other(random: &mut Random, mut job: Job, record: usize) -> Damaged {
    coincide(random, &mut job.runs[record - 1]);
    let (runs, mut whole) = (job.runs.len(), job_bytes(&job));
    let later = (record < runs).then(|| record + 1 + random.below(runs - record));
    let bytes = match (random.below(4), later) {
        (0, Some(later)) => wrong_number(random, job, later, false).bytes,
        (1, Some(later)) => wrong_coordinate(random, job, later).bytes,
        (2, _) => {
            whole[offset(later.unwrap_or(runs + 1))] = some_unknown_kind(random);
            whole
        }
        _ => after_end(random, whole).bytes,
    };
    made("points that coincide before another fault", bytes, 17, offset(record))
}

/// A run with a wrong number or a wrong coordinate, and behind it one that goes nowhere.
fn other_then_nowhere(random: &mut Random, job: Job) -> Damaged {
    let mut job = if job.runs.len() > 1 { job } else { generate::full_star(random) };
    let record = 1 + random.below(job.runs.len() - 1);
    let later = record + 1 + random.below(job.runs.len() - record);
    coincide(random, &mut job.runs[later - 1]);
    let run = &mut job.runs[record - 1];
    let number = if random.once_in(2) {
        run.number = *random.pick(&[0, 10_000]);
        7
    } else {
        put_outside(random, run);
        8
    };
    made("another fault before points that coincide", job_bytes(&job), number, offset(record))
}

fn nowhere_and_count(random: &mut Random, mut job: Job, record: usize) -> Damaged {
    coincide(random, &mut job.runs[record - 1]);
    let runs = job.runs.len();
    let miscounted = wrong_count(random, job_bytes(&job), offset(runs + 1), runs);
    made("points that coincide, and a wrong count", miscounted.bytes, 17, offset(record))
}

/// A job of which some group is no star, with one run more, which goes nowhere.
fn nowhere_in_no_star(random: &mut Random) -> Damaged {
    let runs = leases::broken_lease(random).runs;
    let mut points: Vec<(Point, Point)> = runs.iter().map(|run| (run.first, run.second)).collect();
    points.truncate(MOST_RUNS - 1);
    let (at, point) = (random.below(points.len() + 1), random.pick(&points).0);
    points.insert(at, (point, point));
    made("points that coincide, and no star", job_bytes(&numbered(random, &points)), 17, offset(at + 1))
}

/// A run that goes nowhere in a record of unknown kind, in one that is cut, or as the first record.
fn nowhere_not_looked_at(random: &mut Random, mut job: Job, record: usize) -> Damaged {
    coincide(random, &mut job.runs[record - 1]);
    let (mut bytes, place) = (job_bytes(&job), offset(record));
    match random.below(3) {
        0 => {
            bytes[place] = some_unknown_kind(random);
            made("points that coincide in an unknown record", bytes, 4, place)
        }
        1 => {
            bytes.truncate(place + 1 + random.below(18));
            made("points that coincide in a cut record", bytes, 3, place)
        }
        _ => made("points that coincide in place of a head", bytes[place..].to_vec(), 5, 0),
    }
}

/// A book with one byte changed, cut out or put in: whatever is due for it.
pub fn touched(random: &mut Random) -> Vec<u8> {
    let mut bytes = job_bytes(&star_or_lease(random));
    for _ in 0..1 + random.below(2) {
        let at = random.below(bytes.len());
        match random.below(4) {
            0 => bytes[at] ^= 1 << random.below(8),
            1 => bytes[at] = random.word() as u8,
            2 => {
                bytes.remove(at);
            }
            _ => bytes.insert(at, *random.pick(&[JOB_HEAD, RUN, END, 0, 1, 0xFF])),
        }
    }
    bytes
}

/// Bytes with no design, of any length up to 700; many begin as a job does.
pub fn noise(random: &mut Random) -> Vec<u8> {
    let length = random.below(700);
    let mut bytes: Vec<u8> = (0..length).map(|_| random.word() as u8).collect();
    if random.once_in(2) {
        for place in (0..length).filter(|&place| place == 0 || (place >= 5 && (place - 5) % 19 == 0)) {
            bytes[place] = *random.pick(&[JOB_HEAD, RUN, RUN, RUN, END]);
        }
    }
    bytes
}
