//! The refusals (01, "What a call says and leaves", and 02): number and place, and reading a job book.

use std::fmt;

use crate::book::{END, JOB_HEAD, RUN};
use crate::forecast::Forecast;
use crate::graph::Survey;
use crate::job::{FAR, Job, MOST_RUNS, Point, Run, TOP_NUMBER};

/// A refusal's number and place.
#[derive(Clone, Copy, Debug, PartialEq, Eq)]
pub struct Refusal {
    /// 1 to 9, or 11 to 17.
    pub number: i32,
    /// The offset of the record at fault, or what documents 01 and 02 say instead.
    pub place: usize,
}

impl fmt::Display for Refusal {
    fn fmt(&self, out: &mut fmt::Formatter) -> fmt::Result {
        write!(out, "refused {} at {}", self.number, self.place)
    }
}

/// What a number means, in the words of documents 01 and 02.
pub fn words(number: i32) -> &'static str {
    match number {
        1 => "work words fewer than the forecast",
        2 => "plan buffer shorter than the forecast",
        3 => "the bytes end inside a record, or before an end record",
        4 => "unknown kind of record",
        5 => "first record no head, a second head, or a byte after the end record",
        6 => "the end's count differs from the runs read",
        7 => "run number 0, above 9,999 or not above the one before",
        8 => "coordinate outside -1,000,000 to 1,000,000",
        9 => "a 33rd run",
        11 => "well formed, but some group is no star",
        12 => "the bytes are not whole records of a plan in order",
        13 => "a corner that stands twice, is not straight from the one before, or is no turn",
        14 => "a count that differs from what it counts, or a route with no corner",
        15 => "a plan of another job, or of other runs",
        16 => "a plan of the older kinds, or one that is not true for the job",
        17 => "a run whose two points coincide",
        _ => "no refusal",
    }
}

/// The length of a job book's record of this kind, with its kind byte; none for an unknown kind.
pub fn record_length(kind: u8) -> Option<usize> {
    match kind {
        JOB_HEAD => Some(1 + 4),
        RUN => Some(1 + 2 + 4 * 4),
        END => Some(1 + 2),
        _ => None,
    }
}

/// The 2 bytes from here on as a number.
pub(crate) fn half(body: &[u8], at: usize) -> u16 {
    u16::from_le_bytes([body[at], body[at + 1]])
}

/// The 4 bytes from here on as a number.
pub(crate) fn word(body: &[u8], at: usize) -> u32 {
    u32::from_le_bytes([body[at], body[at + 1], body[at + 2], body[at + 3]])
}

/// The 8 bytes from here on as a point.
pub(crate) fn point(body: &[u8], at: usize) -> Point {
    Point::new(word(body, at) as i32, word(body, at + 4) as i32)
}

/// The job of a job book, or the first of the refusals 3 to 9 and 17 that applies: records front to back, and within a record 4,
/// 3, 5, 9, 7, 8, 17, 6. The end record is judged before a byte after it. A job may have no runs (02, C-11), and each of its runs goes
/// somewhere (02, C-18).
pub fn read(bytes: &[u8]) -> Result<Job, Refusal> {
    let mut number = None;
    let mut runs: Vec<Run> = Vec::new();
    let mut place = 0;
    loop {
        let refuse = |number: i32| Err(Refusal { number, place });
        let Some(&kind) = bytes.get(place) else { return refuse(3) };
        let Some(length) = record_length(kind) else { return refuse(4) };
        let Some(body) = bytes.get(place + 1..place + length) else { return refuse(3) };
        if (kind == JOB_HEAD) != (place == 0) {
            return refuse(5);
        }
        match kind {
            JOB_HEAD => number = Some(word(body, 0)),
            RUN => {
                if runs.len() == MOST_RUNS {
                    return refuse(9);
                }
                let run = Run { number: half(body, 0), first: point(body, 2), second: point(body, 10) };
                let before = runs.last().map_or(0, |run| run.number);
                if run.number <= before || i32::from(run.number) > TOP_NUMBER {
                    return refuse(7);
                }
                let in_range = |p: Point| [p.x, p.y].iter().all(|c| (-FAR..=FAR).contains(c));
                if !in_range(run.first) || !in_range(run.second) {
                    return refuse(8);
                }
                if run.first == run.second {
                    return refuse(17);
                }
                runs.push(run);
            }
            _ => {
                if usize::from(half(body, 0)) != runs.len() {
                    return refuse(6);
                }
                let after = place + length;
                if after < bytes.len() {
                    return Err(Refusal { number: 5, place: after });
                }
                return Ok(Job { number: number.expect("the first record is a head"), runs });
            }
        }
        place += length;
    }
}

/// What is due for a job book: the job, well formed and every group a star, or its refusal among 3 to 9, 17 and 11.
pub fn verdict(bytes: &[u8]) -> Result<Job, Refusal> {
    surveyed(bytes).map(|survey| survey.job)
}

/// What is due for a call that is lent so many work words and so many bytes of plan buffer, for a job book of this forecast, or with
/// this refusal in its place, and of this verdict: the refusals of the job's bytes come first, then 1 and 2, and last 11 (02, C-20).
pub fn called<T>(
    forecast: Result<Forecast, Refusal>,
    words: usize,
    bytes: usize,
    verdict: Result<T, Refusal>,
) -> Result<T, Refusal> {
    forecast?.refusal(words, bytes).map_or(verdict, Err)
}

/// The verdict on a job book, with all that was worked out for it.
pub fn surveyed(bytes: &[u8]) -> Result<Survey, Refusal> {
    let survey = Survey::of(read(bytes)?);
    if survey.graph.stars().is_some() { Ok(survey) } else { Err(Refusal { number: 11, place: 0 }) }
}
