//! A second reader of job books, which can be made to slip in what it asks of a run.

#![allow(dead_code)]

use trench_check::job::{Job, Point, Run};
use trench_check::refusal::Refusal;

/// What is asked of a run and the number before it: whether it is to be refused with this number.
pub type Test = (i32, fn(&Run, u16) -> bool);

/// Run number 0, above 9,999 or not above the one before.
pub const SEVEN: Test = (7, |run, before| run.number <= before || run.number > 9_999);
/// A coordinate outside its range.
pub const EIGHT: Test = (8, |run, _| {
    let [Point { x, y }, Point { x: other_x, y: other_y }] = [run.first, run.second];
    [x, y, other_x, other_y].iter().any(|value| value.unsigned_abs() > 1_000_000)
});
/// Two points that coincide.
pub const SEVENTEEN: Test = (17, |run, _| run.first == run.second);

/// The job of a book, or its first refusal, where this is asked of each run, in this order, behind 4, 3, 5 and 9 and before 6.
pub fn read_by(bytes: &[u8], of_run: &[Test]) -> Result<Job, Refusal> {
    let mut job = Job { number: 0, runs: Vec::new() };
    let mut place = 0;
    loop {
        let refuse = |number: i32| Err(Refusal { number, place });
        let length = match bytes.get(place) {
            None => return refuse(3),
            Some(0x48) => 5,
            Some(0x52) => 19,
            Some(0x5A) => 3,
            Some(_) => return refuse(4),
        };
        let Some(record) = bytes.get(place..place + length) else { return refuse(3) };
        let half = |at: usize| u16::from_le_bytes([record[at], record[at + 1]]);
        let word = |at: usize| i32::from_le_bytes([record[at], record[at + 1], record[at + 2], record[at + 3]]);
        match length {
            _ if (length == 5) != (place == 0) => return refuse(5),
            5 => job.number = word(1) as u32,
            19 if job.runs.len() == 32 => return refuse(9),
            19 => {
                let (first, second) = (Point::new(word(3), word(7)), Point::new(word(11), word(15)));
                let run = Run { number: half(1), first, second };
                let before = job.runs.last().map_or(0, |run| run.number);
                if let Some((number, _)) = of_run.iter().find(|(_, is_wrong)| is_wrong(&run, before)) {
                    return refuse(*number);
                }
                job.runs.push(run);
            }
            _ if usize::from(half(1)) != job.runs.len() => return refuse(6),
            _ if place + length < bytes.len() => return Err(Refusal { number: 5, place: place + length }),
            _ => return Ok(job),
        }
        place += length;
    }
}
