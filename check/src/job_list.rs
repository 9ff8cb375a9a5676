//! Job books from lists of numbers (02, C-15), five a run: its number, first x, first y, second x, second y.

use crate::book::{END, JOB_HEAD, RUN};
use crate::job::{FAR, Job, MOST_RUNS, Run, TOP_NUMBER};
use crate::refusal::Refusal;

/// The numbers of a run in a list.
pub const RUN_NUMBERS: usize = 5;

/// The bytes of a job book of so many runs, and the least buffer for it.
pub fn book_length(runs: usize) -> usize {
    8 + 19 * runs
}

/// The job book of a job number and a list, for a buffer of so many bytes; or the first refusal that applies: 3, 9, then run by
/// run 7, 8 and 17, then 2.
pub fn book_of(number: u32, list: &[i32], room: usize) -> Result<Vec<u8>, Refusal> {
    let refuse = |number: i32, place: usize| Err(Refusal { number, place });
    if list.len() % RUN_NUMBERS != 0 {
        return refuse(3, list.len());
    }
    let runs: Vec<&[i32]> = list.chunks(RUN_NUMBERS).collect();
    if runs.len() > MOST_RUNS {
        return refuse(9, MOST_RUNS);
    }
    let mut before = 0;
    for (index, run) in runs.iter().enumerate() {
        if run[0] <= before || run[0] > TOP_NUMBER {
            return refuse(7, index);
        }
        if run[1..].iter().any(|coordinate| !(-FAR..=FAR).contains(coordinate)) {
            return refuse(8, index);
        }
        if run[1..3] == run[3..5] {
            return refuse(17, index);
        }
        before = run[0];
    }
    if room < book_length(runs.len()) {
        return refuse(2, 0);
    }
    let mut bytes = vec![JOB_HEAD];
    bytes.extend(number.to_le_bytes());
    for run in &runs {
        bytes.push(RUN);
        bytes.extend(&run[0].to_le_bytes()[..2]);
        bytes.extend(run[1..].iter().flat_map(|coordinate| coordinate.to_le_bytes()));
    }
    bytes.push(END);
    bytes.extend([runs.len() as u8, 0]);
    Ok(bytes)
}

/// The list of a job's runs.
pub fn list_of(job: &Job) -> Vec<i32> {
    let numbers = |run: &Run| [run.number.into(), run.first.x, run.first.y, run.second.x, run.second.y];
    job.runs.iter().flat_map(numbers).collect()
}
