//! The comparison of a writer of job books, called as C calls `trench_job` and `trench_job_place`, with the independent writing:
//! many lists of all kinds, each with every length of buffer that matters.

use crate::book::hex;
use crate::book_cases::Made;
use crate::compare::Called;
use crate::job::Job;
use crate::job_list::{RUN_NUMBERS, book_of, list_of};
use crate::list_cases::{ListCase, list_case};
use crate::random::Random;
use crate::read_back::Answered;
use crate::refusal::{self, Refusal};
use crate::report::{Report, Subject};

/// Whoever calls the writer: lends it memory of exactly these lengths, and watches the memory around it.
pub trait Writer {
    /// Calls `trench_job` with this list and a buffer of this content, which it then holds as the call left it.
    fn write(&mut self, number: u32, list: &[i32], out: &mut [u8]) -> Called;

    /// Calls `trench_job_place` with the same.
    fn place(&mut self, number: u32, list: &[i32], out: &mut [u8]) -> Answered;
}

/// The lengths of buffers that a list is tried with: none, one byte, all that are near the least that is enough, the list's own,
/// and a longer one.
fn sizes(case: &ListCase, random: &mut Random) -> Vec<usize> {
    let limit = case.limit();
    let mut sizes: Vec<usize> = (limit - 4..=limit + 4).collect();
    sizes.extend([0, 1, case.room, limit + 5 + random.below(200)]);
    sizes.sort_unstable();
    sizes.dedup();
    sizes
}

/// What is due for a list and a buffer of so many bytes: where it was made wrong by what was done to it, else by the independent
/// writer. A fault where the two differ.
fn due(case: &ListCase, size: usize, faults: &mut Vec<String>) -> Result<Vec<u8>, Refusal> {
    let written = book_of(case.number, &case.list, size);
    let (agreed, due) = match case.due(size) {
        Made::Whole => (written.is_ok(), written.clone()),
        Made::Refused(refusal) => (written == Err(refusal), Err(refusal)),
        Made::Anyhow => (true, written.clone()),
    };
    if !agreed {
        let (made, told) = (case.due(size), told(&written));
        faults.push(format!("the two readings of document 02 differ: made to be {made:?}, but {told}"));
    }
    due
}

fn told(written: &Result<Vec<u8>, Refusal>) -> String {
    written.as_ref().map_or_else(ToString::to_string, |book| format!("a book of {} bytes", book.len()))
}

/// What is wrong with a call of the writer, which left `out` where `entry` was.
fn faults_of_writing(due: &Result<Vec<u8>, Refusal>, answer: i32, entry: &[u8], out: &[u8]) -> Vec<String> {
    let (number, book) = match due {
        Ok(book) => (book.len() as i32, &book[..]),
        Err(refusal) => (-refusal.number, &[][..]),
    };
    let mut faults = Vec::new();
    if answer != number {
        faults.push(format!("the answer is {answer} and should be {number}"));
    }
    if out[..book.len()] != *book {
        faults.push(format!("{} is written and should be {}", hex(&out[..book.len()]), hex(book)));
    }
    if out[book.len()..] != entry[book.len()..] {
        let what = if due.is_ok() { "a byte behind the book was changed" } else { "a refused call changed the buffer" };
        faults.push(what.to_string());
    }
    faults
}

/// What is wrong with a book that was written: that the reader of job books does not give the number and the runs back.
fn faults_of_book(case: &ListCase, book: &[u8]) -> Option<String> {
    match refusal::read(book) {
        Ok(job) if (job.number, list_of(&job)) == (case.number, case.list.clone()) => None,
        Ok(job) => Some(format!("the book is read as job {} with {:?}", job.number, list_of(&job))),
        Err(refusal) => Some(format!("the book is {refusal} when it is read")),
    }
}

/// Tries a list with one length of buffer, and gives what was wrong.
fn try_size(writer: &mut dyn Writer, case: &ListCase, size: usize, random: &mut Random) -> Vec<String> {
    let mut faults = Vec::new();
    let due = due(case, size, &mut faults);
    let entry = random.bytes(size);
    let mut out = entry.clone();
    let Called { answer, strayed } = writer.write(case.number, &case.list, &mut out);
    faults.extend(strayed);
    faults.extend(faults_of_writing(&due, answer, &entry, &out));
    let written = usize::try_from(answer).ok().and_then(|length| out.get(..length));
    faults.extend(written.and_then(|book| faults_of_book(case, book)));
    let mut out = entry.clone();
    let Answered { answer, strayed } = writer.place(case.number, &case.list, &mut out);
    faults.extend(strayed);
    let place = due.err().map_or(0, |refusal| refusal.place as i64);
    if answer != place {
        faults.push(format!("the place is {answer} and should be {place}"));
    }
    if out != entry {
        faults.push("asking for the place changed the buffer".to_string());
    }
    faults
}

/// Counts a list by what is due for it: one that is well formed is refused too, with 2, for the shorter buffers.
fn counted(case: &ListCase, report: &mut Report) {
    report.books += 1;
    *report.kinds.entry(case.label.clone()).or_default() += 1;
    let refused = match book_of(case.number, &case.list, usize::MAX) {
        Ok(book) => {
            *report.accepted.entry(case.list.len() / RUN_NUMBERS).or_default() += 1;
            report.longest = report.longest.max(book.len());
            2
        }
        Err(refusal) => refusal.number,
    };
    *report.refused.entry(refused).or_default() += 1;
}

/// The numbers of a list for people, cut short where they are many.
fn shown(list: &[i32]) -> String {
    const MANY: usize = 200;
    match list.get(..MANY) {
        Some(first) => format!("{first:?}.. of {} numbers", list.len()),
        None => format!("{list:?}"),
    }
}

/// Tries one list with every length of buffer, and adds what was found.
pub fn try_list(writer: &mut dyn Writer, case: &ListCase, random: &mut Random, report: &mut Report) {
    counted(case, report);
    for size in sizes(case, random) {
        let faults = try_size(writer, case, size, random);
        report.calls += 2;
        let (label, list) = (&case.label, shown(&case.list));
        report.faults.extend(faults.iter().map(|fault| format!("{label} ({list}): buffer of {size}: {fault}")));
    }
}

/// Tries the lists of a seed from `from` on, in steps of `step`, below `to`. Each caller thread takes its own residue.
pub fn try_lists(writer: &mut dyn Writer, seed: u64, from: u64, to: u64, step: u64) -> Report {
    let mut report = Report::of(Subject::Lists);
    let mut n = from;
    while n < to {
        let before = report.faults.len();
        try_list(writer, &list_case(seed, n), &mut Random::nth(!seed, n), &mut report);
        for fault in &mut report.faults[before..] {
            *fault = format!("seed {seed} list {n}: {fault}");
        }
        n += step;
    }
    report
}

/// What is wrong with a well-formed job's book once the writer has written it again, from the job's number and runs, into a
/// buffer that is just long enough or little longer.
pub fn faults_of_rewriting(writer: &mut dyn Writer, job: &Job, bytes: &[u8], random: &mut Random) -> Vec<String> {
    let size = bytes.len() + random.below(3);
    let entry = random.bytes(size);
    let mut out = entry.clone();
    let Called { answer, strayed } = writer.write(job.number, &list_of(job), &mut out);
    let faults = faults_of_writing(&Ok(bytes.to_vec()), answer, &entry, &out);
    faults.into_iter().chain(strayed).map(|fault| format!("written again: {fault}")).collect()
}
