//! The comparison of a chooser between two plan books, called as C calls `trench_choose` and `trench_choose_place`, with the
//! independent choice: many jobs with two books each.

use crate::book::hex;
use crate::choice::{Choice, choose, outcome, told};
use crate::pair_cases::{EQUAL, PairCase, pair_case};
use crate::read_back::Answered;
use crate::refusal;
use crate::report::{Report, Subject};

/// Whoever calls the chooser: lends it memory of exactly these lengths, and watches it and the memory around it.
pub trait Chooser {
    /// Calls `trench_choose`.
    fn choose(&mut self, job: &[u8], first: &[u8], second: &[u8]) -> Answered;

    /// Calls `trench_choose_place`.
    fn place(&mut self, job: &[u8], first: &[u8], second: &[u8]) -> Answered;
}

/// The answer and the place that are due for a choice.
fn due(choice: &Choice) -> (i64, i64) {
    match choice {
        Ok(book) => (*book as i64, 0),
        Err(refusal) => (-i64::from(refusal.number), refusal.place as i64),
    }
}

/// What is wrong with the two answers for a job and two books where this choice is due.
fn faults_of(chooser: &mut dyn Chooser, [job, first, second]: [&[u8]; 3], choice: &Choice) -> Vec<String> {
    let (number, place) = due(choice);
    let (answered, placed) = (chooser.choose(job, first, second), chooser.place(job, first, second));
    let wrong =
        |what: &str, told: i64, due: i64| (told != due).then(|| format!("{what} is {told} and should be {due}"));
    let answers = [wrong("the answer", answered.answer, number), wrong("the place", placed.answer, place)];
    answers.into_iter().flatten().chain(answered.strayed).chain(placed.strayed).collect()
}

/// What is wrong with the choice between a plan that the planner wrote and the same plan: every one is true, and so the first.
pub fn faults_of_handing_back(chooser: &mut dyn Chooser, job: &[u8], plan: &[u8]) -> Vec<String> {
    let faults = faults_of(chooser, [job, plan, plan], &Ok(1));
    faults.iter().map(|fault| format!("the plan as both books: {fault}")).collect()
}

/// The trench of a book's head, as its bytes.
fn trench_of(book: &[u8]) -> Option<&[u8]> {
    book.get(7..11)
}

/// Counts a pair by what is due for it, and by how it was made.
fn counted(case: &PairCase, choice: &Choice, report: &mut Report) {
    report.books += 1;
    report.calls += 2;
    let longest = case.books.iter().map(Vec::len).max().unwrap_or(0);
    match choice {
        Ok(_) => {
            let runs = refusal::read(&case.job).expect("a job for which a book is chosen").runs.len();
            *report.accepted.entry(runs).or_default() += 1;
            report.longest = report.longest.max(longest);
            if case.first() != case.second() && trench_of(case.first()) == trench_of(case.second()) {
                *report.kinds.entry(EQUAL.to_string()).or_default() += 1;
            }
        }
        Err(refusal) => *report.refused.entry(refusal.number).or_default() += 1,
    }
    *report.kinds.entry(case.label.clone()).or_default() += 1;
    *report.outcomes.entry(outcome(choice)).or_default() += 1;
}

/// Tries one pair, and adds what was found.
pub fn try_pair(chooser: &mut dyn Chooser, case: &PairCase, report: &mut Report) {
    let choice = choose(&case.job, case.first(), case.second());
    counted(case, &choice, report);
    let mut faults = Vec::new();
    if let Some(made) = case.made
        && made != choice
    {
        let (made, read) = (told(&made), told(&choice));
        faults.push(format!("the two readings of document 02 differ: made to give {made}, but judged as {read}"));
    }
    faults.extend(faults_of(chooser, [&case.job, case.first(), case.second()], &choice));
    let shown = || format!("{} ({} {} {})", case.label, hex(&case.job), hex(case.first()), hex(case.second()));
    report.faults.extend(faults.iter().map(|fault| format!("{}: {fault}", shown())));
}

/// Tries the pairs of a seed from `from` on, in steps of `step`, below `to`. Each caller thread takes its own residue.
pub fn try_pairs(chooser: &mut dyn Chooser, seed: u64, from: u64, to: u64, step: u64) -> Report {
    let mut report = Report::of(Subject::Pairs);
    let mut n = from;
    while n < to {
        let before = report.faults.len();
        try_pair(chooser, &pair_case(seed, n), &mut report);
        for fault in &mut report.faults[before..] {
            *fault = format!("seed {seed} pair {n}: {fault}");
        }
        n += step;
    }
    report
}
