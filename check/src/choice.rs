//! The choice between two plan books of one job (02, C-17): the one that digs less, the first if they dig the same; or a refusal.

use crate::job::Job;
use crate::judge::Judge;
use crate::listing::of_refusal;
use crate::plan_book::PlanBook;
use crate::refusal::{self, Refusal};

/// The book to stake from, 1 or 2; or the first refusal that applies. The place of a book's refusal is the book, 1 or 2.
pub type Choice = Result<usize, Refusal>;

/// The refusals of a job, with their own places.
pub const OF_JOB: [i32; 9] = [3, 4, 5, 6, 7, 8, 9, 11, 17];
/// The refusals of a book: those of the reader, and then those of a book that is read.
pub const OF_BOOK: [i32; 6] = [8, 12, 13, 14, 15, 16];
/// A book whose job number, run count or run numbers in order differ from the job's.
pub const OTHER_JOB: i32 = 15;
/// A book of the older kinds, or one that is not true.
pub const UNTRUE: i32 = 16;

/// The choice for a job book and two plan books: the job's refusals come first, then the first book's, then the second's.
pub fn choose(job: &[u8], first: &[u8], second: &[u8]) -> Choice {
    let judge = Judge::of_anyones(refusal::surveyed(job)?);
    let trench = |bytes: &[u8], book: usize| of_book(&judge, bytes).map_err(|number| Refusal { number, place: book });
    let (first, second) = (trench(first, 1)?, trench(second, 2)?);
    Ok(if second < first { 2 } else { 1 })
}

/// The trench of a book that is true for the judge's job, or the number of its refusal: the reader's, then 15, then 16.
pub fn of_book(judge: &Judge, bytes: &[u8]) -> Result<u32, i32> {
    let book = PlanBook::read(bytes).map_err(|refused| refused.number)?;
    if !matches(judge.job(), &book) {
        return Err(OTHER_JOB);
    }
    if judge.faults_of_book(&book).is_empty() { Ok(book.trench) } else { Err(UNTRUE) }
}

/// Whether a book has the job's number and its run numbers in order, and so as many runs. Its set of kinds does not matter.
fn matches(job: &Job, book: &PlanBook) -> bool {
    let numbers = job.runs.iter().map(|run| run.number);
    book.job == job.number && numbers.eq(book.routes.iter().map(|route| route.run))
}

/// An answer in words: `book 1`, or the refusal.
pub fn told(choice: &Choice) -> String {
    choice.as_ref().map_or_else(ToString::to_string, |book| format!("book {book}"))
}

/// What people are told of a job book and two plan books: which book to stake from, and the trench figures of both; or the refusal.
pub fn listing(job: &[u8], first: &[u8], second: &[u8]) -> String {
    let trench = |bytes| PlanBook::read(bytes).expect("a book that is chosen is read").trench;
    match choose(job, first, second) {
        Ok(book) => {
            let (chosen, other) = if book == 1 { (first, second) } else { (second, first) };
            let (named, beside) = if book == 1 { ("first", "second") } else { ("second", "first") };
            format!("stake from the {named} book: trench {}, the {beside} has {}\n", trench(chosen), trench(other))
        }
        Err(refused) => of_refusal(refused),
    }
}

/// What an answer is counted as: the book to stake from, or the refusal's number and whose it is. A job's 8 has a run's place, which is
/// above 2; 17 is always the job's.
pub fn outcome(choice: &Choice) -> String {
    match choice {
        Ok(book) => format!("stake from {book}"),
        Err(Refusal { number, place: 1 }) if OF_BOOK.contains(number) => format!("first {number}"),
        Err(Refusal { number, place: 2 }) if OF_BOOK.contains(number) => format!("second {number}"),
        Err(Refusal { number, .. }) => format!("job {number}"),
    }
}

/// Every outcome.
pub fn outcomes() -> Vec<String> {
    let all = |whose: &str, numbers: &[i32]| numbers.iter().map(|n| format!("{whose} {n}")).collect::<Vec<_>>();
    [all("stake from", &[1, 2]), all("job", &OF_JOB), all("first", &OF_BOOK), all("second", &OF_BOOK)].concat()
}
