//! What a comparison tried, and what was wrong.

use std::collections::BTreeMap;
use std::fmt;

use crate::choice;
use crate::facts;
use crate::job::MOST_RUNS;
use crate::list_cases;
use crate::pair_cases;

/// Of each kind of list and of pair, of each outcome of a pair, and of each fact about jobs, fewer than so many are too few.
const FEW: usize = 50;

/// What was tried.
#[derive(Clone, Copy, Debug, PartialEq, Eq)]
pub enum Subject {
    /// The planner, with job books.
    Jobs,
    /// The reader, with plan books.
    Plans,
    /// The writer of job books, with lists of runs.
    Lists,
    /// The chooser between two plan books, with a job and both.
    Pairs,
}

/// What was tried, and what was wrong.
pub struct Report {
    /// Which books these are.
    pub subject: Subject,
    /// The number of books, of lists, or of pairs.
    pub books: usize,
    /// The number of calls.
    pub calls: usize,
    /// The number of accepted books by their number of runs or routes; of pairs, those of which a book was chosen.
    pub accepted: BTreeMap<usize, usize>,
    /// The number of refused books by refusal number.
    pub refused: BTreeMap<i32, usize>,
    /// The number of lists or pairs by what they are called, or of jobs by the facts that hold of them.
    pub kinds: BTreeMap<String, usize>,
    /// The number of pairs by what is due for them.
    pub outcomes: BTreeMap<String, usize>,
    /// The number of accepted jobs by their number of groups.
    pub groups: BTreeMap<usize, usize>,
    /// The number of job books that were written again.
    pub written_again: usize,
    /// The number of plans that need every byte of their job's forecast.
    pub filled: usize,
    /// The number of plans that the chooser was lent, as both books of their job.
    pub handed_back: usize,
    /// The number of bytes of the longest plan, or of the longest job book that was written.
    pub longest: usize,
    /// What was wrong, in words, with the book that shows it.
    pub faults: Vec<String>,
}

impl Report {
    /// A report of nothing yet.
    pub fn of(subject: Subject) -> Report {
        Report {
            subject,
            books: 0,
            calls: 0,
            accepted: BTreeMap::new(),
            refused: BTreeMap::new(),
            kinds: BTreeMap::new(),
            outcomes: BTreeMap::new(),
            groups: BTreeMap::new(),
            written_again: 0,
            filled: 0,
            handed_back: 0,
            longest: 0,
            faults: Vec::new(),
        }
    }

    /// Adds what another report of the same subject says.
    pub fn add(&mut self, other: Report) {
        assert_eq!(self.subject, other.subject);
        self.books += other.books;
        self.calls += other.calls;
        self.written_again += other.written_again;
        self.filled += other.filled;
        self.handed_back += other.handed_back;
        self.longest = self.longest.max(other.longest);
        other.accepted.into_iter().for_each(|(runs, count)| *self.accepted.entry(runs).or_default() += count);
        other.refused.into_iter().for_each(|(number, count)| *self.refused.entry(number).or_default() += count);
        other.kinds.into_iter().for_each(|(kind, count)| *self.kinds.entry(kind).or_default() += count);
        other.outcomes.into_iter().for_each(|(what, count)| *self.outcomes.entry(what).or_default() += count);
        other.groups.into_iter().for_each(|(groups, count)| *self.groups.entry(groups).or_default() += count);
        self.faults.extend(other.faults);
    }

    /// What of documents 01 and 02 no book of this report tried: a refusal, or a number of runs, routes or groups from 0 to 32; and
    /// the kinds of lists or pairs, the outcomes of pairs, or the facts about jobs, of which too few were tried. A report of many
    /// books should have nothing here.
    pub fn untried(&self) -> Vec<String> {
        let (numbers, what, runs): (&[i32], _, _) = match self.subject {
            Subject::Jobs => (&[3, 4, 5, 6, 7, 8, 9, 11, 17], "a job", "runs"),
            Subject::Plans => (&[8, 12, 13, 14], "a plan", "routes"),
            Subject::Lists => (&[2, 3, 7, 8, 9, 17], "a list", "runs"),
            Subject::Pairs => (&[], "a chosen book", "routes"),
        };
        let refusals = numbers.iter().filter(|number| !self.refused.contains_key(number));
        let counts = (0..=MOST_RUNS).filter(|count| !self.accepted.contains_key(count));
        let groups = (0..=MOST_RUNS).filter(|n| self.subject == Subject::Jobs && !self.groups.contains_key(n));
        let (kinds, of_few): (Vec<String>, _) = match self.subject {
            Subject::Jobs => {
                (facts::ALL.into_iter().chain([facts::NOWHERE]).map(str::to_string).collect(), "jobs with")
            }
            Subject::Plans => (Vec::new(), "plans"),
            Subject::Lists => (list_cases::labels().map(str::to_string).collect(), "lists"),
            Subject::Pairs => (pair_cases::labels(), "pairs"),
        };
        let outcomes = if self.subject == Subject::Pairs { choice::outcomes() } else { Vec::new() };
        let too_few = |counts: &BTreeMap<String, usize>, kind: &str| counts.get(kind).copied().unwrap_or(0) < FEW;
        let few = kinds.into_iter().filter(|kind| too_few(&self.kinds, kind));
        let few_outcomes = outcomes.into_iter().filter(|what| too_few(&self.outcomes, what));
        refusals
            .map(|n| format!("refusal {n}"))
            .chain(counts.map(|n| format!("{what} of {n} {runs}")))
            .chain(groups.map(|n| format!("a job of {n} groups")))
            .chain(few.map(|kind| format!("enough {of_few} {kind}")))
            .chain(few_outcomes.map(|what| format!("enough pairs with the outcome {what}")))
            .collect()
    }
}

impl fmt::Display for Report {
    fn fmt(&self, out: &mut fmt::Formatter) -> fmt::Result {
        let accepted: usize = self.accepted.values().sum();
        let (blank, full) = [0, MOST_RUNS].map(|count| self.accepted.get(&count).copied().unwrap_or(0)).into();
        let refused: Vec<String> = self.refused.iter().map(|(number, count)| format!("{number}: {count}")).collect();
        let (books, runs, longest) = match self.subject {
            Subject::Jobs => ("jobs", "runs", "plan"),
            Subject::Plans => ("plan books", "routes", "plan"),
            Subject::Lists => ("lists", "runs", "job book"),
            Subject::Pairs => ("pairs", "routes", "plan"),
        };
        let accepted_word = if self.subject == Subject::Pairs { "with a book chosen" } else { "accepted" };
        write!(
            out,
            "{} {books}, {} calls: {accepted} {accepted_word} ({blank} blank, {full} of 32 {runs}, longest {longest} {} bytes)",
            self.books, self.calls, self.longest
        )?;
        if let Some(most) = self.groups.keys().max() {
            write!(out, "; up to {most} groups")?;
        }
        if self.subject == Subject::Jobs {
            self.kinds.iter().try_for_each(|(fact, count)| write!(out, "; {fact}: {count}"))?;
        }
        if self.written_again > 0 {
            write!(out, "; {} job books written again", self.written_again)?;
        }
        if self.filled > 0 {
            write!(out, "; {} plans that need every byte of the forecast", self.filled)?;
        }
        if self.handed_back > 0 {
            write!(out, "; {} plans handed back", self.handed_back)?;
        }
        if self.subject == Subject::Pairs {
            let count = |what: &String| self.outcomes.get(what).copied().unwrap_or(0);
            choice::outcomes().iter().try_for_each(|what| write!(out, "; {what}: {}", count(what)))?;
            return write!(out, "; {} faults", self.faults.len());
        }
        write!(out, "; refused by number: {}; {} faults", refused.join(", "), self.faults.len())
    }
}
