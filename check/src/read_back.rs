//! The comparison of a reader of plan books, called as C calls `trench_read` and the five functions beside it, with the
//! independent reading: many books of all kinds, each asked for everything that it holds and for what it does not hold.

use crate::book::{CORNER, OLDER_ROUTE, PLAN_HEAD, ROUTE, hex};
use crate::book_cases::{BookCase, Made, book_case, made_up};
use crate::job::MOST_RUNS;
use crate::listing;
use crate::plan_book::{BOTH_KINDS, CORNER_LENGTH, Kinds, MOST_CORNERS, PlanBook};
use crate::random::Random;
use crate::refusal::{Refusal, half, word};
use crate::report::{Report, Subject};

/// A call of one of the six functions, but for the book and for the words that the answer is written to.
#[derive(Clone, Copy, Debug, PartialEq, Eq)]
pub enum Question<'a> {
    /// `trench_read`.
    Read,
    /// `trench_read_place`.
    ReadPlace,
    /// `trench_figures`.
    Figures,
    /// `trench_places`.
    Places,
    /// `trench_route`, with these places.
    Route(&'a [u32], usize),
    /// `trench_corner`, with these places: a route, and a corner of it.
    Corner(&'a [u32], usize, usize),
}

/// The number of words that `trench_figures` writes.
pub const FIGURES: usize = 7;
/// The number of words that `trench_places` writes.
pub const PLACES: usize = MOST_RUNS + 1;
/// The number of words that `trench_route` writes.
pub const ROUTE_WORDS: usize = 4;

impl Question<'_> {
    /// The number of words that an answer needs.
    pub fn words(self) -> usize {
        match self {
            Question::Read | Question::ReadPlace => 0,
            Question::Figures => FIGURES,
            Question::Places => PLACES,
            Question::Route(..) => ROUTE_WORDS,
            Question::Corner(..) => 2,
        }
    }
}

/// One call as its caller saw it.
pub struct Answered {
    /// What the function gave.
    pub answer: i64,
    /// A byte outside the lent words that was changed, in words.
    pub strayed: Option<String>,
}

/// Whoever calls the reader: lends it memory of exactly these lengths, and watches the memory around it.
pub trait Asker {
    /// Lends these bytes as the book of the calls that follow.
    fn lend(&mut self, book: &[u8]);

    /// Calls a function with words of this content, which then are as the call left them.
    fn ask(&mut self, question: Question, words: &mut [u32]) -> Answered;

    /// Takes the book back. Says in words whether it or a byte around it was changed.
    fn give_back(&mut self) -> Option<String>;
}

/// The independent reading of a book, with the places that `trench_places` is to give.
pub struct Reading {
    book: Result<PlanBook, Refusal>,
    places: [u32; PLACES],
}

impl Reading {
    /// Reads a book.
    pub fn of(bytes: &[u8]) -> Reading {
        let book = PlanBook::read(bytes);
        let mut places = [0; PLACES];
        if let Ok(book) = &book {
            places.iter_mut().zip(book.places()).for_each(|(word, place)| *word = place as u32);
        }
        Reading { book, places }
    }

    /// The places of the routes' records in order, then that of the end record, then 0; all 0 for a refused book.
    pub fn places(&self) -> &[u32] {
        &self.places
    }

    fn number(&self) -> i64 {
        match &self.book {
            Ok(book) => book.routes.len() as i64,
            Err(refusal) => -i64::from(refusal.number),
        }
    }

    fn place(&self) -> i64 {
        self.book.as_ref().err().map_or(0, |refusal| refusal.place as i64)
    }

    fn figures(&self) -> Option<Vec<u32>> {
        let book = self.book.as_ref().ok()?;
        let (pits, last, kind) = (book.pits.into(), book.last.into(), book.kinds.head().into());
        Some(vec![book.job, book.runs.into(), book.trench, book.saved, pits, last, kind])
    }

    /// What is due for a route where the places are the book's own.
    fn route(&self, i: usize) -> Option<Vec<u32>> {
        let route = self.book.as_ref().ok()?.routes.get(i)?;
        Some([route.run, route.meets, route.count, route.centre].map(u32::from).to_vec())
    }

    /// What is due for a corner where the places are the book's own.
    fn corner(&self, i: usize, j: usize) -> Option<Vec<u32>> {
        let corner = self.book.as_ref().ok()?.routes.get(i)?.corners.get(j)?;
        Some(vec![corner.x as u32, corner.y as u32])
    }
}

/// The place of this index and the one behind it, 0 for those past the last, where the first is the less.
fn span(places: &[u32], i: usize) -> Option<(usize, usize)> {
    let place = |i: Option<usize>| i.and_then(|i| places.get(i)).map_or(0, |&place| place as usize);
    let (from, to) = (place(Some(i)), place(i.checked_add(1)));
    (from < to).then_some((from, to))
}

/// The body of a whole record of this kind and length that stands at a place.
fn record(bytes: &[u8], kind: u8, length: usize, place: usize) -> Option<&[u8]> {
    bytes.get(place..place.checked_add(length)?).filter(|record| record[0] == kind).map(|record| &record[1..])
}

/// What is due for a route where any places are lent: the record at the place, if it is one of either kind and the next place is
/// greater. An older one names no centre: 0.
pub fn route_at(bytes: &[u8], places: &[u32], i: usize) -> Option<Vec<u32>> {
    let (from, _) = span(places, i)?;
    let newer = record(bytes, ROUTE, Kinds::Newer.route_length(), from);
    let older = || record(bytes, OLDER_ROUTE, Kinds::Older.route_length(), from);
    let fields = |body: &[u8], count: usize| (0..count).map(|k| half(body, 2 * k).into()).collect::<Vec<u32>>();
    newer.map(|body| fields(body, 4)).or_else(|| older().map(|body| [fields(body, 3), vec![0]].concat()))
}

/// What is due for a corner where any places are lent: the record as far behind the place as its index says, if it is one and
/// stands before the next place. A route record is as long as the book's first byte says.
pub fn corner_at(bytes: &[u8], places: &[u32], i: usize, j: usize) -> Option<Vec<u32>> {
    let (from, to) = span(places, i)?;
    let place = from + route_length(bytes) + CORNER_LENGTH * Some(j).filter(|&j| j < MOST_CORNERS)?;
    let body = record(bytes, CORNER, CORNER_LENGTH, place).filter(|_| place < to)?;
    Some(vec![word(body, 0), word(body, 4)])
}

/// The length of the route records of bytes that begin so.
fn route_length(bytes: &[u8]) -> usize {
    if bytes.first() == Some(&PLAN_HEAD) { Kinds::Newer.route_length() } else { Kinds::Older.route_length() }
}

/// What a call is to answer, and the words that it is to write.
enum Due {
    /// This number, and no word.
    Number(i64),
    /// These words and how many they are, or 0 and no word where there are none or fewer words are lent.
    Words(Option<Vec<u32>>),
}

/// A book that is being tried.
struct Trial<'a> {
    asker: &'a mut dyn Asker,
    random: &'a mut Random,
    calls: usize,
    faults: Vec<String>,
}

impl Trial<'_> {
    /// Asks with so many words of noise, and adds what is wrong with the answer.
    fn ask(&mut self, question: Question, due: &Due, size: usize) {
        let entry: Vec<u32> = (0..size).map(|_| self.random.word() as u32).collect();
        let mut words = entry.clone();
        let Answered { answer, strayed } = self.asker.ask(question, &mut words);
        self.calls += 1;
        let (number, written) = match due {
            Due::Number(number) => (*number, &[][..]),
            Due::Words(Some(written)) if written.len() <= size => (written.len() as i64, &written[..]),
            Due::Words(_) => (0, &[][..]),
        };
        let mut wrong = |fault: String| self.faults.push(format!("{question:?} with {size} words: {fault}"));
        if answer != number {
            wrong(format!("the answer is {answer} and should be {number}"));
        }
        if words[..written.len()] != *written {
            wrong(format!("{:?} is written and should be {written:?}", &words[..written.len()]));
        }
        if words[written.len()..] != entry[written.len()..] {
            wrong(format!("a word behind the {} written was changed", written.len()));
        }
        strayed.into_iter().for_each(wrong);
    }

    /// Asks with just the words that are needed, with one fewer, with none, and with more.
    fn ask_all_sizes(&mut self, question: Question, due: &Due) {
        let words = question.words();
        for size in [words, words - 1, 0, words + 1 + self.random.below(8)] {
            self.ask(question, due, size);
        }
    }

    /// What needs no places.
    fn ask_whole(&mut self, reading: &Reading) {
        self.ask(Question::Read, &Due::Number(reading.number()), 0);
        self.ask(Question::ReadPlace, &Due::Number(reading.place()), 0);
        self.ask_all_sizes(Question::Figures, &Due::Words(reading.figures()));
        self.ask_all_sizes(Question::Places, &Due::Words(Some(reading.places.to_vec())));
    }

    /// Every route and every corner by the book's own places, and those past the last. Of a long book all corners of some routes
    /// are asked for, and of the others the outermost.
    fn ask_parts(&mut self, reading: &Reading) {
        let routes = reading.book.as_ref().map_or(&[][..], |book| &book.routes);
        let many = reading.book.as_ref().map_or(0, PlanBook::corners) > 100;
        for i in (0..MOST_RUNS + 2).chain([usize::MAX - 1, usize::MAX]) {
            let (question, due) = (Question::Route(&reading.places, i), Due::Words(reading.route(i)));
            let corners = routes.get(i).map_or(0, |route| route.corners.len());
            let thorough = i == 0 || i == routes.len() || self.random.once_in(8);
            let inner = if many && !thorough { 0..corners.min(1) } else { 0..corners };
            for j in inner {
                self.ask(Question::Corner(&reading.places, i, j), &Due::Words(reading.corner(i, j)), 2);
            }
            if thorough {
                self.ask_all_sizes(question, &due);
                for j in outermost(corners) {
                    self.ask_all_sizes(Question::Corner(&reading.places, i, j), &Due::Words(reading.corner(i, j)));
                }
            } else {
                self.ask(question, &due, ROUTE_WORDS);
                for j in [corners, corners + 1, MOST_CORNERS] {
                    self.ask(Question::Corner(&reading.places, i, j), &Due::Words(reading.corner(i, j)), 2);
                }
            }
        }
    }

    /// Routes and corners by places that are not the book's, or not all of them.
    fn ask_astray(&mut self, bytes: &[u8], reading: &Reading) {
        for places in wrong_places(self.random, bytes, reading) {
            for _ in 0..8 {
                let i = self.some_index(places.len());
                let due = Due::Words(route_at(bytes, &places, i));
                let size = *self.random.pick(&[4, 4, 4, 3, 6]);
                self.ask(Question::Route(&places, i), &due, size);
                let (i, j) = (self.some_index(places.len()), self.some_corner());
                let due = Due::Words(corner_at(bytes, &places, i, j));
                let size = *self.random.pick(&[2, 2, 2, 1, 5]);
                self.ask(Question::Corner(&places, i, j), &due, size);
            }
        }
    }

    fn some_index(&mut self, count: usize) -> usize {
        match self.random.below(12) {
            0 => usize::MAX - self.random.below(2),
            1 => count + self.random.below(3),
            2 => count.saturating_sub(1 + self.random.below(2)),
            _ => self.random.below(count + 1),
        }
    }

    fn some_corner(&mut self) -> usize {
        let any = self.random.word() as usize;
        let near = self.random.below(4);
        *self.random.pick(&[near, near, near, near, any % 128, MOST_CORNERS - 1, MOST_CORNERS, any, usize::MAX])
    }
}

/// Indexes of corners at the ends of a route of so many, and past its last.
fn outermost(corners: usize) -> Vec<usize> {
    let mut indexes = vec![0, corners.saturating_sub(1), corners, corners + 1];
    indexes.extend([MOST_CORNERS - 1, MOST_CORNERS, MOST_CORNERS + 1, usize::MAX / CORNER_LENGTH, usize::MAX]);
    indexes.sort_unstable();
    indexes.dedup();
    indexes
}

/// Places that are not those of the book: another book's, noise near its records, its own cut short, and its own with noise
/// behind them.
fn wrong_places(random: &mut Random, bytes: &[u8], reading: &Reading) -> Vec<Vec<u32>> {
    let routes = random.below(6);
    let kinds = *random.pick(&BOTH_KINDS);
    let other = Reading::of(&made_up(random, kinds, routes).bytes()).places.to_vec();
    let length = 1 + random.below(40);
    let near: Vec<u32> = (0..length).map(|_| some_place(random, bytes)).collect();
    let rising = {
        let mut rising = near.clone();
        rising.sort_unstable();
        rising
    };
    let count = reading.book.as_ref().map_or(0, |book| book.routes.len());
    let cut = reading.places[..random.below(count + 2)].to_vec();
    let more = (0..random.below(8)).map(|_| some_place(random, bytes));
    let longer = reading.places.iter().copied().chain(more).collect();
    vec![other, near, rising, cut, longer]
}

/// A place at which, or some corners behind which, a route or a corner may stand in these bytes; or any other place.
fn some_place(random: &mut Random, bytes: &[u8]) -> u32 {
    let end = bytes.len() as u32;
    let found: Vec<usize> = if bytes.is_empty() {
        Vec::new()
    } else {
        let from = random.below(bytes.len());
        let kinds = (from..bytes.len()).filter(|&place| [ROUTE, OLDER_ROUTE, CORNER].contains(&bytes[place]));
        kinds.take(1).collect()
    };
    let back = (route_length(bytes) + CORNER_LENGTH * random.below(3)) as u32;
    match (random.below(8), found.first()) {
        (0..=2, Some(&place)) => place as u32,
        (3..=4, Some(&place)) => (place as u32).saturating_sub(back),
        (5, _) => end.saturating_sub(random.below(20) as u32),
        (6, _) => u32::MAX - random.below(1_200) as u32,
        (7, _) => random.word() as u32,
        _ => random.below(bytes.len() + 8) as u32,
    }
}

/// What is wrong with the independent reading itself: that it is not as the book was made, or that writing it does not give the
/// book back.
fn faults_of_reading(case: &BookCase, reading: &Reading) -> Vec<String> {
    let mut faults = Vec::new();
    let told = |read: &Result<PlanBook, Refusal>| read.as_ref().map_or_else(ToString::to_string, |_| "accepted".into());
    let agreed = match case.made {
        Made::Whole => reading.book.is_ok(),
        Made::Refused(refusal) => reading.book.as_ref().err() == Some(&refusal),
        Made::Anyhow => true,
    };
    if !agreed {
        let (made, read) = (case.made, told(&reading.book));
        faults.push(format!("the two readings of document 02 differ: made to be {made:?}, but {read}"));
    }
    if reading.book.as_ref().is_ok_and(|book| book.bytes() != case.bytes) {
        faults.push("writing what was read does not give the book".to_string());
    }
    faults
}

/// Counts a book by what reading it gives.
fn counted(case: &BookCase, reading: &Reading, report: &mut Report) {
    report.books += 1;
    match &reading.book {
        Ok(book) => {
            *report.accepted.entry(book.routes.len()).or_default() += 1;
            report.longest = report.longest.max(case.bytes.len());
        }
        Err(refusal) => *report.refused.entry(refusal.number).or_default() += 1,
    }
}

/// The bytes of a book for people, cut short where they are many.
fn shown(bytes: &[u8]) -> String {
    const MANY: usize = 1_000;
    match bytes.get(..MANY) {
        Some(first) => format!("{}.. of {} bytes", hex(first), bytes.len()),
        None => hex(bytes),
    }
}

/// Tries one book, which is lent twice, and adds what was found.
pub fn try_book(asker: &mut dyn Asker, case: &BookCase, random: &mut Random, report: &mut Report) {
    let reading = Reading::of(&case.bytes);
    counted(case, &reading, report);
    let mut trial = Trial { asker, random, calls: 0, faults: faults_of_reading(case, &reading) };
    let first = trial.random.below(2);
    for turn in [first, 1 - first] {
        trial.asker.lend(&case.bytes);
        trial.ask_whole(&reading);
        match turn {
            0 => trial.ask_parts(&reading),
            _ => trial.ask_astray(&case.bytes, &reading),
        }
        let changed = trial.asker.give_back();
        trial.faults.extend(changed);
    }
    report.calls += trial.calls;
    let faults = trial.faults;
    report.faults.extend(faults.iter().map(|fault| format!("{} ({}): {fault}", case.what, shown(&case.bytes))));
}

/// Tries the plan books of a seed from `from` on, in steps of `step`, below `to`. Each caller thread takes its own residue.
pub fn try_books(asker: &mut dyn Asker, seed: u64, from: u64, to: u64, step: u64) -> Report {
    let mut report = Report::of(Subject::Plans);
    let mut n = from;
    while n < to {
        let before = report.faults.len();
        try_book(asker, &book_case(seed, n), &mut Random::nth(!seed, n), &mut report);
        for fault in &mut report.faults[before..] {
            *fault = format!("seed {seed} book {n}: {fault}");
        }
        n += step;
    }
    report
}

/// The listing of a plan book, or of its refusal.
pub fn listed(bytes: &[u8]) -> String {
    PlanBook::read(bytes).map_or_else(listing::of_refusal, |book| listing::of_plan(&book))
}

/// Holds what a program printed that lists stored plan books to what is due, and adds what was found.
pub fn try_plan_listing(case: &BookCase, printed: &str, report: &mut Report) {
    let reading = Reading::of(&case.bytes);
    counted(case, &reading, report);
    report.calls += 1;
    let mut faults = faults_of_reading(case, &reading);
    let due = listed(&case.bytes);
    if printed != due {
        let same = printed.split_inclusive('\n').zip(due.split_inclusive('\n')).take_while(|(a, b)| a == b).count();
        let line =
            |text: &str| text.split_inclusive('\n').nth(same).map_or("none".to_string(), |line| format!("{line:?}"));
        faults.push(format!("line {} of the listing is {} and should be {}", same + 1, line(printed), line(&due)));
    }
    report.faults.extend(faults.iter().map(|fault| format!("{} ({}): {fault}", case.what, shown(&case.bytes))));
}
