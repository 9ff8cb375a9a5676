//! Jobs with two plan books each, to try a choice between the two (02, C-17): true books of every style in both orders, books that
//! are wrong in one respect, books and jobs that something damaged or cut, and bytes with no design.

use crate::book::job_bytes;
use crate::book_cases::{self, planned, touch};
use crate::book_damage;
use crate::choice::{Choice, OF_BOOK, OTHER_JOB, UNTRUE};
use crate::compare::{SPECIAL, nowhere, special};
use crate::damage;
use crate::foreign::{self, STYLES, Style};
use crate::generate::{self, CROSSINGS, KINDS};
use crate::graph::{Graph, Survey};
use crate::job::Job;
use crate::leases::{self, LAYOUTS};
use crate::plan_book::PlanBook;
use crate::random::Random;
use crate::refusal::Refusal;
use crate::untrue::{WAYS, Way, spoilt};

/// A job and two plan books to try.
#[derive(Clone, Debug)]
pub struct PairCase {
    /// The bytes of the job.
    pub job: Vec<u8>,
    /// The bytes of the first and of the second book.
    pub books: [Vec<u8>; 2],
    /// What is due by the way they were made; none where only reading tells.
    pub made: Option<Choice>,
    /// How they were made.
    pub label: String,
}

impl PairCase {
    /// The first book.
    pub fn first(&self) -> &[u8] {
        &self.books[0]
    }

    /// The second book.
    pub fn second(&self) -> &[u8] {
        &self.books[1]
    }
}

/// Both books as they are placed: the one with this index is the one that matters.
fn with(at: usize, book: Vec<u8>, other: Vec<u8>) -> [Vec<u8>; 2] {
    if at == 0 { [book, other] } else { [other, book] }
}

/// What pairs with such a book are called.
fn label_of_way(at: usize, way: Way) -> String {
    format!("{} {way:?}", ["first", "second"][at])
}

/// What pairs of two true books are called besides that dig the same and are not the same.
pub const EQUAL: &str = "equal trench, other routes";

/// What pairs are called of which some are in every comparison.
pub fn labels() -> Vec<String> {
    let ways = [0, 1].into_iter().flat_map(|at| WAYS.map(|way| label_of_way(at, way)));
    let styles = STYLES.iter().map(|style| format!("true {style:?}"));
    let others = ["touched", "damaged book", "damaged job", "no star", "noise", EQUAL].map(str::to_string);
    ways.chain(styles).chain(others).collect()
}

/// Books for each special job: how the two are made, and whether each then has the older kinds.
const PAIRINGS: [[(Style, bool); 2]; 6] = [
    [(Style::Planned, false), (Style::Planned, false)],
    [(Style::Planned, false), (Style::Bends, false)],
    [(Style::Bends, false), (Style::Planned, false)],
    [(Style::Stairs, false), (Style::Least, false)],
    [(Style::Planned, true), (Style::Planned, false)],
    [(Style::Planned, false), (Style::Planned, true)],
];

/// The n-th pair of a seed. The first are of special jobs, the same jobs for every seed.
pub fn pair_case(seed: u64, n: u64) -> PairCase {
    let random = &mut Random::nth(seed, n);
    if let Some(words) = SPECIAL.get(n as usize / PAIRINGS.len()) {
        return of_special(random, words, &PAIRINGS[n as usize % PAIRINGS.len()]);
    }
    let n = n - (SPECIAL.len() * PAIRINGS.len()) as u64;
    let (turn, round) = (n % 20, (n / 20) as usize);
    match turn {
        0..=4 => true_pair(random, STYLES[turn as usize], STYLES[round % STYLES.len()]),
        5..=11 => {
            let at = round * 7 + turn as usize - 5;
            untrue_pair(random, at % 2, WAYS[at / 2 % WAYS.len()])
        }
        12 | 13 => touched_pair(random, round % 2),
        14 | 15 => damaged_pair(random, turn as usize % 2, OF_BOOK[round % 4]),
        16..=18 => {
            let way = (round * 3 + turn as usize - 16) % damage::WAYS;
            let made = damage::damaged(random, way);
            let books = [any_book(random), any_book(random)];
            PairCase { job: made.bytes, books, made: Some(Err(made.refusal)), label: "damaged job".to_string() }
        }
        _ if round % 4 == 0 => noise(random),
        _ => no_star(random),
    }
}

/// A job of which every group is a star, or a blank one.
pub fn some_job(random: &mut Random) -> Job {
    let (kind, layout) = (*random.pick(&KINDS), *random.pick(&LAYOUTS));
    let crossing = *random.pick(&CROSSINGS);
    match random.below(20) {
        0 => Job { number: random.word() as u32, runs: Vec::new() },
        1 if random.once_in(2) => generate::full_star(random),
        1 => leases::full_lease(random),
        2..=4 => generate::star(random, kind),
        5..=8 => leases::lease(random, layout),
        9..=12 => generate::small_star(random, kind),
        13..=16 => leases::small_lease(random, layout),
        _ => generate::crossed_star(random, crossing),
    }
}

/// A true book of this style.
fn true_book(random: &mut Random, survey: &Survey, style: Style) -> PlanBook {
    let routes = foreign::routes(random, survey, style);
    foreign::book(survey, &routes)
}

/// A true book of any style.
fn some_true(random: &mut Random, survey: &Survey) -> PlanBook {
    let style = *random.pick(&STYLES);
    true_book(random, survey, style)
}

/// Which of two true books digs less.
fn less(books: &[PlanBook; 2]) -> Choice {
    Ok(if books[1].trench < books[0].trench { 2 } else { 1 })
}

fn refused(number: i32, at: usize) -> Option<Choice> {
    Some(Err(Refusal { number, place: at + 1 }))
}

/// Two books of a special job. Those of a job of which some run goes nowhere are true but for that: a route of one corner is its run's.
fn of_special(random: &mut Random, words: &str, pairing: &[(Style, bool); 2]) -> PairCase {
    let survey = Survey::of(special(words));
    let label = format!("special: {words}");
    let nowhere = nowhere(&survey.job);
    if survey.graph.stars().is_none() {
        let case = no_star_of(random, survey);
        return PairCase { label, made: nowhere.map(Err).or(case.made), ..case };
    }
    let books = pairing.map(|(style, _)| true_book(random, &survey, style));
    let made = match (nowhere, pairing.iter().position(|&(_, older)| older)) {
        (Some(refusal), _) => Some(Err(refusal)),
        (None, Some(at)) => refused(UNTRUE, at),
        (None, None) => Some(less(&books)),
    };
    let older = [pairing[0].1, pairing[1].1];
    let [first, second] = books;
    let bytes = |book: PlanBook, older: bool| if older { book.as_older().bytes() } else { book.bytes() };
    PairCase { job: job_bytes(&survey.job), books: [bytes(first, older[0]), bytes(second, older[1])], made, label }
}

fn true_pair(random: &mut Random, style: Style, other: Style) -> PairCase {
    let survey = Survey::of(some_job(random));
    let books = if random.once_in(10) {
        let book = true_book(random, &survey, style);
        [book.clone(), book]
    } else {
        [true_book(random, &survey, style), true_book(random, &survey, other)]
    };
    let (made, label) = (Some(less(&books)), format!("true {style:?}"));
    PairCase { job: job_bytes(&survey.job), books: books.map(|book| book.bytes()), made, label }
}

/// A pair of which one book is wrong in this way. Before it stands a true one; what stands behind it does not matter. A book of
/// another job may be untrue besides.
fn untrue_pair(random: &mut Random, at: usize, way: Way) -> PairCase {
    let (survey, mut book) = loop {
        let survey = Survey::of(some_job(random));
        let style = *random.pick(&STYLES);
        let routes = foreign::routes(random, &survey, style);
        if let Some(book) = spoilt(random, &survey, &routes, way) {
            break (survey, book);
        }
    };
    if way.number() == OTHER_JOB && random.once_in(3) {
        book = book.as_older();
    }
    if way.number() == OTHER_JOB && random.once_in(3) {
        book.trench ^= 1;
    }
    let other = if at == 0 { behind(random, &survey) } else { some_true(random, &survey).bytes() };
    let books = with(at, book.bytes(), other);
    PairCase { job: job_bytes(&survey.job), books, made: refused(way.number(), at), label: label_of_way(at, way) }
}

/// A book behind one that is refused: a true one or any.
fn behind(random: &mut Random, survey: &Survey) -> Vec<u8> {
    if random.once_in(2) { some_true(random, survey).bytes() } else { any_book(random) }
}

/// Some book that was made for no job of the pair, whole or not.
fn any_book(random: &mut Random) -> Vec<u8> {
    match random.below(4) {
        0 => planned(random).bytes(),
        1 => book_cases::whole_book(random).bytes(),
        2 => {
            let way = random.below(book_damage::WAYS);
            book_damage::damaged(random, way).bytes
        }
        _ => book_cases::noise(random),
    }
}

/// A true book, touched, cut, or with bytes behind it; the other is true.
fn touched_pair(random: &mut Random, at: usize) -> PairCase {
    let survey = Survey::of(some_job(random));
    let [mut bytes, other] = [some_true(random, &survey).bytes(), some_true(random, &survey).bytes()];
    match random.below(8) {
        0 => bytes.truncate(random.below(bytes.len())),
        1 => {
            let more = 1 + random.below(12);
            bytes.extend(random.bytes(more));
        }
        2 | 3 => {
            let place = random.below(bytes.len());
            bytes[place] ^= 1 << random.below(8);
        }
        _ => bytes = touch(random, bytes),
    }
    PairCase { job: job_bytes(&survey.job), books: with(at, bytes, other), made: None, label: "touched".to_string() }
}

/// A book that reading refuses with this number; before it stands a true one.
fn damaged_pair(random: &mut Random, at: usize, number: i32) -> PairCase {
    let survey = Survey::of(some_job(random));
    let damaged = loop {
        let way = random.below(book_damage::WAYS);
        let damaged = book_damage::damaged(random, way);
        if damaged.refusal.number == number {
            break damaged;
        }
    };
    let other = if at == 0 { behind(random, &survey) } else { some_true(random, &survey).bytes() };
    let books = with(at, damaged.bytes, other);
    PairCase { job: job_bytes(&survey.job), books, made: refused(number, at), label: "damaged book".to_string() }
}

/// Noise in place of a book, of both, or of all three.
fn noise(random: &mut Random) -> PairCase {
    let survey = Survey::of(some_job(random));
    let job = if random.once_in(2) { damage::noise(random) } else { job_bytes(&survey.job) };
    let books = [0; 2].map(|_| match random.once_in(3) {
        true => some_true(random, &survey).bytes(),
        false => book_cases::noise(random),
    });
    PairCase { job, books, made: None, label: "noise".to_string() }
}

/// A job of which some group is no star; the books have its numbers and routes of its runs, or are any.
fn no_star(random: &mut Random) -> PairCase {
    let survey = Survey::of(leases::broken_lease(random));
    no_star_of(random, survey)
}

/// The same for such a job. No plan of it is true: the books are those of runs that do not meet.
fn no_star_of(random: &mut Random, survey: Survey) -> PairCase {
    let alone = Survey { graph: Graph::by(survey.job.runs.len(), |_, _| false), ..survey };
    let books = [Style::Bends, Style::Stairs].map(|style| match random.once_in(4) {
        true => any_book(random),
        false => true_book(random, &alone, style).bytes(),
    });
    let (made, label) = (Some(Err(Refusal { number: 11, place: 0 })), "no star".to_string());
    PairCase { job: job_bytes(&alone.job), books, made, label }
}
