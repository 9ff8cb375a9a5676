//! The comparison of choosers passes a right one, and notices each wrong one.

mod common;

use std::sync::LazyLock;

use common::{EIGHT, SEVEN, read_by};
use trench_check::choice::outcomes;
use trench_check::choose::{Chooser, try_pair, try_pairs};
use trench_check::graph::Survey;
use trench_check::judge::Judge;
use trench_check::pair_cases::{PairCase, labels, pair_case};
use trench_check::plan_book::{Kinds, PlanBook};
use trench_check::read_back::Answered;
use trench_check::refusal::{self, Refusal};
use trench_check::report::{Report, Subject};

/// How a chooser can be wrong.
#[derive(Clone, Copy, Debug, PartialEq, Eq)]
enum Slip {
    None,
    /// What the judge says in these words is no fault.
    Unjudged(&'static str),
    JobNumberNotCompared,
    RunsNotCounted,
    RunNumbersNotCompared,
    OlderBefore15,
    TruthBefore15,
    Only15OfNewer,
    SecondBookFirst,
    BooksBeforeJob,
    SecondNotJudged,
    LongerNotJudged,
    PlaceInBook,
    PlaceOfChosen,
    PlaceFromZero,
    PlaceAlwaysFirst,
    JobsPlaceLost,
    NowhereForgotten,
    NowhereLast,
    NowhereOfFirst,
    EqualIsSecond,
    MoreTrench,
    MoreSaved,
    FirstAlways,
}

/// A second chooser, which can be made to slip.
struct Plain(Slip);

impl Plain {
    fn matches(&self, survey: &Survey, book: &PlanBook) -> bool {
        let runs = &survey.job.runs;
        let same = runs.iter().zip(&book.routes).all(|(run, route)| run.number == route.run);
        let Plain(slip) = *self;
        (slip == Slip::JobNumberNotCompared || book.job == survey.job.number)
            && (slip == Slip::RunsNotCounted || runs.len() == book.routes.len())
            && (slip == Slip::RunNumbersNotCompared || same)
            || slip == Slip::Only15OfNewer && book.kinds == Kinds::Older
    }

    /// Trench and saved of a book, or its refusal.
    fn book(&self, survey: &Survey, bytes: &[u8], at: usize) -> Result<(u32, u32), Refusal> {
        let refuse = |number: i32| Refusal { number, place: at };
        let book = PlanBook::read(bytes).map_err(|refused| match self.0 {
            Slip::PlaceInBook => refused,
            _ => refuse(refused.number),
        })?;
        let faults = Judge::of_anyones(survey.clone()).faults_of_book(&book);
        let judged = |fault: &&String| match self.0 {
            Slip::Unjudged(words) => !fault.contains(words),
            _ => true,
        };
        let of_job = ["job number", "number of runs", "names run"];
        let untrue = faults.iter().filter(judged).any(|fault| !of_job.iter().any(|words| fault.contains(words)));
        let early = match self.0 {
            Slip::OlderBefore15 => book.kinds == Kinds::Older,
            Slip::TruthBefore15 => untrue,
            _ => false,
        };
        match () {
            () if early => Err(refuse(16)),
            () if !self.matches(survey, &book) => Err(refuse(15)),
            () if untrue => Err(refuse(16)),
            () => Ok((book.trench, book.saved)),
        }
    }

    fn job(&self, job: &[u8]) -> Result<Survey, Refusal> {
        match (self.0, refusal::surveyed(job)) {
            (Slip::JobsPlaceLost, Err(refused)) => Err(Refusal { place: 0, ..refused }),
            (Slip::NowhereOfFirst, Err(refused)) if refused.number == 17 => Err(Refusal { place: 1, ..refused }),
            (Slip::NowhereForgotten | Slip::NowhereLast, Err(Refusal { number: 17, .. })) => going_anywhere(job),
            (_, answer) => answer,
        }
    }

    fn choose(&self, job: &[u8], first: &[u8], second: &[u8]) -> Result<usize, Refusal> {
        if self.0 == Slip::BooksBeforeJob {
            PlanBook::read(first).map_err(|refused| Refusal { place: 1, ..refused })?;
        }
        let survey = self.job(job)?;
        let read = |bytes: &[u8]| PlanBook::read(bytes).map_or((0, 0), |book| (book.trench, book.saved));
        let (one, two) = match self.0 {
            Slip::SecondBookFirst => {
                let two = self.book(&survey, second, 2)?;
                (self.book(&survey, first, 1)?, two)
            }
            Slip::SecondNotJudged => (self.book(&survey, first, 1)?, read(second)),
            Slip::LongerNotJudged if read(second).0 < read(first).0 => (read(first), self.book(&survey, second, 2)?),
            Slip::LongerNotJudged => (self.book(&survey, first, 1)?, read(second)),
            _ => (self.book(&survey, first, 1)?, self.book(&survey, second, 2)?),
        };
        if self.0 == Slip::NowhereLast {
            refusal::read(job)?;
        }
        let takes_second = match self.0 {
            Slip::EqualIsSecond => two.0 <= one.0,
            Slip::MoreTrench => two.0 > one.0,
            Slip::MoreSaved => two.1 < one.1,
            Slip::FirstAlways => false,
            _ => two.0 < one.0,
        };
        Ok(if takes_second { 2 } else { 1 })
    }
}

/// The survey of a job of which nobody asks whether a run goes nowhere.
fn going_anywhere(job: &[u8]) -> Result<Survey, Refusal> {
    let survey = Survey::of(read_by(job, &[SEVEN, EIGHT])?);
    if survey.graph.stars().is_some() { Ok(survey) } else { Err(Refusal { number: 11, place: 0 }) }
}

impl Chooser for Plain {
    fn choose(&mut self, job: &[u8], first: &[u8], second: &[u8]) -> Answered {
        let answer = Plain::choose(self, job, first, second);
        Answered { answer: answer.map_or_else(|refused| -i64::from(refused.number), |book| book as i64), strayed: None }
    }

    fn place(&mut self, job: &[u8], first: &[u8], second: &[u8]) -> Answered {
        let of_book =
            |refused: &Refusal| (12..17).contains(&refused.number) || refused.place < 3 && refused.number == 8;
        let place = match (self.0, Plain::choose(self, job, first, second)) {
            (Slip::PlaceOfChosen, Ok(book)) => book,
            (_, Ok(_)) => 0,
            (Slip::PlaceFromZero, Err(refused)) if of_book(&refused) => refused.place - 1,
            (Slip::PlaceAlwaysFirst, Err(refused)) if of_book(&refused) => 1,
            (_, Err(refused)) => refused.place,
        };
        Answered { answer: place as i64, strayed: None }
    }
}

/// Pairs of one seed, some with every label.
static PAIRS: LazyLock<Vec<PairCase>> = LazyLock::new(|| (0..2_000).map(|n| pair_case(24, n)).collect());

#[test]
fn a_right_chooser_passes() {
    let mut report = Report::of(Subject::Pairs);
    PAIRS.iter().for_each(|case| try_pair(&mut Plain(Slip::None), case, &mut report));
    assert_eq!(report.faults, Vec::<String>::new());
    assert_eq!((report.books, report.calls), (2_000, 4_000));
    assert_eq!(report.outcomes.values().sum::<usize>(), 2_000);
    let never: Vec<_> = outcomes().into_iter().filter(|what| !report.outcomes.contains_key(what)).collect();
    assert_eq!(never, Vec::<String>::new());
    let told = report.to_string();
    for what in outcomes() {
        assert!(told.contains(&format!("; {what}: {}", report.outcomes[&what])), "{what} is not in: {told}");
    }
}

#[test]
fn what_was_not_tried_is_told() {
    let untried = Report::of(Subject::Pairs).untried();
    assert_eq!(
        (untried[0].as_str(), untried[32].as_str()),
        ("a chosen book of 0 routes", "a chosen book of 32 routes")
    );
    assert_eq!(untried[33], "enough pairs first Trench");
    assert_eq!(untried.last().map(String::as_str), Some("enough pairs with the outcome second 16"));
    assert_eq!(untried.len(), 33 + labels().len() + outcomes().len());
    let few = try_pairs(&mut Plain(Slip::None), 11, 300, 700, 1).untried();
    assert!(few.iter().any(|what| what == "enough pairs with the outcome job 9"), "400 are too few: {few:?}");
}

/// The faults that the comparison finds with a chooser that slips, for the first pairs that show some.
fn assert_noticed(slip: Slip, words: &str) {
    let noticed = PAIRS.iter().any(|case| {
        let mut report = Report::of(Subject::Pairs);
        try_pair(&mut Plain(slip), case, &mut report);
        report.faults.iter().any(|fault| fault.contains(words))
    });
    assert!(noticed, "{slip:?}: `{words}` is in no fault");
}

#[test]
fn figures_that_are_not_judged_are_noticed() {
    for (words, label) in [
        ("trench is ", "Trench ("),
        ("saved is ", "Saved ("),
        ("pits is ", "Pits ("),
        ("pits is ", "Crossings ("),
        ("meets is ", "Meets ("),
        ("number of groups is ", "Groups ("),
        ("group's centre is ", " Centre ("),
        ("group's centre is ", "HigherCentre ("),
        ("group's centre is ", "CentreByIndex ("),
        ("older kinds", "Older ("),
    ] {
        assert_noticed(Slip::Unjudged(words), label);
    }
}

#[test]
fn routes_that_are_not_judged_are_noticed() {
    for (words, label) in [
        ("no crossing of survey lines", "OffLines ("),
        ("long, but its points are", "Detour ("),
        ("long, but its points are", "Loop ("),
        ("is not its first point", "FirstElsewhere ("),
        ("is not its second point", "SecondElsewhere ("),
    ] {
        assert_noticed(Slip::Unjudged(words), label);
    }
}

#[test]
fn books_of_other_jobs_are_noticed() {
    assert_noticed(Slip::JobNumberNotCompared, "JobNumber (");
    assert_noticed(Slip::RunsNotCounted, "RunMore (");
    assert_noticed(Slip::RunNumbersNotCompared, "RunNumber (");
    assert_noticed(Slip::RunNumbersNotCompared, "NumbersSwapped (");
    assert_noticed(Slip::Only15OfNewer, "the answer is -16 and should be -15");
}

#[test]
fn a_wrong_order_is_noticed() {
    assert_noticed(Slip::OlderBefore15, "the answer is -16 and should be -15");
    assert_noticed(Slip::TruthBefore15, "the answer is -16 and should be -15");
    assert_noticed(Slip::SecondBookFirst, "the place is 2 and should be 1");
    assert_noticed(Slip::SecondBookFirst, "the answer is -12 and should be -16");
    assert_noticed(Slip::BooksBeforeJob, "the answer is -12 and should be -11");
    assert_noticed(Slip::BooksBeforeJob, "the answer is -12 and should be -3");
    assert_noticed(Slip::BooksBeforeJob, "the answer is -12 and should be -17");
    assert_noticed(Slip::SecondNotJudged, "the answer is 1 and should be -16");
    assert_noticed(Slip::LongerNotJudged, "the answer is 1 and should be -16");
    assert_noticed(Slip::LongerNotJudged, "the answer is 2 and should be -16");
}

/// A run that goes nowhere is the job's fault: it is told before any of a book, with its own place, also where both books are what was
/// stored for this job.
#[test]
fn runs_that_go_nowhere_are_noticed() {
    assert_noticed(Slip::NowhereForgotten, "the answer is 1 and should be -17");
    assert_noticed(Slip::NowhereForgotten, "the answer is -16 and should be -17");
    assert_noticed(Slip::NowhereForgotten, "the answer is -11 and should be -17");
    assert_noticed(Slip::NowhereLast, "the answer is -16 and should be -17");
    assert_noticed(Slip::NowhereLast, "the answer is -12 and should be -17");
    assert_noticed(Slip::NowhereOfFirst, "the place is 1 and should be 5");
}

#[test]
fn wrong_places_are_noticed() {
    assert_noticed(Slip::PlaceInBook, "and should be 1");
    assert_noticed(Slip::PlaceInBook, "and should be 2");
    assert_noticed(Slip::PlaceOfChosen, "the place is 1 and should be 0");
    assert_noticed(Slip::PlaceOfChosen, "the place is 2 and should be 0");
    assert_noticed(Slip::PlaceFromZero, "the place is 0 and should be 1");
    assert_noticed(Slip::PlaceAlwaysFirst, "the place is 1 and should be 2");
    assert_noticed(Slip::JobsPlaceLost, "the place is 0 and should be 5");
}

#[test]
fn wrong_choices_are_noticed() {
    assert_noticed(Slip::EqualIsSecond, "the answer is 2 and should be 1");
    assert_noticed(Slip::MoreTrench, "the answer is 1 and should be 2");
    assert_noticed(Slip::MoreTrench, "the answer is 2 and should be 1");
    assert_noticed(Slip::MoreSaved, "the answer is 1 and should be 2");
    assert_noticed(Slip::FirstAlways, "the answer is 1 and should be 2");
}

/// A pair that was made to give something else is told, whatever the chooser says.
#[test]
fn a_pair_that_was_not_made_as_told_is_noticed() {
    let mut case = PAIRS.iter().find(|case| case.made == Some(Ok(1))).expect("a pair").clone();
    case.made = Some(Ok(2));
    let mut report = Report::of(Subject::Pairs);
    try_pair(&mut Plain(Slip::None), &case, &mut report);
    let told = "the two readings of document 02 differ: made to give book 2, but judged as book 1";
    assert!(report.faults.len() == 1 && report.faults[0].ends_with(told), "{:?}", report.faults);
}

/// Chooses as `Plain` does, and says that it strayed.
struct Careless(Plain);

impl Chooser for Careless {
    fn choose(&mut self, job: &[u8], first: &[u8], second: &[u8]) -> Answered {
        Answered { strayed: Some("one byte too far".to_string()), ..Chooser::choose(&mut self.0, job, first, second) }
    }

    fn place(&mut self, job: &[u8], first: &[u8], second: &[u8]) -> Answered {
        Answered { strayed: Some("one byte too early".to_string()), ..self.0.place(job, first, second) }
    }
}

#[test]
fn strays_are_told() {
    let faults = try_pairs(&mut Careless(Plain(Slip::None)), 11, 0, 3, 1).faults;
    assert_eq!(faults.len(), 6);
    assert!(faults[0].starts_with("seed 11 pair 0: special: ") && faults[0].ends_with(": one byte too far"));
    assert!(faults[1].ends_with(": one byte too early"));
}
