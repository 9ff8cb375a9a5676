//! The comparison of a planner, called as C calls `trench_plan_in`, `trench_plan` and what is asked of a job alone, with the independent
//! reading: many jobs of all kinds, each with every number of work words and every size of plan buffer that matters. Well-formed jobs
//! are written again besides, and plans are handed back.

use std::fmt;

use crate::book::{hex, job_bytes};
use crate::choose::{Chooser, faults_of_handing_back};
use crate::damage;
use crate::facts;
use crate::forecast::{Forecast, MOST_BYTES, MOST_WORDS, forecast};
use crate::generate::{self, CROSSINGS, KINDS};
use crate::graph::Survey;
use crate::job::Job;
use crate::judge::Judge;
use crate::leases::{self, LAYOUTS};
use crate::line;
use crate::listing;
use crate::random::Random;
use crate::read_back::Answered;
use crate::refusal::{self, Refusal};
use crate::report::{Report, Subject};
use crate::write_job::{Writer, faults_of_rewriting};

/// What a call is lent besides the job.
#[derive(Clone, Copy, Debug, PartialEq, Eq)]
pub struct Loan {
    /// The number of work words; none where the function has its own.
    pub words: Option<usize>,
    /// The length of the plan buffer.
    pub bytes: usize,
}

impl fmt::Display for Loan {
    fn fmt(&self, out: &mut fmt::Formatter) -> fmt::Result {
        match self.words {
            Some(words) => write!(out, "{words} words and {} bytes", self.bytes),
            None => write!(out, "own words and {} bytes", self.bytes),
        }
    }
}

/// What a job of this forecast is tried with: just that, one less of each and of both, none of each and of both, one more of both, and
/// the most that any job needs. One that is not well formed is tried with nothing, with little and with that.
pub fn loans(forecast: Option<Forecast>) -> Vec<Loan> {
    let most = Forecast { words: MOST_WORDS, bytes: MOST_BYTES };
    let Forecast { words, bytes } = forecast.unwrap_or(Forecast { words: 1, bytes: 22 });
    let fewer = words.saturating_sub(1);
    let lent = [(words, bytes), (fewer, bytes), (words, bytes - 1), (fewer, bytes - 1), (words + 1, bytes + 1)];
    let lent = lent.into_iter().chain([(0, 0), (0, bytes), (words, 0), (most.words, most.bytes)]);
    let mut loans: Vec<Loan> = lent.map(|(words, bytes)| Loan { words: Some(words), bytes }).collect();
    let own = [bytes, bytes - 1, 0, bytes + 1, most.bytes];
    loans.extend(own.map(|bytes| Loan { words: None, bytes }));
    loans
}

/// What is asked of a job alone.
#[derive(Clone, Copy, Debug, PartialEq, Eq)]
pub enum Asked {
    /// The forecast's words, or minus the refusal number.
    Words,
    /// The forecast's bytes, or minus the refusal number.
    Bytes,
    /// The place of that refusal, 0 for none.
    Place,
}

/// One call as its caller saw it.
pub struct Called {
    /// The plan's length, or minus the refusal number.
    pub answer: i32,
    /// A byte outside what the call may change that was changed, in words.
    pub strayed: Option<String>,
}

/// Whoever calls the planner: lends it memory of exactly these lengths, and watches the memory around it. A planner need not have all of
/// these functions.
pub trait Caller {
    /// Calls the planner that is lent its words, with these job bytes and with work words and a plan buffer of this content, which
    /// then hold what the call left.
    fn plan_in(&mut self, _job: &[u8], _work: &mut [u32], _out: &mut [u8]) -> Option<Called> {
        None
    }

    /// The same for the planner with words of its own.
    fn plan(&mut self, _job: &[u8], _out: &mut [u8]) -> Option<Called> {
        None
    }

    /// Asks something of these job bytes alone.
    fn ask(&mut self, _asked: Asked, _job: &[u8]) -> Option<Answered> {
        None
    }

    /// The writer of job books that stands beside the planner.
    fn writer(&mut self) -> Option<&mut dyn Writer> {
        None
    }

    /// The chooser between two plan books that stands beside the planner.
    fn chooser(&mut self) -> Option<&mut dyn Chooser> {
        None
    }
}

/// A job book to try, with what was made to be wrong with it where something was.
pub struct Case {
    /// The bytes.
    pub bytes: Vec<u8>,
    /// The refusal that is due by the way the book was made.
    pub made_wrong: Option<Refusal>,
    /// What kind of book it is.
    pub what: String,
}

/// Jobs that every comparison starts with: a blank one, the surveyed examples of document 01, jobs at the limits, leases of several
/// groups, some of which are no stars, and jobs of which some run goes nowhere (02, C-18).
pub(crate) const SPECIAL: [&str; 42] = [
    "# blank",
    "5,5 5,5",
    "0,0 3,4",
    "0,0 3,4; 0,0 3,4",
    "0,0 3,4; 0,0 3,4; 0,0 3,4",
    "0,0 3,3; 3,3 5,5",
    "0,0 3,3; 3,0 6,3",
    "0,0 4,3; 0,3 4,0",
    "0,0 4,3; 1,1 2,2",
    "0,0 6,6; 0,2 4,0; 4,6 6,2",
    "0,0 4,4; 0,2 0,4; 1,0 4,0",
    "0,2 4,2; 2,0 2,4",
    "0,0 3,0; 2,0 5,0",
    "0,0 40,30; 0,10 40,10; 20,20 20,50",
    "-1000000,-1000000 1000000,1000000",
    "1000000,-1000000 -1000000,1000000; -1000000,1000000 1000000,-1000000",
    "1000000,-1000000 -1000000,1000000; -1000000,-1000000 1000000,1000000",
    "-1000000,0 1000000,0; -1000000,1000000 -999999,-1000000; 999999,1000000 1000000,-1000000",
    "1000000,1000000 1000000,1000000",
    "1000000,1000000 1000000,999999",
    "-1000000,-1000000 -999999,-1000000",
    "-1000000,-1000000 -1000000,1000000; -1000000,999999 -1000000,-1000000",
    "0,0 1,0; 0,0 0,1",
    "5,6 6,5; 5,5 5,6; 5,5 6,5; 6,5 6,6",
    "0,0 2,2; 0,0 2,2; 2,2 4,4; 2,2 4,4",
    "0,0 2,2; 2,2 4,4; 0,0 2,2; 2,2 4,4; 4,4 4,5",
    "0,0 4,4; 1,1 2,2; 10,0 14,4; 11,1 12,2; 30,30 31,30",
    "10,0 14,4; 11,3 12,2; 13,1 14,0; 0,0 0,4; 0,1 0,9",
    "0,0 9,0; 0,0 0,9; 0,3 1,9; 4,2 8,6; 5,3 6,4; 5,0 9,0",
    "0,0 6,6; 3,3 3,3; 0,6 0,6; 9,9 9,9; 7,0 7,0",
    "0,3 6,3; 3,0 3,6; 1,3 2,3; 3,1 3,2",
    "0,0 3,4; 0,0 3,4; 0,0 3,4; 10,10 13,14; 10,10 13,14",
    "10,10 13,14; 10,10 13,14; 0,0 2,0; 1,0 4,0; 3,0 6,0; 5,0 8,0",
    "0,0 2,0; 1,0 3,0; 5,0 7,0; 6,0 9,0; 2,0 6,0",
    "0,0 2,0; 5,0 7,0; 1,0 6,0; 9,0 9,9",
    "5,5 5,5; 5,5 5,5; 5,5 5,5",
    "0,0 2,2; 2,2 4,4; 0,0 2,2; 2,2 4,4; 4,4 4,4",
    "0,0 3,4; 0,0 3,4; 0,0 3,4; 9,9 9,9",
    "4,0 6,2; 0,0 2,2; 4,0 6,2; 0,0 2,2; 4,0 6,2",
    "0,0 1,1; 1,1 2,2; 2,2 3,3; 3,3 4,4; 1,0 2,1; 2,1 3,2",
    "0,0 0,1; 0,0 1,0; 1,1 0,1; 1,1 1,0; 0,1 0,2",
    "-1000000,-1000000 0,0; 0,0 1000000,1000000; -1000000,1000000 0,0; 0,0 1000000,-1000000",
];

/// The job 7 of such a line.
pub(crate) fn special(words: &str) -> Job {
    line::parse(words, 7).expect("a job line").unwrap_or(Job { number: 7, runs: Vec::new() })
}

/// The refusal of a special job of which a run goes nowhere: it stands at the first of them. Nothing else of such a job is wrong but
/// that some group may be no star.
pub(crate) fn nowhere(job: &Job) -> Option<Refusal> {
    let at = job.runs.iter().position(|run| run.first == run.second)?;
    Some(Refusal { number: 17, place: 5 + 19 * at })
}

/// The n-th case of a seed. The first are special ones, the same for every seed.
pub fn case(seed: u64, n: u64) -> Case {
    if let Some(words) = SPECIAL.get(n as usize) {
        let job = special(words);
        return Case { bytes: job_bytes(&job), made_wrong: nowhere(&job), what: format!("special: {words}") };
    }
    let n = n - SPECIAL.len() as u64;
    if let Some(byte) = n.checked_sub(1).filter(|&byte| byte < 256) {
        return Case { bytes: vec![byte as u8], made_wrong: None, what: "one byte".to_string() };
    }
    if n == 0 {
        let made_wrong = Some(Refusal { number: 3, place: 0 });
        return Case { bytes: Vec::new(), made_wrong, what: "no byte".to_string() };
    }
    let mut random = Random::nth(seed, n);
    let (turn, round) = (n % 20, (n / 20) as usize);
    let kind = KINDS[round % KINDS.len()];
    let layout = LAYOUTS[(5 * round + turn as usize) % LAYOUTS.len()];
    let whole = |what: String, job: Job| Case { bytes: job_bytes(&job), made_wrong: None, what };
    match turn {
        0..=3 => whole(format!("star {kind:?}"), generate::star(&mut random, kind)),
        4..=8 => whole(format!("lease {layout:?}"), leases::lease(&mut random, layout)),
        9 if round % 2 == 0 => whole("star of 64 columns and rows".to_string(), generate::full_star(&mut random)),
        9 => whole("lease of 64 columns and rows".to_string(), leases::full_lease(&mut random)),
        10 if round % 2 == 0 => whole(format!("small star {kind:?}"), generate::small_star(&mut random, kind)),
        10 => whole(format!("small lease {layout:?}"), leases::small_lease(&mut random, layout)),
        11..=13 => whole("near star or lease".to_string(), leases::near(&mut random)),
        14 => whole("any runs".to_string(), generate::any(&mut random)),
        15..=17 => {
            let way = (round * 3 + turn as usize - 15) % damage::WAYS;
            let made = damage::damaged(&mut random, way);
            Case { bytes: made.bytes, made_wrong: Some(made.refusal), what: made.what.to_string() }
        }
        18 => Case { bytes: damage::touched(&mut random), made_wrong: None, what: "touched book".to_string() },
        _ => Case { bytes: damage::noise(&mut random), made_wrong: None, what: "noise".to_string() },
    }
}

/// The n-th small star of a seed in which cables are made to cross.
pub fn crossed_case(seed: u64, n: u64) -> Case {
    let crossing = CROSSINGS[(n % CROSSINGS.len() as u64) as usize];
    let job = generate::crossed_star(&mut Random::nth(seed, n), crossing);
    Case { bytes: job_bytes(&job), made_wrong: None, what: format!("crossed star {crossing:?}") }
}

/// The n-th small job of a seed with room between its survey lines.
pub fn roomy_case(seed: u64, n: u64) -> Case {
    let job = generate::roomy(&mut Random::nth(seed, n));
    Case { bytes: job_bytes(&job), made_wrong: None, what: "room between the lines".to_string() }
}

/// What is due for a job: a plan that the judge passes, or a refusal.
type Due = Result<Judge, Refusal>;

/// Tries one case with all that it may be lent, and adds what was found.
pub fn try_case(caller: &mut dyn Caller, case: &Case, random: &mut Random, report: &mut Report) {
    let mut faults = Vec::new();
    let (forecast, due) = (forecast(&case.bytes), due(case, report, &mut faults));
    faults.extend(faults_of_asking(caller, &case.bytes, forecast, report));
    let noise = (random.words(MOST_WORDS + 1), random.bytes(MOST_BYTES + 1));
    let mut plan = Vec::new();
    for loan in loans(forecast.ok()) {
        let due = refusal::called(forecast, loan.words.unwrap_or(MOST_WORDS), loan.bytes, due.as_ref().map_err(|r| *r));
        let Some(call) = Call::made(caller, &case.bytes, loan, &noise) else { continue };
        report.calls += 1;
        let found = match due {
            Ok(judge) => call.faults_of_plan(judge, forecast.expect("an accepted job"), &mut plan),
            Err(refused) => call.faults_of_refusal(refused.number),
        };
        faults.extend(call.called.strayed.iter().chain(&found).map(|fault| format!("{loan}: {fault}")));
    }
    report.filled += usize::from(forecast.is_ok_and(|forecast| plan.len() == forecast.bytes));
    if let (Ok(job), Some(writer)) = (refusal::read(&case.bytes), caller.writer()) {
        report.calls += 1;
        report.written_again += 1;
        faults.extend(faults_of_rewriting(writer, &job, &case.bytes, random));
    }
    if let Some(chooser) = caller.chooser().filter(|_| !plan.is_empty()) {
        report.calls += 2;
        report.handed_back += 1;
        faults.extend(faults_of_handing_back(chooser, &case.bytes, &plan));
    }
    report.books += 1;
    report.longest = report.longest.max(plan.len());
    report.faults.extend(faults.iter().map(|fault| format!("{} ({}): {fault}", case.what, hex(&case.bytes))));
}

/// What is due for a case by reading it; a fault where it was made to be refused otherwise.
fn due(case: &Case, report: &mut Report, faults: &mut Vec<String>) -> Due {
    let due = refusal::surveyed(&case.bytes);
    if let Some(made) = case.made_wrong
        && due.as_ref().err() != Some(&made)
    {
        let read = due.as_ref().map_or_else(ToString::to_string, |_| "accepted".to_string());
        faults.push(format!("the two readings of documents 01 and 02 differ: made to be {made}, but read as {read}"));
    }
    match &due {
        Ok(survey) => {
            *report.accepted.entry(survey.job.runs.len()).or_default() += 1;
            *report.groups.entry(survey.graph.groups().len()).or_default() += 1;
            count_facts(survey, report);
        }
        Err(refused) => {
            *report.refused.entry(refused.number).or_default() += 1;
            if let Some(job) = refusal::read(&case.bytes).ok().filter(|_| refused.number == 11) {
                count_facts(&Survey::of(job), report);
            }
            if refused.number == 17 {
                *report.kinds.entry(facts::NOWHERE.to_string()).or_default() += 1;
            }
        }
    }
    due.map(Judge::new)
}

fn count_facts(survey: &Survey, report: &mut Report) {
    facts::of(survey).into_iter().for_each(|fact| *report.kinds.entry(fact.to_string()).or_default() += 1);
}

/// One call, with what it was lent before and after it.
struct Call<'a> {
    called: Called,
    /// The work words and the plan buffer at entry, and as the call left them.
    entry: (&'a [u32], &'a [u8]),
    left: (Vec<u32>, Vec<u8>),
}

impl Call<'_> {
    /// Makes a call with this loan, out of this noise; none where the planner has no such function.
    fn made<'a>(
        caller: &mut dyn Caller,
        job: &[u8],
        loan: Loan,
        (words, bytes): &'a (Vec<u32>, Vec<u8>),
    ) -> Option<Call<'a>> {
        let entry = (&words[..loan.words.unwrap_or(0)], &bytes[..loan.bytes]);
        let (mut work, mut out) = (entry.0.to_vec(), entry.1.to_vec());
        let called = match loan.words {
            Some(_) => caller.plan_in(job, &mut work, &mut out),
            None => caller.plan(job, &mut out),
        };
        Some(Call { called: called?, entry, left: (work, out) })
    }

    /// What is wrong where a plan is due. `plan` is the last plan that was judged for this job, and becomes this one.
    fn faults_of_plan(&self, judge: &Judge, forecast: Forecast, plan: &mut Vec<u8>) -> Vec<String> {
        let (answer, (work, out)) = (self.called.answer, &self.left);
        let Some(length) = usize::try_from(answer).ok().filter(|&length| length <= out.len()) else {
            return vec![format!("the answer is {answer}, but a plan is due")];
        };
        let mut faults = Vec::new();
        let cleared = forecast.words.min(work.len());
        if work[..cleared].iter().any(|&word| word != 0) {
            faults.push("a word of the forecast is not 0".to_string());
        }
        if work[cleared..] != self.entry.0[cleared..] {
            faults.push("a word behind the forecast was changed".to_string());
        }
        if length > forecast.bytes {
            faults.push(format!("the plan has {length} bytes, and the forecast is {}", forecast.bytes));
        }
        if out[length..] != self.entry.1[length..] {
            faults.push("a byte behind the plan was changed".to_string());
        }
        if plan.is_empty() || plan[..] != out[..length] {
            faults.extend(judge.faults(&out[..length]));
            *plan = out[..length].to_vec();
        }
        faults
    }

    /// What is wrong where this refusal is due.
    fn faults_of_refusal(&self, number: i32) -> Vec<String> {
        let answer = self.called.answer;
        let wrong = (answer != -number).then(|| format!("the answer is {answer} and should be {}", -number));
        let words = (self.left.0 != self.entry.0).then(|| "a refused call changed the work words".to_string());
        let bytes = (self.left.1 != self.entry.1).then(|| "a refused call changed the plan buffer".to_string());
        [wrong, words, bytes].into_iter().flatten().collect()
    }
}

/// What is wrong with the answers about a job alone, where this forecast is due, or this refusal of the job's bytes.
fn faults_of_asking(
    caller: &mut dyn Caller,
    job: &[u8],
    due: Result<Forecast, Refusal>,
    report: &mut Report,
) -> Vec<String> {
    let number_of = |of: fn(Forecast) -> usize| due.map_or_else(|refused| -i64::from(refused.number), |f| of(f) as i64);
    let place = due.err().map_or(0, |refused| refused.place as i64);
    let asked = [
        (Asked::Words, "the forecast's words", number_of(|forecast| forecast.words)),
        (Asked::Bytes, "the forecast's bytes", number_of(|forecast| forecast.bytes)),
        (Asked::Place, "the place", place),
    ];
    let mut faults = Vec::new();
    for (asked, what, due) in asked {
        let Some(Answered { answer, strayed }) = caller.ask(asked, job) else { continue };
        report.calls += 1;
        faults.extend((answer != due).then(|| format!("{what}: {answer} is told and should be {due}")));
        faults.extend(strayed.map(|fault| format!("{what}: {fault}")));
    }
    faults
}

/// Holds what a listing program printed for one case to what is due, with the place of a refusal, and adds what was found.
pub fn try_listing(case: &Case, printed: &str, report: &mut Report) {
    let mut faults = Vec::new();
    match due(case, report, &mut faults) {
        Err(refused) if printed != listing::of_refusal(refused) => {
            faults.push(format!("the listing is `{}` and should be `{refused}`", printed.trim_end()));
        }
        Err(_) => {}
        Ok(judge) => match listing::read_plan(printed) {
            Ok(plan) => {
                report.longest = report.longest.max(plan.bytes().len());
                faults.extend(judge.faults(&plan.bytes()));
            }
            Err(fault) => faults.push(format!("no listing of a plan, but a plan is due: {fault}")),
        },
    }
    report.books += 1;
    report.calls += 1;
    report.faults.extend(faults.iter().map(|fault| format!("{} ({}): {fault}", case.what, hex(&case.bytes))));
}

/// Tries the cases of a seed from `from` on, in steps of `step`, below `to`. Each caller thread takes its own residue.
pub fn try_cases(caller: &mut dyn Caller, seed: u64, from: u64, to: u64, step: u64) -> Report {
    let mut report = Report::of(Subject::Jobs);
    let mut n = from;
    while n < to {
        let before = report.faults.len();
        try_case(caller, &case(seed, n), &mut Random::nth(!seed, n), &mut report);
        for fault in &mut report.faults[before..] {
            *fault = format!("seed {seed} job {n}: {fault}");
        }
        n += step;
    }
    report
}
