//! What the proved programs must print of job books is what is found here: of each what reading says, what planning it needs, and what a
//! least plan of it has.

use trench_check::cuts::Tried;
use trench_check::forecast::{Forecast, MOST_WORDS, forecast};
use trench_check::job::Job;
use trench_check::planner::{self, Plan};
use trench_check::refusal::{called, read, verdict};

/// The lines of a crate's input, each a label and hexadecimal digits, with the line that must be printed of it.
fn vectors(name: &str) -> Vec<(String, Vec<u8>, String)> {
    let folder = format!("{}/../crates/{name}_vectors", env!("CARGO_MANIFEST_DIR"));
    let [input, output] = ["stdin", "stdout"].map(|file| std::fs::read_to_string(format!("{folder}/{file}")).unwrap());
    assert_eq!(input.lines().count(), output.lines().count(), "{name}");
    let byte = |digits: &str| u8::from_str_radix(digits, 16).expect("a byte");
    let decoded = |digits: &str| (0..digits.len() / 2).map(|at| byte(&digits[2 * at..2 * at + 2])).collect();
    let line = |line: &str| line.split_once(' ').map(|(label, digits)| (label.to_string(), decoded(digits)));
    let lines = input.lines().map(|input| line(input).expect("a label and digits"));
    lines.zip(output.lines()).map(|((label, bytes), printed)| (label, bytes, printed.to_string())).collect()
}

/// The number and the place of the refusal, or two noughts, the job's number, and its runs.
#[test]
fn job_books_that_are_read() {
    let mut nowhere = 0;
    for (label, bytes, printed) in vectors("job") {
        let said = match read(&bytes) {
            Err(refused) => format!("{label} {} {}", refused.number, refused.place),
            Ok(job) => {
                job.runs.iter().fold(format!("{label} 0 0 job {} runs {}", job.number, job.runs.len()), |text, run| {
                    let (p, q) = (run.first, run.second);
                    format!("{text} | {} {} {} {} {}", run.number, p.x, p.y, q.x, q.y)
                })
            }
        };
        assert_eq!(printed, said);
        nowhere += usize::from(said.starts_with(&format!("{label} 17 ")));
    }
    assert!(nowhere >= 10, "jobs with a run that goes nowhere: {nowhere}");
}

/// What is told of a plan: groups, trench, saved, and each run's meets and centre, which are the same in all least plans.
fn told(job: &Job, plan: &Plan) -> String {
    let runs = plan.meets.iter().zip(&plan.centres);
    let runs: String = runs.map(|(meets, &c)| format!("{meets} {}, ", job.runs[c].number)).collect();
    format!("{} {} {} : {runs}kept", plan.groups, plan.trench, plan.saved)
}

/// The forecast of each job, or its refusal, and seven calls of the planner: lent just the forecast, more of both, a word less and a
/// byte less; twice by the function with work words of its own, lent the forecast's bytes and one less; and lent just the forecast by
/// the one that answers a code. Nothing, or little, is lent where there is no forecast. The trench of small jobs is the least of all
/// cuts, on survey lines or not.
#[test]
fn job_books_that_are_planned() {
    let (mut planned, mut nowhere, mut no_star, mut cut) = (0, 0, 0, Tried::default());
    for (label, bytes, printed) in vectors("planner") {
        let forecast = forecast(&bytes);
        let verdict = verdict(&bytes).map(|job| {
            planned += 1;
            let plan = planner::plan(&job).expect("stars");
            cut.hold(&job, plan.trench);
            told(&job, &plan)
        });
        nowhere += usize::from(matches!(&verdict, Err(refused) if refused.number == 17));
        no_star += usize::from(matches!(&verdict, Err(refused) if refused.number == 11));
        let (needs, w, b) = match forecast {
            Ok(Forecast { words, bytes }) => (format!("needs {words} {bytes}"), words, bytes),
            Err(refused) => (format!("refused {} {}", refused.number, refused.place), 0, 0),
        };
        let own = MOST_WORDS;
        let (w_less, b_less) = (w.saturating_sub(1), b.saturating_sub(1));
        let lent = [(w, b), (w + 16, b + 40), (w_less, b), (w, b_less), (own, b), (own, b_less), (w, b)];
        let due = lent.iter().fold(format!("{label} {needs}"), |text, &(words, bytes)| {
            match called(forecast, words, bytes, verdict.clone()) {
                Ok(told) => format!("{text} | {told}"),
                Err(refused) => format!("{text} | {} {} kept", refused.number, refused.place),
            }
        });
        assert_eq!(printed, due);
    }
    assert!(planned > 1_300 && nowhere > 15, "plans, and jobs with a run that goes nowhere: {planned} {nowhere}");
    assert!(no_star > 4, "jobs with a group that is no star: {no_star}");
    assert!(cut.faults.is_empty(), "{:?}", cut.faults);
    assert!(
        cut.with_room > 100 && cut.shared > 50,
        "small jobs with room between their lines: {} {}",
        cut.with_room,
        cut.shared
    );
}
