//! The benchmark: the archive's planner, two C planners and the independent planner on the same jobs, the archive's reader and the
//! plain C reader on the same plan books, and the archive's choice between two plan books beside planning their job, in one run. With the
//! program `table_rounds`, filling and tracing alone are timed as well. With `--limit` it is a test: exit status 1 where planning stars,
//! filling and tracing, or reading takes more than so many times as long by C as is promised, or a lease more than so many times as long
//! as a star of as many runs, or judging a plan book longer than planning its job twice.

use std::hint::black_box;
use std::path::Path;
use std::process::ExitCode;
use std::time::Instant;

use trench_archive::call::{Planner, Whose, choose, frame_of, plan, plan_in, planned, processor_time, rounds_in_c};
use trench_archive::ended;
use trench_archive::program::table_figure;
use trench_check::book::job_bytes;
use trench_check::enumerate;
use trench_check::forecast::{Forecast, forecast};
use trench_check::foreign::{self, Style};
use trench_check::generate::spread_star;
use trench_check::graph::Survey;
use trench_check::job::{Job, MOST_RUNS, Point};
use trench_check::leases::spread_lease;
use trench_check::pits;
use trench_check::plan_book::{Kinds, MOST_CORNERS, PlanBook, RouteRecord};
use trench_check::planner::plan_surveyed;
use trench_check::random::Random;
use trench_check::refusal::{self, surveyed};

const USAGE: &str = "\
usage: bench [PROGRAM]                  times planners and readers, and PROGRAM, which is `table_rounds`, against C
       bench --limit FACTOR [PROGRAM]   fails where planner, reader or PROGRAM takes more than FACTOR times as long as it may";

const RUNS: [usize; 9] = [2, 3, 4, 6, 8, 12, 16, 24, 32];
/// Leases: so many groups of so many runs.
const LEASES: [(usize, usize); 2] = [(4, 8), (16, 2)];
/// Jobs of each size.
const JOBS: u64 = 16;
/// Rounds, of which the quickest counts; the independent planner has fewer.
const ROUNDS: usize = 400;
const FEWER: usize = 40;
/// Calls for each job of a round.
const CALLS: usize = 4;

/// Jobs of 32 runs for which filling and tracing alone are timed.
const TABLES: usize = 8;
/// Rounds of the two calls whose times are compared, and how often these are made.
const FEW: u32 = 1;
const MANY: u32 = 2_001;
const REPEATS: usize = 40;

/// The same where a limit is tested: rounds for each size, tables, the longer of the two calls, how often they are made, and rounds of
/// choosing between plans.
const LIMIT_ROUNDS: usize = 250;
const LIMIT_TABLES: usize = 3;
const LIMIT_MANY: u32 = 501;
const LIMIT_REPEATS: usize = 30;
const LIMIT_CHOOSING: usize = 60;
/// Bytes of plan books that are read for one measurement of a reader, the same book over and over: about 100 microseconds' work.
const READ_BYTES: usize = 100_000;

/// Where a ratio is above the limit, measuring goes on until it took so many times as long.
const PATIENCE: u32 = 10;
/// How long planning a star of up to so many runs may take in lent words, by tuned C that clears as many: that is promised.
const PROMISED: [(usize, f64); 2] = [(8, 1.0), (MOST_RUNS, 1.1)];
/// Judging a plan book may take as long as planning its job so many times.
const PLANNINGS: f64 = 2.0;

const NOTE: &str = "\
Microseconds a job: the quickest of 400 rounds over the same 16 jobs of each size. The planners in lent words take turns in each round, and
in being its first.
The one in words of its own has rounds by itself: behind the same code in lent words it would find the processor used to these jobs.
The independent one comes last and has 40: it would leave cold caches to the one behind it.
Each job is a star of so many runs on a grid of twice as many columns and rows, all of it in the centre's box, or a lease of several
such stars side by side: 4 x 8 are four groups of eight runs.
Every planner reads the job book, tests it, plans it and writes the plan book. Plan buffers are not cleared between calls.
`proved` is the archive's trench_plan_in. It is lent the words and the bytes that are forecast for the job, and leaves the words 0.
`C` is bench/table.c, the same table algorithm in plain C, by cc -O3, which is lent the same and clears as many words. `tuned` is that
one with what makes the proved planner quick besides: lines are found by counting, each run's box is made once, and the first row, the
first column and the inner vertices of the table are filled apart.
`own words` is the archive's trench_plan, which has words of its own; the plan buffer is the same.
`independent` is the planner of this folder, which enumerates small jobs and takes the in-out graph for all.
The ratio that is wanted, for stars, is `proved / tuned`: at most 1.0 up to 8 runs, at most 1.1 up to 32.";

const TABLE_NOTE: &str = "\
Filling the table and tracing the walk alone, for the first 8 of the jobs of 32 runs (64 x 64 lines), in microseconds a round.
`proved` is the program crates/table_rounds, which calls the planner's `fill` and `Trace::put_walk` and is timed from outside, as a
process; `C` and `tuned` are the same work by bench/table.c, called in the benchmark. A round is what 2,001 rounds take more than 1, by the
quickest of 40 runs of each, divided by 2,000, in processor time. They take turns, and neither clears the table between rounds.";

const LEASE_NOTE: &str = "\
Leases, in microseconds: `lease` is planned as one job, `one group` is one of its groups as a job of its own, on average, `groups` is as many
times that, and `star` is a star of as many runs as the lease. The quickest of 400 rounds, in which all take turns. A lease pays for the
lines and the meetings of all its runs, and for its tables as its groups do.";

const READING_NOTE: &str = "\
Reading a plan book, in microseconds a book: the quickest of 400 rounds, in which both readers take turns.
`proved` is the archive's reader; `C` is bench/read.c, the same reader in plain C, by cc -O3. `trench_read` is reading alone. `every
corner` is a caller's loop in C over the whole book: trench_places, then trench_route for each route and trench_corner for each corner, up
to the first that is not there.
samples/full.plan is the plan of 32 runs on 64 columns and 64 rows; the longest book is made up, and no book that is read is longer.
Wanted is a ratio of at most 1: that reading takes no longer than the same reader in plain C.";

const CHOOSING_NOTE: &str = "\
Choosing between two plan books, in microseconds: the quickest of 400 rounds, in which choosing and planning take turns, over the same 16
stars of 32 runs (64 x 64 lines). `trench_choose` judges the job and both books; `trench_plan` plans the job. `planned` books are both the
planner's own, `staircases` have routes with as many corners as their boxes allow. Half of `trench_choose` is taken for one book.
Wanted is that one book takes less than planning the job twice.";

fn main() -> ExitCode {
    let words: Vec<String> = std::env::args().skip(1).collect();
    let words: Vec<&str> = words.iter().map(String::as_str).collect();
    let good = match words[..] {
        ["--limit", limit] => limit.parse().ok().map(|limit| limited(limit, "")),
        ["--limit", limit, program] => limit.parse().ok().map(|limit| limited(limit, program)),
        [] => Some(benchmark("")),
        [program] if !program.starts_with('-') => Some(benchmark(program)),
        _ => None,
    };
    ended(good, USAGE)
}

/// Prints all times; there is nothing to fail.
fn benchmark(program: &str) -> bool {
    println!("{NOTE}\n");
    println!(
        "| runs | proved | C | tuned | own words | independent | proved / tuned | proved / C | independent / proved |"
    );
    println!("|---:|---:|---:|---:|---:|---:|---:|---:|---:|");
    let rows = rows();
    for (size, [proved, plain, tuned, own, independent]) in sizes().iter().zip(&rows) {
        let (by_tuned, by_plain, to_proved) = (proved / tuned, proved / plain, independent / proved);
        println!(
            "| {size} | {proved:.2} | {plain:.2} | {tuned:.2} | {own:.2} | {independent:.0} | {by_tuned:.2} | {by_plain:.2} | {to_proved:.0} |"
        );
    }
    println!("\nHow the cost grows from n runs to 2n, which has four times the vertices:\n");
    println!("| from | to | proved | C | tuned | own words | independent |");
    println!("|---:|---:|---:|---:|---:|---:|---:|");
    for (from, to) in [(2, 4), (3, 6), (4, 8), (6, 12), (8, 16), (12, 24), (16, 32)] {
        let at = |runs: usize| rows[RUNS.iter().position(|&known| known == runs).expect("a measured size")];
        let factors: Vec<String> =
            at(from).iter().zip(at(to)).map(|(less, more)| format!("x {:.1}", more / less)).collect();
        println!("| {from} | {to} | {} |", factors.join(" | "));
    }
    println!();
    print_leases();
    println!();
    print_readings();
    println!();
    print_choosings();
    println!();
    if Path::new(program).is_file() {
        tables(program);
    } else {
        println!("{}: filling and tracing alone is not timed.", missing(program));
    }
    true
}

/// Why there is no table program to time.
fn missing(program: &str) -> String {
    match program {
        "" => "No table program is named".to_string(),
        name => format!("There is no program {name} (`rt run` in crates/table_rounds makes it)"),
    }
}

/// Times filling and tracing alone.
fn tables(program: &str) {
    println!("{TABLE_NOTE}\n");
    println!("| job | proved | C | tuned | proved / C | proved / tuned |");
    println!("|---:|---:|---:|---:|---:|---:|");
    let mut sums = [0.0; 3];
    for (at, job) in books(32).into_iter().take(TABLES).enumerate() {
        let mut table = Table::new(program, job, MANY);
        (0..REPEATS).for_each(|_| table.round());
        let times = table.times();
        sums = [0, 1, 2].map(|who| sums[who] + times[who]);
        print_table(&(at + 1).to_string(), times);
    }
    print_table("mean", sums.map(|sum| sum / TABLES as f64));
}

fn print_table(name: &str, [proved, in_c, tuned]: [f64; 3]) {
    println!("| {name} | {proved:.2} | {in_c:.2} | {tuned:.2} | {:.2} | {:.2} |", proved / in_c, proved / tuned);
}

/// Filling and tracing alone for a job, by the proved program and by the two C planners.
struct Table<'a> {
    program: &'a str,
    job: Vec<u8>,
    many: u32,
    /// The quickest call of one round so far, and of many: the proved program's, and the C planners'.
    quickest: [[f64; 3]; 2],
}

impl Table<'_> {
    fn new(program: &str, job: Vec<u8>, many: u32) -> Table<'_> {
        Table { program, job, many, quickest: [[f64::INFINITY; 3]; 2] }
    }

    fn round(&mut self) {
        for (rounds, quickest) in [FEW, self.many].into_iter().zip(&mut self.quickest) {
            let frame = frame_of(&self.job, 0, rounds).expect("a star");
            let start = processor_time(Whose::Programs);
            let proved = table_figure(self.program, &frame).unwrap_or_else(|error| panic!("{}: {error}", self.program));
            let proved_time = processor_time(Whose::Programs) - start;
            let [plain, tuned] = [false, true].map(|tuned| {
                let start = processor_time(Whose::Own);
                let (in_c, _) = black_box(rounds_in_c(tuned, black_box(&self.job), rounds));
                assert_eq!(proved, Some(in_c), "what both save");
                processor_time(Whose::Own) - start
            });
            keep(quickest, [proved_time, plain, tuned]);
        }
    }

    /// Microseconds a round of filling and tracing: the proved program's, and the C planners'.
    fn times(&self) -> [f64; 3] {
        [0, 1, 2].map(|who| (self.quickest[1][who] - self.quickest[0][who]) / f64::from(self.many - FEW))
    }
}

fn keep<const N: usize>(quickest: &mut [f64; N], times: [f64; N]) {
    quickest.iter_mut().zip(times).for_each(|(least, time)| *least = least.min(time));
}

fn books(runs: usize) -> Vec<Vec<u8>> {
    (0..JOBS).map(|n| job_bytes(&spread_star(&mut Random::nth(runs as u64, n), runs))).collect()
}

/// Leases of so many groups of so many runs.
fn leases((groups, runs): (usize, usize)) -> Vec<Vec<u8>> {
    let lease = |n| spread_lease(&mut Random::nth((100 * groups + runs) as u64, n), groups, runs);
    (0..JOBS).map(|n| job_bytes(&lease(n))).collect()
}

/// The groups of a job, each as a job of its own.
fn groups_of(job: &[u8]) -> Vec<Vec<u8>> {
    let Survey { job, graph, .. } = Survey::of(refusal::read(job).expect("a well-formed job"));
    let alone = |group: &Vec<usize>| Job { number: job.number, runs: group.iter().map(|&i| job.runs[i]).collect() };
    graph.groups().iter().map(|group| job_bytes(&alone(group))).collect()
}

/// What a lease is called.
fn lease_name((groups, runs): (usize, usize)) -> String {
    format!("{groups} x {runs}")
}

/// The sizes of all jobs: stars, then leases.
fn sizes() -> Vec<String> {
    RUNS.iter().map(usize::to_string).chain(LEASES.map(lease_name)).collect()
}

/// Jobs of one size, with words and a plan buffer that have room for the forecast of each.
struct Jobs {
    books: Vec<(Vec<u8>, Forecast)>,
    work: Vec<u32>,
    out: Vec<u8>,
    /// Who is first in the next round.
    first: usize,
}

impl Jobs {
    fn of(books: Vec<Vec<u8>>) -> Jobs {
        let known = |job: Vec<u8>| {
            let forecast = forecast(&job).expect("a well-formed job");
            (job, forecast)
        };
        let books: Vec<(Vec<u8>, Forecast)> = books.into_iter().map(known).collect();
        let most = |of: fn(&Forecast) -> usize| books.iter().map(|(_, forecast)| of(forecast)).max().expect("jobs");
        let (work, out) = (vec![0; most(|forecast| forecast.words)], vec![0; most(|forecast| forecast.bytes)]);
        Jobs { books, work, out, first: 0 }
    }

    /// Microseconds a job that a planner takes which is lent just the forecast.
    fn lent(&mut self, planner: Planner) -> f64 {
        let Jobs { books, work, out, .. } = self;
        timed(books, CALLS, |(job, Forecast { words, bytes })| {
            let answer = plan_in(planner, job, &mut work[..*words], &mut out[..*bytes]);
            assert!(black_box(answer) > 0, "a plan");
        })
    }

    /// Microseconds a job that the archive takes with words of its own.
    fn own(&mut self) -> f64 {
        let Jobs { books, out, .. } = self;
        timed(books, CALLS, |(job, forecast)| {
            assert!(black_box(plan(job, &mut out[..forecast.bytes])) > 0, "a plan");
        })
    }

    /// Microseconds a job in lent words: the archive, plain C, and tuned C. Each is first in its turn, and meets cold caches then.
    fn all(&mut self) -> [f64; 3] {
        let planners = [Planner::Archive, Planner::Table, Planner::Tuned];
        let mut times = [0.0; 3];
        for at in 0..planners.len() {
            let who = (self.first + at) % planners.len();
            times[who] = self.lent(planners[who]);
        }
        self.first += 1;
        times
    }
}

/// The jobs of all sizes.
fn jobs() -> Vec<Jobs> {
    RUNS.iter().map(|&runs| books(runs)).chain(LEASES.map(leases)).map(Jobs::of).collect()
}

/// Microseconds a job for each planner, for each size. A round has all sizes, so that a slow while of the machine spoils none.
fn rows() -> Vec<[f64; 5]> {
    let mut jobs = jobs();
    let mut rows = vec![[f64::INFINITY; 5]; jobs.len()];
    for _ in 0..ROUNDS {
        for (jobs, quickest) in jobs.iter_mut().zip(&mut rows) {
            let [proved, plain, tuned] = jobs.all();
            keep(quickest, [proved, plain, tuned, f64::INFINITY, f64::INFINITY]);
        }
    }
    for _ in 0..ROUNDS {
        for (jobs, quickest) in jobs.iter_mut().zip(&mut rows) {
            quickest[3] = jobs.own().min(quickest[3]);
        }
    }
    for _ in 0..FEWER {
        for (jobs, quickest) in jobs.iter().zip(&mut rows) {
            let independent = timed(&jobs.books, 1, |(job, _)| {
                let survey = surveyed(job).expect("stars");
                black_box(PlanBook::of(&survey.job, &plan_surveyed(&survey).expect("stars")).bytes());
            });
            quickest[4] = independent.min(quickest[4]);
        }
    }
    rows
}

fn timed<T>(items: &[T], calls: usize, mut call: impl FnMut(&T)) -> f64 {
    let start = Instant::now();
    for item in items {
        for _ in 0..calls {
            call(black_box(item));
        }
    }
    start.elapsed().as_secs_f64() * 1e6 / (items.len() * calls) as f64
}

/// What is held against a limit.
trait Contest {
    /// Measures once more, and keeps the quickest times so far.
    fn round(&mut self);
    /// Microseconds: the proved code's, and those of what it is held to.
    fn times(&self) -> [f64; 2];
    fn name(&self) -> String;

    /// What it is held to.
    fn rival(&self) -> &'static str {
        "C"
    }

    /// The ratio that is promised.
    fn promised(&self) -> f64 {
        1.0
    }

    fn ratio(&self) -> f64 {
        self.times()[0] / self.times()[1]
    }

    /// Whether the ratio is above so many times the promised one.
    fn is_above(&self, limit: f64) -> bool {
        self.ratio() > limit * self.promised()
    }
}

/// The least and the greatest ratio of some contests.
fn range<'a, T: 'a>(contests: impl IntoIterator<Item = &'a T>, ratio: fn(&T) -> f64) -> String {
    let ratios = contests.into_iter().map(ratio);
    let (least, most) =
        ratios.fold((f64::INFINITY, 0.0_f64), |(least, most), ratio| (least.min(ratio), most.max(ratio)));
    format!("{least:.2} to {most:.2} times")
}

/// Planning jobs of one size in lent words, against tuned C that clears as many.
struct Planning {
    size: String,
    promised: f64,
    jobs: Jobs,
    /// As `Jobs::all` gives them.
    quickest: [f64; 3],
    /// With words of its own.
    own: f64,
}

impl Planning {
    /// Stars of so many runs.
    fn of(runs: usize) -> Planning {
        let (_, promised) = PROMISED.into_iter().find(|(most, _)| runs <= *most).expect("a size with a promise");
        let (size, jobs) = (runs.to_string(), Jobs::of(books(runs)));
        Planning { size, promised, jobs, quickest: [f64::INFINITY; 3], own: f64::INFINITY }
    }

    /// Measures once with words of its own.
    fn own_round(&mut self) {
        self.own = self.jobs.own().min(self.own);
    }

    fn ratio_to_plain(&self) -> f64 {
        self.quickest[0] / self.quickest[1]
    }

    /// The time with words of its own by that in lent words.
    fn own_ratio(&self) -> f64 {
        self.own / self.quickest[0]
    }
}

impl Contest for Planning {
    fn round(&mut self) {
        keep(&mut self.quickest, self.jobs.all());
    }

    fn times(&self) -> [f64; 2] {
        [self.quickest[0], self.quickest[2]]
    }

    fn name(&self) -> String {
        format!("trench_plan_in on stars of {} runs", self.size)
    }

    fn rival(&self) -> &'static str {
        "tuned C"
    }

    fn promised(&self) -> f64 {
        self.promised
    }
}

/// Planning leases in lent words, against stars of as many runs; and their groups as jobs of their own, and tuned C.
struct Leases {
    size: String,
    /// Leases, stars of as many runs, and the groups of all the leases.
    jobs: [Jobs; 3],
    /// The proved planner on each of these, and tuned C on leases.
    quickest: [f64; 4],
}

impl Leases {
    fn of((groups, runs): (usize, usize)) -> Leases {
        let whole = leases((groups, runs));
        let alone = whole.iter().flat_map(|job| groups_of(job)).collect();
        let jobs = [whole, books(groups * runs), alone].map(Jobs::of);
        Leases { size: lease_name((groups, runs)), jobs, quickest: [f64::INFINITY; 4] }
    }

    /// The number of groups of a lease.
    fn groups_of_one(&self) -> usize {
        self.jobs[2].books.len() / self.jobs[0].books.len()
    }

    /// The time of a lease by that of tuned C.
    fn ratio_to_tuned(&self) -> f64 {
        self.quickest[0] / self.quickest[3]
    }

    /// The time of a lease by that of its groups.
    fn ratio_to_groups(&self) -> f64 {
        self.quickest[0] / (self.quickest[2] * self.groups_of_one() as f64)
    }
}

impl Contest for Leases {
    fn round(&mut self) {
        let [lease, star, group] = [0, 1, 2].map(|i| self.jobs[i].lent(Planner::Archive));
        keep(&mut self.quickest, [lease, star, group, self.jobs[0].lent(Planner::Tuned)]);
    }

    fn times(&self) -> [f64; 2] {
        [self.quickest[0], self.quickest[1]]
    }

    fn name(&self) -> String {
        format!("trench_plan_in on a lease of {} runs", self.size)
    }

    fn rival(&self) -> &'static str {
        "a star of as many runs"
    }
}

/// Times leases, their groups, and stars of as many runs.
fn print_leases() {
    println!("{LEASE_NOTE}\n");
    println!("| size | lease | one group | groups | star | lease / groups | lease / star |");
    println!("|---:|---:|---:|---:|---:|---:|---:|");
    let mut contests = LEASES.map(Leases::of);
    (0..ROUNDS).for_each(|_| contests.iter_mut().for_each(Contest::round));
    for lease in &contests {
        let ([whole, star, one, _], to_groups, to_star) = (lease.quickest, lease.ratio_to_groups(), lease.ratio());
        let all = one * lease.groups_of_one() as f64;
        println!("| {} | {whole:.2} | {one:.2} | {all:.2} | {star:.2} | {to_groups:.2} | {to_star:.2} |", lease.size);
    }
}

/// Filling and tracing alone, for some jobs together.
struct Filling<'a>(Vec<Table<'a>>);

impl Filling<'_> {
    /// Microseconds on average: the proved program's, and those of C and of tuned C.
    fn means(&self) -> [f64; 3] {
        [0, 1, 2].map(|who| self.0.iter().map(|table| table.times()[who]).sum::<f64>() / self.0.len() as f64)
    }
}

impl Contest for Filling<'_> {
    fn round(&mut self) {
        self.0.iter_mut().for_each(Table::round);
    }

    fn times(&self) -> [f64; 2] {
        let [proved, plain, _] = self.means();
        [proved, plain]
    }

    fn name(&self) -> String {
        "filling and tracing".to_string()
    }
}

/// Loops over a plan book in C, by the archive's reader and by the plain one.
#[allow(unsafe_code)]
mod loops {
    type Loop = unsafe extern "C" fn(*const u8, usize, u32) -> u32;

    unsafe extern "C" {
        fn archive_read_rounds(book: *const u8, book_len: usize, rounds: u32) -> u32;
        fn archive_ask_rounds(book: *const u8, book_len: usize, rounds: u32) -> u32;
        fn plain_read_rounds(book: *const u8, book_len: usize, rounds: u32) -> u32;
        fn plain_ask_rounds(book: *const u8, book_len: usize, rounds: u32) -> u32;
    }

    /// Reads a book so many times, with every corner or without, by the proved reader or the plain one: a sum of what was read.
    pub fn sum(proved: bool, corners: bool, book: &[u8], rounds: u32) -> u32 {
        let read: Loop = match (proved, corners) {
            (true, false) => archive_read_rounds,
            (true, true) => archive_ask_rounds,
            (false, false) => plain_read_rounds,
            (false, true) => plain_ask_rounds,
        };
        // SAFETY: the functions read `book.len()` bytes of book, which are alive, and write nothing of the caller's.
        unsafe { read(book.as_ptr(), book.len(), rounds) }
    }
}

/// Reading one plan book, with every corner or without, against the plain reader.
struct Reading {
    name: &'static str,
    book: Vec<u8>,
    corners: bool,
    quickest: [f64; 2],
}

impl Contest for Reading {
    fn round(&mut self) {
        let rounds = (READ_BYTES / self.book.len()).max(1);
        let timed = [true, false].map(|proved| {
            let start = Instant::now();
            let sum = black_box(loops::sum(proved, self.corners, black_box(&self.book), rounds as u32));
            (sum, start.elapsed().as_secs_f64() * 1e6 / rounds as f64)
        });
        assert_eq!(timed[0].0, timed[1].0, "what both read");
        assert!(timed[0].0 as i32 > 0, "a plan is read");
        keep(&mut self.quickest, timed.map(|(_, time)| time));
    }

    fn times(&self) -> [f64; 2] {
        self.quickest
    }

    fn name(&self) -> String {
        let what = if self.corners { "every corner" } else { "trench_read" };
        format!("{what} on {}", self.name)
    }
}

/// Both books, read without their corners or with them.
fn readings(corners: bool) -> [Reading; 2] {
    let of = |(name, book)| Reading { name, book, corners, quickest: [f64::INFINITY; 2] };
    let full = include_bytes!("../../../../samples/full.plan");
    [("samples/full.plan", full.to_vec()), ("the longest book", longest_book())].map(of)
}

/// A book of 32 routes with 127 corners each, all of them stairs.
fn longest_book() -> Vec<u8> {
    let stairs: Vec<Point> = (0..MOST_CORNERS as i32).map(|k| Point::new((k + 1) / 2, k / 2)).collect();
    let (runs, count) = (MOST_RUNS as u16, MOST_CORNERS as u16);
    let route = |run| RouteRecord { run, meets: 0, count, centre: 1, corners: stairs.clone() };
    let (routes, total) = ((1..=runs).map(route).collect(), runs * count);
    let (kinds, pits) = (Kinds::Newer, 127);
    PlanBook { kinds, job: 7, runs, trench: 126, saved: 126 * 31, pits, last: 1, routes, total }.bytes()
}

/// Times both readers on both books.
fn print_readings() {
    println!("{READING_NOTE}\n");
    println!("| what | book | bytes | proved | C | proved / C |");
    println!("|---|---|---:|---:|---:|---:|");
    for corners in [false, true] {
        let mut contests = readings(corners);
        (0..ROUNDS).for_each(|_| contests.iter_mut().for_each(Contest::round));
        for reading in &contests {
            let ([proved, in_c], ratio) = (reading.quickest, reading.ratio());
            let what = if corners { "every corner" } else { "`trench_read`" };
            println!("| {what} | {} | {} | {proved:.3} | {in_c:.3} | {ratio:.2} |", reading.name, reading.book.len());
        }
    }
}

/// Choosing between two true plan books of stars of 32 runs, against planning the job twice for each book.
struct Choosing {
    name: &'static str,
    /// The jobs, and the two books of each.
    jobs: Jobs,
    pairs: Vec<[Vec<u8>; 3]>,
    /// Choosing, and planning once.
    quickest: [f64; 2],
}

impl Choosing {
    fn of(name: &'static str, books: fn(&[u8], u64) -> [Vec<u8>; 2]) -> Choosing {
        let jobs = self::books(MOST_RUNS);
        let pair = |(job, n): (&Vec<u8>, u64)| {
            let [first, second] = books(job, n);
            [job.clone(), first, second]
        };
        let pairs = jobs.iter().zip(0..).map(pair).collect();
        Choosing { name, jobs: Jobs::of(jobs), pairs, quickest: [f64::INFINITY; 2] }
    }

    /// The time of one book by that of planning its job.
    fn of_one_book(&self) -> f64 {
        self.quickest[0] / 2.0 / self.quickest[1]
    }
}

impl Contest for Choosing {
    fn round(&mut self) {
        let choosing = timed(&self.pairs, CALLS, |[job, first, second]| {
            assert!(black_box(choose(job, first, second)) > 0, "a book");
        });
        keep(&mut self.quickest, [choosing, self.jobs.own()]);
    }

    fn times(&self) -> [f64; 2] {
        [self.quickest[0], 2.0 * PLANNINGS * self.quickest[1]]
    }

    fn name(&self) -> String {
        format!("trench_choose on {} of 32 runs", self.name)
    }

    fn rival(&self) -> &'static str {
        "planning the job twice for each book"
    }
}

/// The planner's own plan of a job, twice.
fn planned_books(job: &[u8], _: u64) -> [Vec<u8>; 2] {
    let plan = planned(job).expect("a plan");
    [plan.clone(), plan]
}

/// Two plans of a job whose routes turn at almost every vertex: of some staircases those with the most corners.
fn staircases(job: &[u8], n: u64) -> [Vec<u8>; 2] {
    let survey = surveyed(job).expect("stars");
    let random = &mut Random::nth(MOST_RUNS as u64, n);
    let corners =
        |routes: &Vec<enumerate::Path>| routes.iter().map(|route| pits::corners(route).count()).sum::<usize>();
    [0; 2].map(|_| {
        let stairs = (0..16).map(|_| foreign::routes(random, &survey, Style::Stairs));
        foreign::book(&survey, &stairs.max_by_key(corners).expect("routes")).bytes()
    })
}

/// Choosing between books of both kinds.
fn choosings() -> [Choosing; 2] {
    [Choosing::of("planned books", planned_books), Choosing::of("staircases", staircases)]
}

/// Times choosing beside planning.
fn print_choosings() {
    println!("{CHOOSING_NOTE}\n");
    println!(
        "| books | bytes of a book | trench_choose | trench_plan | trench_choose / trench_plan | one book / trench_plan |"
    );
    println!("|---|---:|---:|---:|---:|---:|");
    let mut contests = choosings();
    (0..ROUNDS).for_each(|_| contests.iter_mut().for_each(Contest::round));
    for contest in &contests {
        let ([choosing, planning], one) = (contest.quickest, contest.of_one_book());
        let bytes = contest.pairs.iter().map(|pair| pair[1].len()).sum::<usize>() / contest.pairs.len();
        let ratio = choosing / planning;
        println!("| {} | {bytes} | {choosing:.2} | {planning:.2} | {ratio:.2} | {one:.2} |", contest.name);
    }
}

/// Measures so many rounds of each contest, and goes on with those above so many times what is promised; whether none is above it
/// then.
fn settle(contests: &mut [impl Contest], rounds: usize, limit: f64) -> bool {
    let start = Instant::now();
    (0..rounds).for_each(|_| contests.iter_mut().for_each(Contest::round));
    let long = start.elapsed() * PATIENCE;
    while start.elapsed() < long && contests.iter().any(|contest| contest.is_above(limit)) {
        contests.iter_mut().filter(|contest| contest.is_above(limit)).for_each(Contest::round);
    }
    let above: Vec<_> = contests.iter().filter(|contest| contest.is_above(limit)).collect();
    for contest in &above {
        let ([proved, other], name, ratio) = (contest.times(), contest.name(), contest.ratio());
        let (rival, limit) = (contest.rival(), limit * contest.promised());
        println!(
            "speed: {name} takes {proved:.3} microseconds and {rival} {other:.3}: {ratio:.2} times, and {limit:.3} is the limit"
        );
    }
    above.is_empty()
}

/// Whether planning stars, filling and tracing alone, and reading take at most so many times as long by C as is promised, leases so many
/// times as long as a star of as many runs, and judging a plan book no longer than planning its job twice.
fn limited(limit: f64, program: &str) -> bool {
    let mut stars = RUNS.map(Planning::of);
    let mut good = settle(&mut stars, LIMIT_ROUNDS, limit);
    (0..LIMIT_ROUNDS).for_each(|_| stars.iter_mut().for_each(Planning::own_round));
    for sizes in stars.chunk_by(|one, next| one.promised == next.promised) {
        let (first, last) = (&sizes[0].size, &sizes[sizes.len() - 1].size);
        let (tuned, plain) = (range(sizes, Contest::ratio), range(sizes, Planning::ratio_to_plain));
        let own = range(sizes, Planning::own_ratio);
        println!(
            "speed, for stars of {first} to {last} runs: trench_plan_in {tuned} tuned C, {plain} C; trench_plan {own} that"
        );
    }
    if Path::new(program).is_file() {
        let jobs = books(32).into_iter().take(LIMIT_TABLES);
        let mut tables = [Filling(jobs.map(|job| Table::new(program, job, LIMIT_MANY)).collect())];
        good &= settle(&mut tables, LIMIT_REPEATS, limit);
        let [proved, plain, tuned] = tables[0].means();
        println!("speed, filling and tracing: {:.2} times C, {:.2} times tuned C", proved / plain, proved / tuned);
    } else {
        println!("speed, filling and tracing alone is not timed ({})", missing(program));
    }
    let mut leases = LEASES.map(Leases::of);
    good &= settle(&mut leases, LIMIT_ROUNDS, limit);
    let told = leases.iter().map(|lease| {
        let [to_tuned, to_star, to_groups] = [lease.ratio_to_tuned(), lease.ratio(), lease.ratio_to_groups()];
        let size = &lease.size;
        format!("{size} runs {to_tuned:.2} times tuned C, {to_star:.2} times a star of as many, {to_groups:.2} times its groups")
    });
    println!("speed, for leases: {}", told.collect::<Vec<_>>().join("; "));
    let [alone, with_corners] = [false, true].map(|corners| {
        let mut contests = readings(corners);
        good &= settle(&mut contests, LIMIT_ROUNDS, limit);
        range(&contests, Contest::ratio)
    });
    println!("speed, for plans of 32 routes: trench_read {alone} C, with every corner {with_corners} C");
    let mut choosings = choosings();
    good &= settle(&mut choosings, LIMIT_CHOOSING, 1.0);
    let told = choosings.iter().map(|contest| {
        let (both, one) = (2.0 * contest.of_one_book(), contest.of_one_book());
        format!("{} {both:.2} times planning the job, {one:.2} times for one book", contest.name)
    });
    println!("speed, for two plans of 32 routes: trench_choose on {}", told.collect::<Vec<_>>().join("; on "));
    good
}
