//! Makes vectors (small jobs, their figures, their bytes, damaged books, lists of runs, pairs of plans), writes jobs, reads and judges
//! plans, and chooses between two.
//! `check/README.md` says what each command reads and prints.

use std::io::Read;
use std::process::ExitCode;

use trench_check::book;
use trench_check::book_damage;
use trench_check::cases;
use trench_check::choice::{self, choose, told};
use trench_check::cuts;
use trench_check::damage::{self, Damaged};
use trench_check::enumerate::{self, Least};
use trench_check::generate::{self, CROSSINGS, KINDS};
use trench_check::graph::Survey;
use trench_check::grouped;
use trench_check::in_out;
use trench_check::job::Job;
use trench_check::judge::judge;
use trench_check::leases::{self, LAYOUTS};
use trench_check::line;
use trench_check::list_line;
use trench_check::listing;
use trench_check::pair_cases::pair_case;
use trench_check::plan_book::PlanBook;
use trench_check::planner::{self, group_by_group};
use trench_check::random::Random;
use trench_check::read_back;
use trench_check::refusal;

/// The number of sequences of routes up to which `figures` tries them all.
const SEQUENCES: usize = 4_000_000;

const USAGE: &str = "\
usage: trench-check jobs SEED COUNT      small stars and leases of every kind, one a line
       trench-check crossed SEED COUNT   small stars of straight leaves that cross, likewise
       trench-check figures [FILE]       the figures of each job of a file of such lines
       trench-check grouped [FILE]       lines, meets, groups and centres of each job of a file of numbers
       trench-check books [FILE]         the job book of each, in hexadecimal
       trench-check cases                the case of every two boxes with corners on a grid of 4 x 4 points
       trench-check damaged SEED COUNT   damaged job books in hexadecimal, with the refusal that is due
       trench-check broken SEED COUNT    damaged plan books likewise
       trench-check lists SEED COUNT     lists of runs in hexadecimal, with a buffer's length and a job number
       trench-check pairs SEED COUNT     jobs with two plan books each, in hexadecimal, with the choice that is due
       trench-check written [FILE]       the job book of each list of a file of such lines, or its refusal
       trench-check list JOB             the listing of a job book's plan, by the independent planner
       trench-check read PLAN            the listing of a plan book, by the independent reader
       trench-check judge JOB PLAN       what is wrong with a plan book of a job book
       trench-check choose JOB PLAN PLAN which of two plan books of a job book to stake from";

fn main() -> ExitCode {
    let words: Vec<String> = std::env::args().skip(1).collect();
    let words: Vec<&str> = words.iter().map(String::as_str).collect();
    let done = match words[..] {
        ["jobs", seed, count] => numbers(seed, count).map(|(seed, count)| jobs(seed, count)),
        ["crossed", seed, count] => numbers(seed, count).map(|(seed, count)| crossed(seed, count)),
        ["figures"] => each_job(None, figures),
        ["figures", file] => each_job(Some(file), figures),
        ["grouped"] => each_line(None, print_grouped),
        ["grouped", file] => each_line(Some(file), print_grouped),
        ["books"] => each_job(None, |job| book::hex(&book::job_bytes(job))),
        ["books", file] => each_job(Some(file), |job| book::hex(&book::job_bytes(job))),
        ["cases"] => {
            print!("{}", cases::table(4));
            Ok(())
        }
        ["damaged", seed, count] => {
            numbers(seed, count).map(|(seed, count)| show_damaged(seed, count, damage::WAYS, damage::damaged))
        }
        ["broken", seed, count] => {
            numbers(seed, count).map(|(seed, count)| show_damaged(seed, count, book_damage::WAYS, book_damage::damaged))
        }
        ["lists", seed, count] => numbers(seed, count).map(|(seed, count)| lists(seed, count)),
        ["pairs", seed, count] => numbers(seed, count).map(|(seed, count)| pairs(seed, count)),
        ["written"] => each_list(None),
        ["written", file] => each_list(Some(file)),
        ["list", job] => list(job),
        ["read", plan] => read(plan).map(|plan| print!("{}", read_back::listed(&plan))),
        ["judge", job, plan] => judged(job, plan),
        ["choose", job, first, second] => chosen(job, first, second),
        _ => Err(USAGE.to_string()),
    };
    match done {
        Ok(()) => ExitCode::SUCCESS,
        Err(message) => {
            eprintln!("{message}");
            ExitCode::FAILURE
        }
    }
}

fn numbers(seed: &str, count: &str) -> Result<(u64, u64), String> {
    let number = |word: &str| word.parse::<u64>().map_err(|_| format!("`{word}` is no number\n{USAGE}"));
    Ok((number(seed)?, number(count)?))
}

fn jobs(seed: u64, count: u64) {
    for n in 0..count {
        let (at, random) = (n as usize % (KINDS.len() + LAYOUTS.len()), &mut Random::nth(seed, n));
        match KINDS.get(at) {
            Some(&kind) => println!("{}  # {kind:?}", line::show(&generate::small_star(random, kind))),
            None => {
                let layout = LAYOUTS[at - KINDS.len()];
                println!("{}  # {layout:?} lease", line::show(&leases::small_lease(random, layout)));
            }
        }
    }
}

fn crossed(seed: u64, count: u64) {
    for n in 0..count {
        let crossing = CROSSINGS[(n % CROSSINGS.len() as u64) as usize];
        println!("{}  # {crossing:?}", line::show(&generate::crossed_star(&mut Random::nth(seed, n), crossing)));
    }
}

fn show_damaged(seed: u64, count: u64, ways: usize, damaged: fn(&mut Random, usize) -> Damaged) {
    for n in 0..count {
        let made = damaged(&mut Random::nth(seed, n), (n % ways as u64) as usize);
        println!("{} | {} | {}", book::hex(&made.bytes), made.refusal, made.what);
    }
}

fn lists(seed: u64, count: u64) {
    list_line::short_cases(seed).take(count as usize).for_each(|case| println!("{}", list_line::show(&case)));
}

fn pairs(seed: u64, count: u64) {
    for case in (0..count).map(|n| pair_case(seed, n)) {
        let [job, first, second] = [&case.job[..], case.first(), case.second()].map(book::hex);
        let choice = told(&choose(&case.job, case.first(), case.second()));
        println!("{job} | {first} | {second} | {choice} | {}", case.label);
    }
}

fn read(name: &str) -> Result<Vec<u8>, String> {
    std::fs::read(name).map_err(|error| format!("{name}: {error}"))
}

fn list(job: &str) -> Result<(), String> {
    match refusal::verdict(&read(job)?) {
        Ok(job) => print!("{}", listing::of_plan(&PlanBook::of(&job, &planner::plan(&job).expect("stars")))),
        Err(refused) => print!("{}", listing::of_refusal(refused)),
    }
    Ok(())
}

fn judged(job: &str, plan: &str) -> Result<(), String> {
    let faults = judge(&read(job)?, &read(plan)?);
    if faults.is_empty() {
        println!("right");
        return Ok(());
    }
    Err(faults.join("\n"))
}

fn chosen(job: &str, first: &str, second: &str) -> Result<(), String> {
    print!("{}", choice::listing(&read(job)?, &read(first)?, &read(second)?));
    Ok(())
}

/// Does something with each line of a file, or of standard input; what goes wrong is told with the line.
fn each_line(file: Option<&str>, mut deed: impl FnMut(&str) -> Result<(), String>) -> Result<(), String> {
    let mut text = String::new();
    match file {
        Some(name) => text = std::fs::read_to_string(name).map_err(|error| format!("{name}: {error}"))?,
        None => {
            std::io::stdin().read_to_string(&mut text).map_err(|error| format!("standard input: {error}"))?;
        }
    }
    for (at, line) in text.lines().enumerate() {
        let place = |message| format!("{}: line {}: {message}", file.unwrap_or("standard input"), at + 1);
        deed(line).map_err(place)?;
    }
    Ok(())
}

/// Prints each job of a file (or of standard input) with what `answer` says of it. The job numbers are 1, 2, 3.
fn each_job(file: Option<&str>, answer: impl Fn(&Job) -> String) -> Result<(), String> {
    let mut number = 0;
    each_line(file, |words| {
        if let Some(job) = line::parse(words, number + 1)? {
            number += 1;
            println!("{} | {}", line::show(&job), answer(&job));
        }
        Ok(())
    })
}

/// Prints what the independent writer says of each list.
fn each_list(file: Option<&str>) -> Result<(), String> {
    each_line(file, |words| {
        println!("{}", list_line::written(words)?);
        Ok(())
    })
}

fn print_grouped(words: &str) -> Result<(), String> {
    println!("{}", grouped::told(&grouped::parse(words)?));
    Ok(())
}

fn figures(job: &Job) -> String {
    let survey = Survey::of(job.clone());
    let trench = |least: Option<Least>| least.map(|least| least.trench);
    let ways = [
        ("all", trench(enumerate::all(job, &survey.grid, SEQUENCES))),
        ("each", trench(group_by_group(&survey, |runs, grid, centre| enumerate::each(runs, grid, centre, SEQUENCES)))),
        ("graph", trench(group_by_group(&survey, |runs, grid, centre| Some(in_out::least(runs, grid, centre))))),
        ("cuts", cuts::least(job, SEQUENCES)),
    ];
    let ran: Vec<(&str, i64)> = ways.iter().filter_map(|&(name, trench)| Some((name, trench?))).collect();
    assert!(ran.windows(2).all(|pair| pair[0].1 == pair[1].1), "the ways disagree: {ran:?} for {}", line::show(job));
    let (trench, saved) = match ran.first() {
        Some((_, trench)) => (trench.to_string(), (job.distance() - trench).to_string()),
        None => ("unknown".to_string(), "unknown".to_string()),
    };
    let by: Vec<&str> = ran.iter().map(|(name, _)| *name).collect();
    let [meets, groups, centres] = grouped::fields(&survey.graph);
    format!("{meets} | {groups} | {centres} | trench {trench} | saved {saved} | by {}", by.join(" "))
}
