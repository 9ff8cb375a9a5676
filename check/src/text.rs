//! A job as it is typed at the desk: a line `job 7`, then a line `number x,y x,y` for each run, of which there may be none.
//! Empty lines and what follows a `#` do not count. Every error names its line.

use std::fmt;

use crate::graph::{Graph, Survey};
use crate::job::{FAR, Job, MOST_RUNS, Point, Run, TOP_NUMBER};

/// A typed job, with the line on which each run stands.
#[derive(Clone, Debug, PartialEq, Eq)]
pub struct Typed {
    /// The job.
    pub job: Job,
    /// The line of each run, counted from 1, in job order.
    pub lines: Vec<usize>,
}

/// What is wrong on a line, counted from 1.
#[derive(Clone, Debug, PartialEq, Eq)]
pub struct Wrong {
    /// The line.
    pub line: usize,
    /// What is wrong there.
    pub what: String,
}

impl fmt::Display for Wrong {
    fn fmt(&self, out: &mut fmt::Formatter) -> fmt::Result {
        write!(out, "line {}: {}", self.line, self.what)
    }
}

/// The job of a text, or everything that is wrong with it, line by line. An accepted text is a well-formed job: none of the
/// refusals 3 to 9 and 17 applies to its job book.
pub fn parse(text: &str) -> Result<Typed, Vec<Wrong>> {
    let mut number = None;
    let mut typed = Typed { job: Job { number: 0, runs: Vec::new() }, lines: Vec::new() };
    let mut errors = Vec::new();
    let mut last = 1;
    for (line, words) in (1..).zip(text.lines()) {
        let words: Vec<&str> = words.split('#').next().unwrap_or("").split_whitespace().collect();
        let wrong = |what: String| Wrong { line, what };
        match words[..] {
            [] => continue,
            ["job", ref rest @ ..] => match job_number(rest, number.is_some()) {
                Ok(value) => number = Some(value),
                Err(what) => errors.push(wrong(what)),
            },
            _ => {
                if number.is_none() && errors.is_empty() {
                    errors.push(wrong("the job's number is wanted first, as in `job 7`".to_string()));
                }
                errors.extend(add_run(&mut typed, line, &words).err().map(wrong));
            }
        }
        last = line;
    }
    typed.job.number = number.unwrap_or(0);
    if errors.is_empty() && number.is_none() {
        errors.push(Wrong { line: last, what: "nothing is typed; a job is wanted".to_string() });
    }
    if errors.is_empty() { Ok(typed) } else { Err(errors) }
}

fn job_number(words: &[&str], seen: bool) -> Result<u32, String> {
    let &[word] = words else {
        return Err("one number is wanted after `job`, as in `job 7`".to_string());
    };
    if seen {
        return Err("a second `job` line; a text holds one job".to_string());
    }
    let number = whole(word).and_then(|number| u32::try_from(number).ok());
    number.ok_or_else(|| format!("`{word}` is no job number; one from 0 to {} is wanted", u32::MAX))
}

fn add_run(typed: &mut Typed, line: usize, words: &[&str]) -> Result<(), String> {
    let &[number, first, second] = words else {
        let wanted = "a run is its number and two points, as in `12 0,0 40,30`";
        return Err(format!("{wanted}; this line has {} part{}", words.len(), if words.len() == 1 { "" } else { "s" }));
    };
    let number = run_number(number, typed.job.runs.last().map_or(0, |run| run.number))?;
    if typed.job.runs.len() == MOST_RUNS {
        return Err(format!("a 33rd run; a job has at most {MOST_RUNS} (refusal 9)"));
    }
    let run = Run { number, first: point(first)?, second: point(second)? };
    if run.first == run.second {
        return Err(format!("the two points of run {number} coincide (refusal 17)"));
    }
    typed.job.runs.push(run);
    typed.lines.push(line);
    Ok(())
}

fn run_number(word: &str, before: u16) -> Result<u16, String> {
    let number = whole(word).ok_or_else(|| format!("`{word}` is no run number; a whole number is wanted"))?;
    if !(1..=i64::from(TOP_NUMBER)).contains(&number) {
        return Err(format!("run number {number} is not from 1 to {TOP_NUMBER} (refusal 7)"));
    }
    if number <= i64::from(before) {
        return Err(format!("run number {number} is not above {before}, the one before (refusal 7)"));
    }
    Ok(number as u16)
}

fn point(word: &str) -> Result<Point, String> {
    let wrong = || format!("`{word}` is no point; two whole numbers with a comma between are wanted, as in `40,-30`");
    let (x, y) = word.split_once(',').ok_or_else(wrong)?;
    let coordinate = |word: &str| {
        let value = whole(word).ok_or_else(wrong)?;
        let inside = (-i64::from(FAR)..=i64::from(FAR)).contains(&value);
        if inside {
            Ok(value as i32)
        } else {
            Err(format!("coordinate {value} is not from {} to {FAR} (refusal 8)", -FAR))
        }
    };
    Ok(Point::new(coordinate(x)?, coordinate(y)?))
}

/// A whole number of at most 18 digits, with a minus before it or none.
fn whole(word: &str) -> Option<i64> {
    let digits = word.strip_prefix('-').unwrap_or(word);
    let plain = !digits.is_empty() && digits.len() <= 18 && digits.bytes().all(|byte| byte.is_ascii_digit());
    plain.then(|| word.parse().ok()).flatten()
}

/// The text of a job, as it could be typed.
pub fn show(job: &Job) -> String {
    let mut text = format!("job {}\n", job.number);
    for Run { number, first, second } in &job.runs {
        text += &format!("{number} {},{} {},{}\n", first.x, first.y, second.x, second.y);
    }
    text
}

/// For a job of which some group is no star (refusal 11): each such group on a line, with what stands against the run that comes
/// nearest to being its centre.
pub fn why_no_star(typed: &Typed) -> String {
    let graph = Survey::of(typed.job.clone()).graph;
    let groups = graph.groups().into_iter().filter(|group| graph.centre(group).is_none());
    groups.map(|group| why_group(typed, &graph, &group)).collect::<Vec<_>>().join("\n")
}

fn why_group(typed: &Typed, graph: &Graph, group: &[usize]) -> String {
    let Typed { job, lines } = typed;
    let name = |i: usize| format!("run {} (line {})", job.runs[i].number, lines[i]);
    let hindrances = |c: usize| -> Vec<String> {
        let others: Vec<usize> = group.iter().copied().filter(|&i| i != c).collect();
        let apart =
            others.iter().filter(|&&i| !graph.meet(c, i)).map(|&i| format!("{} does not meet {}", name(c), name(i)));
        let pairs = others
            .iter()
            .flat_map(|&i| others.iter().map(move |&j| (i, j)))
            .filter(|&(i, j)| i < j && graph.meet(i, j));
        apart.chain(pairs.map(|(i, j)| format!("{} meets {}", name(i), name(j)))).collect()
    };
    let fewest = group.iter().map(|&c| (hindrances(c), c)).min_by_key(|(found, c)| (found.len(), *c));
    let (found, centre) = fewest.expect("a group has a run");
    let shown = found.iter().take(3).cloned().collect::<Vec<_>>().join("; ");
    let more = if found.len() > 3 { format!("; and {} more", found.len() - 3) } else { String::new() };
    let runs: Vec<String> = group.iter().map(|&i| job.runs[i].number.to_string()).collect();
    format!("the group of runs {} is no star: with {} as the centre: {shown}{more}", runs.join(", "), name(centre))
}
