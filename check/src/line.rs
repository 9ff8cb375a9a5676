//! A whole job on one line of text, for tables of small jobs: `0,0 40,30; 0,10 40,10; 20,20 20,50`. Runs are numbered 1, 2,
//! 3 as written; a `#` starts a comment.

use crate::job::{Job, Point, Run};

/// The job of a line, or what is wrong with it. A line that is blank or only a comment has no job.
pub fn parse(line: &str, number: u32) -> Result<Option<Job>, String> {
    let text = line.split('#').next().unwrap_or("").trim();
    if text.is_empty() {
        return Ok(None);
    }
    let mut runs = Vec::new();
    for (index, part) in text.split(';').enumerate() {
        let points: Vec<&str> = part.split_whitespace().collect();
        let [first, second] = points[..] else {
            return Err(format!(
                "run {}: two points are wanted, as in `0,0 40,30`, and `{}` has {}",
                index + 1,
                part.trim(),
                points.len()
            ));
        };
        let number = u16::try_from(index + 1).map_err(|_| "too many runs".to_string())?;
        runs.push(Run { number, first: point(first)?, second: point(second)? });
    }
    Ok(Some(Job { number, runs }))
}

/// The point of `x,y`.
pub fn point(text: &str) -> Result<Point, String> {
    let wrong = || format!("`{text}` is no point: two whole numbers with a comma between are wanted, as in `40,-30`");
    let (x, y) = text.split_once(',').ok_or_else(wrong)?;
    Ok(Point::new(x.parse().map_err(|_| wrong())?, y.parse().map_err(|_| wrong())?))
}

/// The line of a job; run numbers are not told.
pub fn show(job: &Job) -> String {
    let run = |run: &Run| format!("{},{} {},{}", run.first.x, run.first.y, run.second.x, run.second.y);
    job.runs.iter().map(run).collect::<Vec<_>>().join("; ")
}
