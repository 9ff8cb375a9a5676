//! Lines, meets, groups and centres of a job on one line of text, for the vectors of test programs. A job is a line of numbers
//! there: how many runs, then x and y of both points of each.

use crate::graph::{Graph, Survey};
use crate::job::{Job, Point, Run};

/// The job of a line of numbers, its runs numbered 1, 2, 3; or what is wrong with the line.
pub fn parse(line: &str) -> Result<Job, String> {
    let number = |word: &str| word.parse::<i32>().map_err(|_| format!("`{word}` is no number"));
    let numbers = line.split_whitespace().map(number).collect::<Result<Vec<i32>, String>>()?;
    let (count, points) = numbers.split_first().ok_or("a number of runs is wanted")?;
    if usize::try_from(*count).ok().map(|count| 4 * count) != Some(points.len()) {
        return Err(format!("four numbers for each of {count} runs are wanted, and these are {}", points.len()));
    }
    let run = |(at, number): (&[i32], u16)| {
        let (first, second) = (Point::new(at[0], at[1]), Point::new(at[2], at[3]));
        Run { number, first, second }
    };
    Ok(Job { number: 1, runs: points.chunks_exact(4).zip(1..).map(run).collect() })
}

/// `meets` with each run's figure, `groups` with their number, and `centres` with the index, from 0, of the centre of each run's
/// group, or `centres none` where some group is no star.
pub fn fields(graph: &Graph) -> [String; 3] {
    let figures =
        |name: &str, of: &[usize]| of.iter().fold(name.to_string(), |text, figure| format!("{text} {figure}"));
    let centres = graph.centres().map_or("centres none".to_string(), |centres| figures("centres", &centres));
    [figures("meets", &graph.figures()), format!("groups {}", graph.groups().len()), centres]
}

/// The line of a job: `columns 3 rows 3 meets 0 0 groups 2 centres 0 1`.
pub fn told(job: &Job) -> String {
    let Survey { grid, graph, .. } = Survey::of(job.clone());
    format!("columns {} rows {} {}", grid.columns.len(), grid.rows.len(), fields(&graph).join(" "))
}
