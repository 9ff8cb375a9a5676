//! The forecast (02, C-20): what a planner has to be lent for a job, told from the job alone.

use crate::grid::Grid;
use crate::job::{Job, Run};
use crate::refusal::{self, Refusal};

/// No forecast has more words than this: a grid has at most 64 columns and 64 rows.
pub const MOST_WORDS: usize = 4 * 64 * 64;
/// No forecast has more bytes than this: there are at most 32 runs, and at most 128 lines touch a box.
pub const MOST_BYTES: usize = 22 + 32 * (9 + 9 * 127);

/// What a planner has to be lent.
#[derive(Clone, Copy, Debug, PartialEq, Eq)]
pub struct Forecast {
    /// Work words of 32 bits.
    pub words: usize,
    /// Bytes of the plan buffer.
    pub bytes: usize,
}

impl Forecast {
    /// The forecast for a well-formed job.
    pub fn of(job: &Job) -> Forecast {
        let grid = Grid::hanan(job);
        let routes: usize = job.runs.iter().map(|run| 9 + 9 * (lines_at(&grid, run) - 1)).sum();
        Forecast { words: 4 * grid.columns.len() * grid.rows.len(), bytes: 22 + routes }
    }

    /// The refusal of a call for a well-formed job that is lent so many words and bytes; none where they are enough.
    pub fn refusal(&self, words: usize, bytes: usize) -> Option<Refusal> {
        if words < self.words {
            Some(Refusal { number: 1, place: 0 })
        } else if bytes < self.bytes {
            Some(Refusal { number: 2, place: 0 })
        } else {
            None
        }
    }
}

/// The number of columns and rows that touch a run's box.
fn lines_at(grid: &Grid, run: &Run) -> usize {
    let area = run.area();
    let columns = grid.columns.iter().filter(|&&x| area.low.x <= x && x <= area.high.x);
    let rows = grid.rows.iter().filter(|&&y| area.low.y <= y && y <= area.high.y);
    columns.count() + rows.count()
}

/// The forecast for a job book, or its refusal among 3 to 9 and 17.
pub fn forecast(bytes: &[u8]) -> Result<Forecast, Refusal> {
    refusal::read(bytes).map(|job| Forecast::of(&job))
}
