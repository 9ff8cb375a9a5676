//! The cases of two boxes: the stored ones, which the proved test gives, are those found by listing points, and two runs meet by a grid edge
//! exactly in the last two.

use trench_check::cases::{Case, boxes, table};
use trench_check::graph::Graph;
use trench_check::grid::Grid;
use trench_check::job::{Area, Job, Point, Run};

/// The points that every box has its corners among: `SIDE` in a row, `SIDE` in a column.
const SIDE: i32 = 4;

#[test]
fn the_stored_cases_are_found_by_listing_points() {
    let stored = concat!(env!("CARGO_MANIFEST_DIR"), "/../crates/case_vectors/stdout");
    assert_eq!(std::fs::read_to_string(stored).expect("the stored cases"), table(SIDE));
}

#[test]
fn every_case_occurs() {
    let table = table(SIDE);
    let count = |sign| table.chars().filter(|&c| c == sign).count();
    // Of the 100 pairs of stretches on a line of four points, 30 are apart, and 7 + 15 + 15 + 7 have one point in common.
    let [apart, point, longer] = [30, 44, 26];
    assert_eq!(
        ['.', 'o', '-', '#', '\n'].map(count),
        [100 * apart + (point + longer) * apart, point * point, 2 * point * longer, longer * longer, 100]
    );
}

/// A run between two opposite corners of a box, one way or the other.
fn diagonal(number: u16, area: &Area, falling: bool) -> Run {
    let (low, high) = (area.low, area.high);
    let (first, second) = if falling { (Point::new(low.x, high.y), Point::new(high.x, low.y)) } else { (high, low) };
    Run { number, first, second }
}

#[test]
fn two_runs_meet_exactly_in_the_last_two_cases() {
    let all_lines: Vec<Run> =
        (0..SIDE).map(|i| Run { number: 1, first: Point::new(i, i), second: Point::new(i, i) }).collect();
    let fine = Grid::hanan(&Job { number: 0, runs: all_lines });
    for (i, a) in boxes(SIDE).iter().enumerate() {
        for (j, b) in boxes(SIDE).iter().enumerate() {
            let runs = vec![diagonal(1, a, i % 2 == 0), diagonal(2, b, j % 3 == 0)];
            let job = Job { number: 0, runs };
            for grid in [&Grid::hanan(&job), &fine] {
                let graph = Graph::of(&job, grid);
                assert_eq!(graph.meet(0, 1), Case::of(a, b).is_meeting(), "{a:?} {b:?}");
            }
        }
    }
}
