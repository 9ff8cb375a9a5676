//! Forecasts counted by hand and once more along a route, and the order of refusals that they bring.

use trench_check::book::job_bytes;
use trench_check::compare::{case, loans};
use trench_check::forecast::{Forecast, MOST_BYTES, MOST_WORDS, forecast};
use trench_check::generate::full_star;
use trench_check::grid::Grid;
use trench_check::job::{Job, Point, Run};
use trench_check::line;
use trench_check::random::Random;
use trench_check::refusal::{Refusal, called, read, verdict};

fn job(words: &str) -> Job {
    line::parse(words, 7).expect("a job line").unwrap_or(Job { number: 7, runs: Vec::new() })
}

#[test]
fn counted_by_hand() {
    for (line, words, bytes) in [
        ("# blank", 0, 22),
        ("0,0 3,4", 4 * 2 * 2, 22 + 9 + 9 * 3),
        ("0,0 3,0", 4 * 2, 22 + 9 + 9 * 2),
        ("0,0 0,3", 4 * 2, 22 + 9 + 9 * 2),
        ("0,0 3,4; 0,0 3,4", 4 * 2 * 2, 22 + 2 * (9 + 9 * 3)),
        ("0,0 3,3; 3,3 5,5", 4 * 3 * 3, 22 + 2 * (9 + 9 * 3)),
        ("0,0 4,3; 1,1 2,2", 4 * 4 * 4, 22 + (9 + 9 * 7) + (9 + 9 * 3)),
        ("4,3 0,0; 2,2 1,1", 4 * 4 * 4, 22 + (9 + 9 * 7) + (9 + 9 * 3)),
        ("0,2 4,2; 2,0 2,4", 4 * 3 * 3, 22 + 2 * (9 + 9 * 3)),
        ("0,0 40,30; 0,10 40,10; 20,20 20,50", 4 * 3 * 5, 22 + (9 + 9 * 6) + 2 * (9 + 9 * 3)),
        ("0,0 3,4; 0,0 3,4; 0,0 3,4", 4 * 2 * 2, 22 + 3 * (9 + 9 * 3)),
    ] {
        assert_eq!(Forecast::of(&job(line)), Forecast { words, bytes }, "{line}");
    }
}

/// The vertices that a route passes first along its row and then along its column: as many as on any other route of the run.
fn passed(grid: &Grid, run: &Run) -> usize {
    let corners = [run.first, Point::new(run.second.x, run.first.y), run.second];
    grid.path(&corners).expect("a path of the grid").len()
}

#[test]
fn counted_along_a_route() {
    let mut well_formed = 0;
    for n in 0..3_000 {
        let bytes = case(29, n).bytes;
        let Ok(job) = read(&bytes) else { continue };
        let grid = Grid::hanan(&job);
        let corners: usize = job.runs.iter().map(|run| 9 + 9 * passed(&grid, run)).sum();
        let counted = Forecast { words: 4 * grid.vertices().count(), bytes: 22 + corners };
        assert_eq!(forecast(&bytes), Ok(counted), "{}", line::show(&job));
        assert!(counted.words <= MOST_WORDS && counted.bytes <= MOST_BYTES);
        well_formed += 1;
    }
    assert!(well_formed > 1_500, "{well_formed} well-formed jobs");
    assert_eq!((MOST_WORDS, MOST_BYTES), (16_384, 36_886));
    assert_eq!(Forecast::of(&full_star(&mut Random::new(1))).words, MOST_WORDS, "64 columns and 64 rows");
}

#[test]
fn readings_of_request_20() {
    let due = |bytes: &[u8], words, room| {
        called(forecast(bytes), words, room, verdict(bytes)).map_err(|Refusal { number, place }| (number, place))
    };
    let star = job_bytes(&job("0,0 3,4"));
    assert!(due(&star, 16, 58).is_ok() && due(&star, usize::MAX, usize::MAX).is_ok());
    assert_eq!(due(&star, 15, 58), Err((1, 0)), "a word less");
    assert_eq!(due(&star, 16, 57), Err((2, 0)), "a byte less");
    assert_eq!(due(&star, 15, 57), Err((1, 0)), "1 before 2");
    assert_eq!(due(&star[..26], 0, 0), Err((3, 24)), "the job's bytes before 1 and 2");
    let no_star = job_bytes(&job("0,0 3,4; 0,0 3,4; 0,0 3,4"));
    assert_eq!(due(&no_star, 16, 130), Err((11, 0)), "the forecast is enough");
    assert_eq!(due(&no_star, 15, 130), Err((1, 0)), "1 before 11");
    assert_eq!(due(&no_star, 16, 129), Err((2, 0)), "2 before 11");
    let blank = job_bytes(&job("# blank"));
    assert!(due(&blank, 0, 22).is_ok(), "a blank job needs no word");
    assert_eq!(due(&blank, 0, 21), Err((2, 0)));
    let nowhere = job_bytes(&job("5,5 5,5"));
    assert_eq!((due(&nowhere, 0, 0), forecast(&nowhere).is_err()), (Err((17, 5)), true), "17 before 1");
}

/// Every job is lent just what it needs, and less of each: so it is told 1, 2 and what is due of it.
#[test]
fn every_job_is_lent_enough_and_too_little() {
    for n in 0..1_000 {
        let bytes = case(30, n).bytes;
        let Ok(forecast) = forecast(&bytes) else { continue };
        let told = |words, bytes| forecast.refusal(words, bytes).map(|refused| refused.number);
        let lent = loans(Some(forecast));
        let lent: Vec<_> = lent.iter().filter_map(|loan| Some(told(loan.words?, loan.bytes))).collect();
        assert!(lent.contains(&None) && lent.contains(&Some(2)), "{forecast:?}");
        assert_eq!(lent.contains(&Some(1)), forecast.words > 0, "{forecast:?}");
    }
}
