//! Pits (02, C-14): hand-drawn routes whose pits were counted by hand, and stars in which cables are made to cross.

use std::collections::BTreeSet;

use trench_check::generate::{self, CROSSINGS, KINDS};
use trench_check::job::{Job, Point};
use trench_check::leases::{self, LAYOUTS};
use trench_check::line;
use trench_check::pits::{self, Pits};
use trench_check::planner;
use trench_check::random::Random;

/// The routes of `0,0 0,2 6,2; 3,0 3,4`: their corners.
fn routes(words: &str) -> Vec<Vec<Point>> {
    let route = |words: &str| words.split_whitespace().map(|word| line::point(word).expect("a point")).collect();
    words.split(';').map(route).collect()
}

fn pits_of(routes: &[Vec<Point>]) -> Pits {
    pits::of_corners(&routes.iter().map(Vec::as_slice).collect::<Vec<_>>())
}

/// Holds the pits of these routes to a number of ends and turns, and to these crossings; in whatever order the routes are given,
/// and with x for y.
fn assert_pits(words: &str, corners: usize, crossings: &str) {
    let crossings = if crossings.is_empty() { Vec::new() } else { routes(crossings).remove(0) };
    let mut routes = routes(words);
    for _ in 0..routes.len() {
        routes.rotate_left(1);
        let pits = pits_of(&routes);
        assert_eq!((pits.corners.len(), &pits.crossings), (corners, &crossings), "{words}");
        assert_eq!(pits.count(), corners + crossings.len(), "{words}");
    }
    let swapped = |p: &Point| Point::new(p.y, p.x);
    let turned: Vec<Vec<Point>> = routes.iter().map(|route| route.iter().map(swapped).collect()).collect();
    let turned = pits_of(&turned);
    let crossings: BTreeSet<Point> = crossings.iter().map(swapped).collect();
    assert_eq!(turned.corners.len(), corners, "{words}");
    assert_eq!(turned.crossings, crossings.into_iter().collect::<Vec<_>>(), "{words}");
}

#[test]
fn a_straight_leaf_across_the_centre() {
    assert_pits("0,0 0,2 6,2 6,4; 3,0 3,4", 6, "3,2");
    assert_pits("0,0 0,2 6,2 6,4; 3,0 3,4; 5,1 5,3", 8, "3,2 5,2");
    assert_pits("0,2 6,2; 3,0 3,4", 4, "3,2");
}

/// The two leaves do not meet, and the centre meets both; it goes another way than through their crossing.
#[test]
fn two_leaves_that_cross() {
    assert_pits("0,0 0,4 4,4; 2,1 2,3; 1,2 3,2", 7, "2,2");
    assert_pits("0,0 0,1 4,1 4,4; 1,0 1,3; 0,2 3,2", 8, "1,1 1,2");
}

#[test]
fn a_crossing_at_an_end_counts_once() {
    assert_pits("2,2 2,5 5,5; 2,0 2,4; 0,2 4,2", 7, "");
    assert_pits("0,2 4,2; 2,0 2,4; 2,2 4,2", 5, "");
}

#[test]
fn a_crossing_at_a_turn_counts_once() {
    assert_pits("0,0 2,0 2,2 4,2 4,4; 2,0 2,3; 1,2 4,2", 7, "");
    assert_pits("0,0 1,0 1,2 2,2 2,3 4,3 4,4; 2,1 2,4; 1,2 3,2", 10, "");
    assert_pits("0,2 4,2; 2,0 2,4; 1,2 2,2 2,3", 7, "");
}

#[test]
fn three_routes_through_one_vertex_count_once() {
    assert_pits("0,0 2,0 2,4 4,4; 2,1 2,3; 1,2 3,2", 8, "2,2");
    assert_pits("0,2 4,2; 1,2 3,2; 2,0 2,4; 2,1 2,3", 8, "2,2");
}

#[test]
fn along_the_same_line_is_no_crossing() {
    assert_pits("0,0 4,0; 1,0 5,0; 2,1 2,3", 6, "");
    assert_pits("0,0 4,0; 0,0 4,0; 2,1 2,3", 4, "");
}

#[test]
fn touching_at_an_end_is_that_end() {
    assert_pits("0,2 4,2; 2,2 2,4", 4, "");
    assert_pits("0,2 2,2 2,4; 2,2 4,2", 4, "");
    assert_pits("0,2 2,2; 2,2 2,4", 3, "");
}

/// No planner writes such a route, but the map draws a stored one.
#[test]
fn a_route_that_crosses_itself_needs_another() {
    assert_pits("0,0 4,0 4,2 2,2 2,-2", 5, "");
    assert_pits("0,0 4,0 4,2 2,2 2,-2; 1,0 3,0", 7, "2,0");
    assert_pits("0,0 4,0 4,2 2,2 2,-2; 2,-1 2,1", 7, "2,0");
}

/// A stored plan may have routes of one corner, and the map draws them.
#[test]
fn no_route_and_routes_of_one_corner() {
    assert_eq!(pits::of_corners(&[]).count(), 0);
    assert_pits("5,5", 1, "");
    assert_pits("0,2 4,2; 2,0 2,4; 2,2", 5, "");
}

/// These have one least plan each: the centre shares the longer leaf, and so crosses the shorter one.
#[test]
fn pits_of_planned_jobs() {
    let pits = |words| planner::plan(&line::parse(words, 7).unwrap().unwrap()).unwrap().pits;
    assert_eq!(pits("0,0 4,2; 0,1 4,1; 2,0 2,2"), 7);
    assert_eq!(pits("0,0 9,2; 0,1 9,1; 2,0 2,2; 7,0 7,2"), 10);
    assert_eq!(pits("0,0 9,2; 0,1 9,1; 2,0 2,1; 7,0 7,2"), 9);
}

/// Whether a route goes straight on at a point, along the row or along the column: it lies inside a piece between two corners.
fn passes(route: &[Point], p: Point, along_row: bool) -> bool {
    let inside = |a: i32, b: i32, at: i32| a.min(b) < at && at < a.max(b);
    route.windows(2).any(|piece| match along_row {
        true => piece[0].y == p.y && piece[1].y == p.y && inside(piece[0].x, piece[1].x, p.x),
        false => piece[0].x == p.x && piece[1].x == p.x && inside(piece[0].y, piece[1].y, p.y),
    })
}

/// The points where two routes cross, also those at an end or a turn, found piece by piece.
fn crossed_at(routes: &[Vec<Point>]) -> BTreeSet<Point> {
    let lines = || routes.iter().flatten();
    let points = lines().flat_map(|p| lines().map(move |q| Point::new(p.x, q.y)));
    let crossed = |p: &Point| {
        let along = |row: bool| (0..routes.len()).filter(move |&i| passes(&routes[i], *p, row));
        along(true).any(|i| along(false).any(|j| i != j))
    };
    points.filter(crossed).collect()
}

/// The pits of planned stars are those found piece by piece. Among those in which cables are made to cross, many plans of each sort
/// have a crossing alone, at an end or a turn, and of three routes.
#[test]
fn crossings_of_planned_stars() {
    for crossing in CROSSINGS {
        let (mut alone, mut at_corner, mut of_three) = (0, 0, 0);
        for n in 0..300 {
            let job = generate::crossed_star(&mut Random::nth(31, n), crossing);
            let plan = planner::plan(&job).expect("a star");
            let pits = pits_of(&plan.corners);
            let corners: BTreeSet<Point> = plan.corners.iter().flatten().copied().collect();
            let crossed = crossed_at(&plan.corners);
            let due = (corners.iter().copied().collect(), crossed.difference(&corners).copied().collect());
            assert_eq!((pits.corners, pits.crossings.clone()), due, "{}", line::show(&job));
            assert_eq!(plan.pits, corners.union(&crossed).count(), "{}", line::show(&job));
            let goes_on = |route: &&Vec<Point>, p: Point| passes(route, p, true) || passes(route, p, false);
            let through = |p: Point| plan.corners.iter().filter(|route| goes_on(route, p)).count();
            alone += usize::from(!pits.crossings.is_empty());
            at_corner += usize::from(!crossed.is_disjoint(&corners));
            of_three += usize::from(pits.crossings.iter().any(|&p| through(p) > 2));
        }
        assert!(alone > 60 && at_corner > 60 && of_three > 40, "{crossing:?}: {alone} {at_corner} {of_three}");
    }
}

#[test]
fn stars_of_every_kind_piece_by_piece() {
    for n in 0..260 {
        let job = generate::star(&mut Random::nth(32, n), KINDS[n as usize % KINDS.len()]);
        assert_pits_by_pieces(&job);
    }
}

/// The pits of a planned job, found piece by piece.
fn assert_pits_by_pieces(job: &Job) {
    let plan = planner::plan(job).expect("every group is a star");
    let corners: BTreeSet<Point> = plan.corners.iter().flatten().copied().collect();
    assert_eq!(plan.pits, corners.union(&crossed_at(&plan.corners)).count(), "{}", line::show(job));
}

/// Pits belong to all groups together: where groups touch there is one, and where they cross one too.
#[test]
fn leases_of_every_layout_piece_by_piece() {
    for n in 0..270 {
        assert_pits_by_pieces(&leases::lease(&mut Random::nth(33, n), LAYOUTS[n as usize % LAYOUTS.len()]));
    }
    let pits = |words| planner::plan(&line::parse(words, 7).unwrap().unwrap()).unwrap().pits;
    assert_eq!(pits("0,0 3,0; 3,0 5,0; 3,0 3,2"), 4, "three groups at one point");
    assert_eq!(pits("0,2 4,2; 2,0 2,4"), 5, "two groups that cross");
}

/// The proved program prints routes by their corners, and their pits.
#[test]
fn the_stored_pits_are_found_point_by_point() {
    let stored = concat!(env!("CARGO_MANIFEST_DIR"), "/../crates/plan_vectors/stdout");
    let (mut printed, mut crossings) = (Vec::new(), 0);
    for line in std::fs::read_to_string(stored).expect("the stored pits").lines() {
        match line.split_once(' ') {
            Some(("corners", corners)) => printed.extend(routes(corners.split_once(": ").expect("corners").1)),
            Some(("pits", count)) => {
                let pits = pits_of(&std::mem::take(&mut printed));
                assert_eq!(count.parse(), Ok(pits.count()));
                crossings += pits.crossings.len();
            }
            _ => {}
        }
    }
    assert!(crossings >= 8, "{crossings} pits for a crossing alone");
}
