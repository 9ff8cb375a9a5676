//! Pits (01, "Plan book"; 02, C-14), found point by point: of every vertex it is asked what each route does there.

use crate::edges::EdgeSet;
use crate::enumerate::Path;
use crate::grid::{Grid, Vertex};
use crate::job::Point;

/// The pits of some routes: "the distinct points that are an end of a route, a turn of a route, or a vertex which one route passes
/// along its row and another along its column" (02, C-14).
#[derive(Clone, Debug, PartialEq, Eq)]
pub struct Pits {
    /// The points at which some route ends or turns, rising.
    pub corners: Vec<Point>,
    /// The other pits, rising: no route ends or turns there, and two routes cross.
    pub crossings: Vec<Point>,
}

impl Pits {
    /// The number of pits.
    pub fn count(&self) -> usize {
        self.corners.len() + self.crossings.len()
    }
}

/// The pits of routes given vertex by vertex.
pub fn of_paths(grid: &Grid, paths: &[Path]) -> Pits {
    let routes: Vec<Laid> = paths.iter().map(|path| Laid::of(grid, path)).collect();
    let mut pits = Pits { corners: Vec::new(), crossings: Vec::new() };
    for v in grid.vertices() {
        let around = Around::of(grid, v);
        if routes.iter().any(|route| route.ends_or_turns(v)) {
            pits.corners.push(grid.point(v));
        } else if cross(&routes, &around) {
            pits.crossings.push(grid.point(v));
        }
    }
    pits
}

/// The pits of routes that go straight from each of their corners to the next, on the lines through all of these corners. In a
/// right plan these are the survey lines; in a wrong or a stored one they need not be.
pub fn of_corners(routes: &[&[Point]]) -> Pits {
    let grid = Grid::through(routes.iter().copied().flatten().copied());
    let path = |corners: &&[Point]| grid.path(corners).expect("corners on lines, each straight from the one before");
    of_paths(&grid, &routes.iter().map(path).collect::<Vec<_>>())
}

/// A route as it lies: the vertices at which it ends or turns, rising, and its edges.
struct Laid {
    corners: Vec<Vertex>,
    edges: EdgeSet,
}

impl Laid {
    fn of(grid: &Grid, path: &[Vertex]) -> Laid {
        let mut corners: Vec<Vertex> = corners(path).collect();
        corners.sort_unstable();
        Laid { corners, edges: EdgeSet::along(grid, path) }
    }

    fn ends_or_turns(&self, v: Vertex) -> bool {
        self.corners.binary_search(&v).is_ok()
    }

    /// Whether both of these edges are there and on the route.
    fn passes(&self, sides: Option<(usize, usize)>) -> bool {
        sides.is_some_and(|(one, other)| self.edges.has(one) && self.edges.has(other))
    }
}

/// The edges on both sides of a vertex, along its row and along its column; none where the line ends there.
struct Around {
    row: Option<(usize, usize)>,
    column: Option<(usize, usize)>,
}

impl Around {
    fn of(grid: &Grid, v: Vertex) -> Around {
        let edge = |u: Option<Vertex>| u.map(|u| grid.edge_between(u, v));
        let [left, right, below, above] = grid.around(v);
        Around { row: edge(left).zip(edge(right)), column: edge(below).zip(edge(above)) }
    }
}

/// Whether one route passes a vertex along its row, and another along its column.
fn cross(routes: &[Laid], around: &Around) -> bool {
    let along_row = || (0..routes.len()).filter(|&i| routes[i].passes(around.row));
    let along_column = || (0..routes.len()).filter(|&j| routes[j].passes(around.column));
    along_row().any(|i| along_column().any(|j| i != j))
}

/// The corners of a path: its first vertex, those at which it turns, its last.
pub fn corners(path: &[Vertex]) -> impl Iterator<Item = Vertex> {
    let turns = |i: usize| (path[i - 1].row == path[i].row) != (path[i].row == path[i + 1].row);
    let last = path.len() - 1;
    (0..path.len()).filter(move |&i| i == 0 || i == last || turns(i)).map(|i| path[i])
}
