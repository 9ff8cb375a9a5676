//! The Hanan grid (000, 2.2; 01, "Lines, boxes, meeting"): columns and rows through every point of the job.

use std::cmp::Ordering;

use crate::job::{Job, Point, gap};

/// A vertex by its column and row, counted from 0.
#[derive(Clone, Copy, Debug, PartialEq, Eq, PartialOrd, Ord, Hash)]
pub struct Vertex {
    /// The column's index.
    pub column: usize,
    /// The row's index.
    pub row: usize,
}

/// The grid of a job.
#[derive(Clone, Debug)]
pub struct Grid {
    /// The distinct x values, rising.
    pub columns: Vec<i32>,
    /// The distinct y values, rising.
    pub rows: Vec<i32>,
}

/// A grid edge: from a vertex to its right neighbour (along the row) or to its upper neighbour (along the column).
#[derive(Clone, Copy, Debug, PartialEq, Eq)]
pub struct Edge {
    /// The left or lower end.
    pub from: Vertex,
    /// The right or upper end.
    pub to: Vertex,
}

fn distinct(mut values: Vec<i32>) -> Vec<i32> {
    values.sort_unstable();
    values.dedup();
    values
}

/// The index one nearer to another, or that one itself.
pub(crate) fn nearer(from: usize, to: usize) -> usize {
    match from.cmp(&to) {
        Ordering::Less => from + 1,
        Ordering::Equal => to,
        Ordering::Greater => from - 1,
    }
}

impl Grid {
    /// The Hanan grid of a job.
    pub fn hanan(job: &Job) -> Grid {
        Grid::through(job.runs.iter().flat_map(|run| [run.first, run.second]))
    }

    /// The columns and rows through these points.
    pub fn through(points: impl Iterator<Item = Point> + Clone) -> Grid {
        let columns = distinct(points.clone().map(|p| p.x).collect());
        Grid { columns, rows: distinct(points.map(|p| p.y).collect()) }
    }

    /// The vertex at a point, if both of its lines are there.
    pub fn vertex(&self, p: Point) -> Option<Vertex> {
        let column = self.columns.binary_search(&p.x).ok()?;
        let row = self.rows.binary_search(&p.y).ok()?;
        Some(Vertex { column, row })
    }

    /// The point at which a vertex stands.
    pub fn point(&self, v: Vertex) -> Point {
        Point::new(self.columns[v.column], self.rows[v.row])
    }

    /// Every vertex, column by column.
    pub fn vertices(&self) -> impl Iterator<Item = Vertex> {
        (0..self.columns.len()).flat_map(|column| (0..self.rows.len()).map(move |row| Vertex { column, row }))
    }

    /// The number of edges.
    pub fn edge_count(&self) -> usize {
        self.along_rows() + self.columns.len() * self.rows.len().saturating_sub(1)
    }

    fn along_rows(&self) -> usize {
        self.columns.len().saturating_sub(1) * self.rows.len()
    }

    /// The edge of an index below `edge_count`: first those along rows, then those along columns.
    pub fn edge(&self, index: usize) -> Edge {
        if index < self.along_rows() {
            let width = self.columns.len() - 1;
            let from = Vertex { column: index % width, row: index / width };
            Edge { from, to: Vertex { column: from.column + 1, row: from.row } }
        } else {
            let height = self.rows.len() - 1;
            let index = index - self.along_rows();
            let from = Vertex { column: index / height, row: index % height };
            Edge { from, to: Vertex { column: from.column, row: from.row + 1 } }
        }
    }

    /// The index of the edge between two neighbouring vertices, in whatever order they are given.
    pub fn edge_between(&self, u: Vertex, v: Vertex) -> usize {
        let (from, to) = if u <= v { (u, v) } else { (v, u) };
        if from.row == to.row {
            assert_eq!(from.column + 1, to.column, "neighbours on a row");
            from.row * (self.columns.len() - 1) + from.column
        } else {
            assert_eq!((from.column, from.row + 1), (to.column, to.row), "neighbours on a column");
            self.along_rows() + from.column * (self.rows.len() - 1) + from.row
        }
    }

    /// The length of an edge: the distance of its ends.
    pub fn edge_length(&self, index: usize) -> i64 {
        let Edge { from, to } = self.edge(index);
        gap(self.columns[from.column], self.columns[to.column]) + gap(self.rows[from.row], self.rows[to.row])
    }

    /// The vertices joined to v by an edge: on the left, on the right, below, above.
    pub fn around(&self, v: Vertex) -> [Option<Vertex>; 4] {
        let left = v.column.checked_sub(1).map(|column| Vertex { column, ..v });
        let right = (v.column + 1 < self.columns.len()).then_some(Vertex { column: v.column + 1, ..v });
        let below = v.row.checked_sub(1).map(|row| Vertex { row, ..v });
        let above = (v.row + 1 < self.rows.len()).then_some(Vertex { row: v.row + 1, ..v });
        [left, right, below, above]
    }

    /// The vertices that are passed from each of these corners straight to the next; none where a corner is no vertex, or not on a
    /// line with the one before.
    pub fn path(&self, corners: &[Point]) -> Option<Vec<Vertex>> {
        let mut path = vec![self.vertex(*corners.first()?)?];
        for &corner in corners {
            let to = self.vertex(corner)?;
            let mut here = path[path.len() - 1];
            if here.column != to.column && here.row != to.row {
                return None;
            }
            while here != to {
                here.column = nearer(here.column, to.column);
                here.row = nearer(here.row, to.row);
                path.push(here);
            }
        }
        Some(path)
    }
}
