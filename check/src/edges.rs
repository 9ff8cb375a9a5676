//! Sets of grid edges: what a box holds, what a route digs, what a plan digs.

use crate::grid::{Grid, Vertex};
use crate::job::Area;

/// A set of edges of one grid, a bit an edge.
#[derive(Clone, Debug, PartialEq, Eq)]
pub struct EdgeSet {
    words: Vec<u64>,
}

impl EdgeSet {
    /// The empty set, for the edges of this grid.
    pub fn none(grid: &Grid) -> EdgeSet {
        EdgeSet { words: vec![0; grid.edge_count().div_ceil(64)] }
    }

    /// The edges that lie in the rectangle: both ends do.
    pub fn inside(grid: &Grid, area: &Area) -> EdgeSet {
        let mut set = EdgeSet::none(grid);
        for index in 0..grid.edge_count() {
            let edge = grid.edge(index);
            if area.holds(grid.point(edge.from)) && area.holds(grid.point(edge.to)) {
                set.add(index);
            }
        }
        set
    }

    /// The edges of a path given vertex by vertex, each next to the one before.
    pub fn along(grid: &Grid, path: &[Vertex]) -> EdgeSet {
        let mut set = EdgeSet::none(grid);
        for pair in path.windows(2) {
            set.add(grid.edge_between(pair[0], pair[1]));
        }
        set
    }

    /// Adds an edge.
    pub fn add(&mut self, index: usize) {
        self.words[index / 64] |= 1 << (index % 64);
    }

    /// Whether the edge is in the set.
    pub fn has(&self, index: usize) -> bool {
        self.words[index / 64] >> (index % 64) & 1 == 1
    }

    /// Whether some edge is in both sets.
    pub fn meets(&self, other: &EdgeSet) -> bool {
        self.words.iter().zip(&other.words).any(|(a, b)| a & b != 0)
    }

    /// The edges in this set or the other.
    pub fn union(&self, other: &EdgeSet) -> EdgeSet {
        EdgeSet { words: self.words.iter().zip(&other.words).map(|(a, b)| a | b).collect() }
    }

    /// The indexes of the edges in the set, rising.
    pub fn indexes(&self) -> impl Iterator<Item = usize> {
        self.words.iter().enumerate().flat_map(|(i, &word)| bits(word).map(move |bit| i * 64 + bit))
    }

    /// The sum of the edges' lengths.
    pub fn length(&self, grid: &Grid) -> i64 {
        self.indexes().map(|index| grid.edge_length(index)).sum()
    }

    /// The words of the set, 64 edges each.
    pub fn words(&self) -> &[u64] {
        &self.words
    }
}

/// The positions of the ones of a word, rising.
pub fn bits(word: u64) -> impl Iterator<Item = usize> {
    let mut rest = word;
    std::iter::from_fn(move || {
        let bit = (rest != 0).then(|| rest.trailing_zeros() as usize);
        rest &= rest.wrapping_sub(1);
        bit
    })
}
