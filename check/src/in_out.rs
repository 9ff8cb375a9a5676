//! The least plan of a star by the in-out graph of document 000, sections 3.1 and 3.2: a directed acyclic graph over the
//! centre's part of the grid, in which a longest path from the centre's start to its end is the most that can be shared.
//!
//! An arc stands for one grid edge, or for a whole passage (p, q) through a leaf's box, whose length is by Lemma 3.1 the
//! most that the centre and this leaf can share between p and q. The upper left and the lower right corner of a box that has
//! an area are split into a copy for what is entered or left along the row and one along the column, so that no path passes
//! such a box by two arcs around its corner.

use std::cmp::Ordering;

use crate::edges::EdgeSet;
use crate::enumerate::{Least, Path};
use crate::grid::{Grid, Vertex};
use crate::job::{Area, Point, Run};

/// The copy of a vertex: the vertex itself, or its part for row arcs or for column arcs where it is split.
#[derive(Clone, Copy, Debug, PartialEq, Eq)]
enum Side {
    Whole,
    Row,
    Column,
}

/// A node: a vertex of the grid, or a copy of one.
type Node = (Vertex, Side);

/// An arc of the graph, with what it stands for.
#[derive(Clone, Copy, Debug)]
struct Arc {
    from: Node,
    to: Node,
    length: i64,
    /// The leaf whose box is passed, if any.
    leaf: Option<usize>,
}

/// The part of a box that lies in the centre's box, as vertices of the grid: its lower left and upper right corner.
#[derive(Clone, Copy, Debug)]
struct Part {
    low: Vertex,
    high: Vertex,
}

impl Part {
    fn of(grid: &Grid, area: &Area) -> Part {
        let corner = |p: Point| grid.vertex(p).expect("the corners of common parts of boxes are vertices");
        Part { low: corner(area.low), high: corner(area.high) }
    }

    fn has_area(&self) -> bool {
        self.low.column < self.high.column && self.low.row < self.high.row
    }

    fn holds(&self, v: Vertex) -> bool {
        (self.low.column..=self.high.column).contains(&v.column) && (self.low.row..=self.high.row).contains(&v.row)
    }

    fn upper_left(&self) -> Vertex {
        Vertex { column: self.low.column, row: self.high.row }
    }

    fn lower_right(&self) -> Vertex {
        Vertex { column: self.high.column, row: self.low.row }
    }

    fn vertices(self) -> impl Iterator<Item = Vertex> {
        (self.low.column..=self.high.column)
            .flat_map(move |column| (self.low.row..=self.high.row).map(move |row| Vertex { column, row }))
    }

    /// Where a path that rises to the right may enter: the left and the lower side.
    fn entries(self) -> impl Iterator<Item = Vertex> {
        self.vertices().filter(move |v| v.column == self.low.column || v.row == self.low.row)
    }

    /// Where it may leave: the right and the upper side.
    fn exits(self) -> impl Iterator<Item = Vertex> {
        self.vertices().filter(move |v| v.column == self.high.column || v.row == self.high.row)
    }
}

/// The least plan of a star of these runs with this centre, on a grid that has all their lines, and perhaps others.
pub fn least(runs: &[Run], grid: &Grid, centre: usize) -> Least {
    let mirrored = runs[centre].falls();
    let (runs, grid) = if mirrored { mirror(runs, grid) } else { (runs.to_vec(), grid.clone()) };
    let network = Network::new(&runs, &grid, centre);
    let (saved, arcs) = network.longest();
    let (route, shared) = network.walk(&arcs);
    let route_of = |(i, run): (usize, &Run)| match i == centre {
        true => oriented(&grid, run, route.clone()),
        false => leaf_route(&grid, run, &shared[i]),
    };
    let routes: Vec<Path> = runs.iter().enumerate().map(route_of).collect();
    let union = routes.iter().fold(EdgeSet::none(&grid), |union, path| union.union(&EdgeSet::along(&grid, path)));
    let trench = union.length(&grid);
    let distance: i64 = runs.iter().map(Run::distance).sum();
    assert_eq!(trench, distance - saved, "the union's length is what the graph says");
    let rows = grid.rows.len();
    let back = |v: &Vertex| if mirrored { Vertex { column: v.column, row: rows - 1 - v.row } } else { *v };
    Least { trench, routes: routes.iter().map(|path| path.iter().map(back).collect()).collect() }
}

/// Runs and grid with north and south exchanged: the rows come in the other order.
fn mirror(runs: &[Run], grid: &Grid) -> (Vec<Run>, Grid) {
    let point = |p: Point| Point::new(p.x, -p.y);
    let run = |r: &Run| Run { number: r.number, first: point(r.first), second: point(r.second) };
    let rows = grid.rows.iter().rev().map(|y| -y).collect();
    (runs.iter().map(run).collect(), Grid { columns: grid.columns.clone(), rows })
}

/// The graph of a star whose centre does not fall.
struct Network<'a> {
    runs: &'a [Run],
    grid: &'a Grid,
    /// The centre's box.
    whole: Part,
    /// The arcs out of each node, by the node's index.
    arcs: Vec<Vec<Arc>>,
}

impl<'a> Network<'a> {
    fn new(runs: &'a [Run], grid: &'a Grid, centre: usize) -> Network<'a> {
        let box_of_centre = runs[centre].area();
        let whole = Part::of(grid, &box_of_centre);
        let parts: Vec<(usize, Part)> = (0..runs.len())
            .filter(|&i| i != centre)
            .filter_map(|i| Some((i, Part::of(grid, &box_of_centre.common(&runs[i].area())?))))
            .collect();
        let nodes = whole.vertices().count() * 3;
        let mut network = Network { runs, grid, whole, arcs: vec![Vec::new(); nodes] };
        let split = Corners::of(&parts);
        network.add_edges(&parts, &split);
        for &(leaf, part) in parts.iter().filter(|(_, part)| part.has_area()) {
            network.add_passages(leaf, part, &split);
        }
        network.add_turns(&split);
        network
    }

    fn index(&self, node: Node) -> usize {
        let (Vertex { column, row }, side) = node;
        let Part { low, high } = self.whole;
        ((column - low.column) * (high.row - low.row + 1) + row - low.row) * 3 + side as usize
    }

    fn add(&mut self, arc: Arc) {
        let from = self.index(arc.from);
        self.arcs[from].push(arc);
    }

    /// Adds an arc between vertices; at a split one it ends in the copy of its direction.
    fn join(&mut self, from: Vertex, to: Vertex, length: i64, leaf: Option<usize>, split: &Corners) {
        let node = |v: Vertex| match (split.has(v), from.row == to.row) {
            (false, _) => (v, Side::Whole),
            (true, true) => (v, Side::Row),
            (true, false) => (v, Side::Column),
        };
        self.add(Arc { from: node(from), to: node(to), length, leaf });
    }

    /// One arc for each grid edge of the centre's box that is in no box with an area: its length is the edge's where it lies
    /// in a leaf's box, which is then a segment, and 0 elsewhere.
    fn add_edges(&mut self, parts: &[(usize, Part)], split: &Corners) {
        let whole = self.whole;
        for from in whole.vertices() {
            let right = Vertex { column: from.column + 1, ..from };
            let above = Vertex { row: from.row + 1, ..from };
            for to in [right, above].into_iter().filter(|&v| whole.holds(v)) {
                let mut owners = parts.iter().filter(|(_, part)| part.holds(from) && part.holds(to));
                let owner = owners.next();
                assert!(owners.next().is_none(), "an edge lies in the box of at most one leaf");
                match owner {
                    Some((_, part)) if part.has_area() => {}
                    Some(&(leaf, _)) => {
                        let length = self.grid.point(from).distance(self.grid.point(to));
                        self.join(from, to, length, Some(leaf), split);
                    }
                    None => self.join(from, to, 0, None, split),
                }
            }
        }
    }

    /// One arc for each way to pass a leaf's box that has an area (the in-out pairs of 3.1), as long as Lemma 3.1 says.
    fn add_passages(&mut self, leaf: usize, part: Part, split: &Corners) {
        for p in part.entries() {
            for q in part.exits().filter(|&q| p != q && p.column <= q.column && p.row <= q.row) {
                let length = self.sharable(leaf, p, q);
                self.join(p, q, length, Some(leaf), split);
            }
        }
    }

    /// Lemma 3.1: the most that the leaf can share with a centre's route from p to q.
    fn sharable(&self, leaf: usize, p: Vertex, q: Vertex) -> i64 {
        let (p, q) = (self.grid.point(p), self.grid.point(q));
        let (dx, dy) =
            (Point::new(p.x, 0).distance(Point::new(q.x, 0)), Point::new(0, p.y).distance(Point::new(0, q.y)));
        if self.runs[leaf].falls() { dx.max(dy) } else { dx + dy }
    }

    /// At a split corner: the turn that touches the box in this corner alone. It leads from row to column at an upper left
    /// corner and from column to row at a lower right one. Where the vertex is both, each turn would pass around the corner
    /// of one of the two boxes, and there is none.
    fn add_turns(&mut self, split: &Corners) {
        let turn = |from: Node, to: Node| Arc { from, to, length: 0, leaf: None };
        for &v in split.upper_left.iter().filter(|v| !split.lower_right.contains(v)) {
            self.add(turn((v, Side::Row), (v, Side::Column)));
        }
        for &v in split.lower_right.iter().filter(|v| !split.upper_left.contains(v)) {
            self.add(turn((v, Side::Column), (v, Side::Row)));
        }
    }

    /// The length of a longest path from the centre's lower left point to its upper right one, and its arcs. A node is
    /// settled once every node before it is; Lemma 3.2 (there is no cycle) makes that all of them.
    fn longest(&self) -> (i64, Vec<Arc>) {
        let start = self.index((self.whole.low, Side::Whole));
        let end = self.index((self.whole.high, Side::Whole));
        let mut waiting = vec![0_usize; self.arcs.len()];
        for arc in self.arcs.iter().flatten() {
            waiting[self.index(arc.to)] += 1;
        }
        let mut best: Vec<Option<(i64, Option<Arc>)>> = vec![None; self.arcs.len()];
        best[start] = Some((0, None));
        let mut ready: Vec<usize> = (0..self.arcs.len()).filter(|&node| waiting[node] == 0).collect();
        let mut settled = 0;
        while let Some(node) = ready.pop() {
            settled += 1;
            for arc in &self.arcs[node] {
                let to = self.index(arc.to);
                let length = best[node].map(|(length, _)| length + arc.length);
                if length > best[to].map(|(length, _)| length) {
                    best[to] = length.map(|length| (length, Some(*arc)));
                }
                waiting[to] -= 1;
                if waiting[to] == 0 {
                    ready.push(to);
                }
            }
        }
        assert_eq!(settled, self.arcs.len(), "the graph has no cycle");
        let reached = |node: usize| best[node].expect("the end can be reached from the start");
        let mut arcs = Vec::new();
        let mut node = end;
        while let Some(arc) = reached(node).1 {
            arcs.push(arc);
            node = self.index(arc.from);
        }
        arcs.reverse();
        (reached(end).0, arcs)
    }

    /// The centre's route of these arcs, from its lower left end, and for each run the stretch of it that is shared with that
    /// run: all of a passage with a leaf that rises; of one with a leaf that falls the longer direction, which is taken first.
    fn walk(&self, arcs: &[Arc]) -> (Path, Vec<Path>) {
        let mut route = vec![self.whole.low];
        let mut shared = vec![Path::new(); self.runs.len()];
        for arc in arcs {
            let (p, q) = (arc.from.0, arc.to.0);
            let column_first = arc.leaf.is_some_and(|leaf| {
                self.runs[leaf].falls() && arc.length == self.sharable(leaf, Vertex { column: q.column, ..p }, q)
            });
            let bend = if column_first {
                Vertex { column: p.column, row: q.row }
            } else {
                Vertex { column: q.column, row: p.row }
            };
            if let Some(leaf) = arc.leaf {
                let stretch = &mut shared[leaf];
                if stretch.is_empty() {
                    stretch.push(p);
                }
                let last = if self.runs[leaf].falls() { vec![bend] } else { vec![bend, q] };
                last.iter().for_each(|&v| straight(stretch, v));
            }
            straight(&mut route, bend);
            straight(&mut route, q);
        }
        (route, shared)
    }
}

/// The split vertices: upper left and lower right corners of the parts of leaves' boxes that have an area.
struct Corners {
    upper_left: Vec<Vertex>,
    lower_right: Vec<Vertex>,
}

impl Corners {
    fn of(parts: &[(usize, Part)]) -> Corners {
        let with_area = || parts.iter().map(|(_, part)| part).filter(|part| part.has_area());
        Corners {
            upper_left: with_area().map(Part::upper_left).collect(),
            lower_right: with_area().map(Part::lower_right).collect(),
        }
    }

    fn has(&self, v: Vertex) -> bool {
        self.upper_left.contains(&v) || self.lower_right.contains(&v)
    }
}

/// Extends a path along one line, vertex by vertex, to v.
fn straight(path: &mut Path, v: Vertex) {
    let mut here = *path.last().expect("a path has a first vertex");
    assert!(here.column == v.column || here.row == v.row, "a straight piece");
    let towards = |from: usize, to: usize| match from.cmp(&to) {
        Ordering::Less => from + 1,
        Ordering::Equal => from,
        Ordering::Greater => from - 1,
    };
    while here != v {
        here = Vertex { column: towards(here.column, v.column), row: towards(here.row, v.row) };
        path.push(here);
    }
}

/// Extends a path along the row and then along the column to v.
fn bent(path: &mut Path, v: Vertex) {
    let here = *path.last().expect("a path has a first vertex");
    straight(path, Vertex { column: v.column, row: here.row });
    straight(path, v);
}

/// The path from the run's first point: as it is, or backwards.
fn oriented(grid: &Grid, run: &Run, mut path: Path) -> Path {
    if path.first().copied() != grid.vertex(run.first) {
        path.reverse();
    }
    path
}

/// A leaf's route: from its first point to the nearer end of the shared stretch, along it, and on to its second point.
fn leaf_route(grid: &Grid, run: &Run, shared: &Path) -> Path {
    let first = grid.vertex(run.first).expect("a run's points are vertices");
    let second = grid.vertex(run.second).expect("a run's points are vertices");
    let mut stretch = shared.clone();
    let far = |path: &Path| path.first().map(|&v| run.first.distance(grid.point(v)));
    let from_other_end: Path = stretch.iter().rev().copied().collect();
    if far(&from_other_end) < far(&stretch) {
        stretch = from_other_end;
    }
    let mut path = vec![first];
    for &v in &stretch {
        bent(&mut path, v);
    }
    bent(&mut path, second);
    path
}
