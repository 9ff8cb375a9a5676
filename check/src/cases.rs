//! The four cases of two boxes (02, C-13), found by listing the points that lie in both.

use crate::job::{Area, Point};

/// What the common points of two boxes make.
#[derive(Clone, Copy, Debug, PartialEq, Eq)]
pub enum Case {
    /// There is no common point.
    Apart,
    /// There is exactly one.
    OnePoint,
    /// There is more than one, and all are on one row, or all on one column.
    LinePiece,
    /// They are on no common row and on no common column.
    CommonArea,
}

impl Case {
    /// The case of two boxes.
    pub fn of(a: &Area, b: &Area) -> Case {
        let points: Vec<Point> = points(a).filter(|&p| b.holds(p)).collect();
        match points[..] {
            [] => Case::Apart,
            [_] => Case::OnePoint,
            [first, ..] if points.iter().all(|p| p.y == first.y) || points.iter().all(|p| p.x == first.x) => {
                Case::LinePiece
            }
            _ => Case::CommonArea,
        }
    }

    /// Whether two different runs with these boxes meet.
    pub fn is_meeting(self) -> bool {
        matches!(self, Case::LinePiece | Case::CommonArea)
    }

    /// The sign by which a table shows it.
    fn sign(self) -> char {
        match self {
            Case::Apart => '.',
            Case::OnePoint => 'o',
            Case::LinePiece => '-',
            Case::CommonArea => '#',
        }
    }
}

/// The points of a box, column by column.
fn points(area: &Area) -> impl Iterator<Item = Point> {
    let (low, high) = (area.low, area.high);
    (low.x..=high.x).flat_map(move |x| (low.y..=high.y).map(move |y| Point::new(x, y)))
}

/// The boxes with corners among `side` times `side` points, in the order of their left, right, low and high sides.
pub fn boxes(side: i32) -> Vec<Area> {
    let stretches = || (0..side).flat_map(move |from| (from..side).map(move |to| (from, to)));
    stretches()
        .flat_map(|(left, right)| {
            stretches().map(move |(low, high)| Area { low: Point::new(left, low), high: Point::new(right, high) })
        })
        .collect()
}

/// The cases of all pairs of these boxes: a line for each box, in it a sign for each.
pub fn table(side: i32) -> String {
    let boxes = boxes(side);
    let line = |a: &Area| boxes.iter().map(|b| Case::of(a, b).sign()).collect::<String>() + "\n";
    boxes.iter().map(line).collect()
}
