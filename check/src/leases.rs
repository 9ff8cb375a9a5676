//! Leases of several stars, from a seed: placed on a small lattice in every way that groups can lie to each other, and then
//! stretched to other coordinates; and jobs of which some group just fails to be a star.

use crate::generate::{
    self, KINDS, anywhere_numbered, ends, nearby_numbered, numbered, on_lattice, share, spread_boxes, spread_numbered,
    turned,
};
use crate::job::{Area, FAR, Job, MOST_RUNS, Point};
use crate::random::Random;

/// How the groups of a lease lie.
#[derive(Clone, Copy, Debug, PartialEq, Eq)]
pub enum Layout {
    /// Side by side, no line of one in the boxes of another.
    Apart,
    /// In tiles, the lines of each through those beside it.
    Tiles,
    /// Each touches one before it in a corner.
    Corners,
    /// Small groups in what the runs of a large one leave empty.
    Within,
    /// Straight runs that cross in one point each, some with others along them.
    Crossed,
    /// Groups of two runs.
    Pairs,
    /// Runs that meet nobody: every run is a group.
    Singles,
    /// Groups of all kinds, anywhere.
    Woven,
}

/// All of them.
pub const LAYOUTS: [Layout; 8] = [
    Layout::Apart,
    Layout::Tiles,
    Layout::Corners,
    Layout::Within,
    Layout::Crossed,
    Layout::Pairs,
    Layout::Singles,
    Layout::Woven,
];

/// A lease under construction on a lattice. Every group of it is a star.
struct Lease {
    boxes: Vec<Area>,
    /// The runs that each run meets.
    meets: Vec<Vec<usize>>,
    /// The most runs.
    most: usize,
}

impl Lease {
    fn met_by(&self, area: &Area) -> Vec<usize> {
        (0..self.boxes.len()).filter(|&i| share(&self.boxes[i], area)).collect()
    }

    fn is_full(&self) -> bool {
        self.boxes.len() >= self.most
    }

    /// Adds a run, if there is room for it and every group is a star with it: it meets nobody; or one run that then is a centre;
    /// or several that meet nobody yet, and it is their centre.
    fn add(&mut self, area: Area) -> bool {
        let met = self.met_by(&area);
        let can_be_centre = |c: usize| self.meets[c].iter().all(|&leaf| self.meets[leaf].len() == 1);
        let fits = match met[..] {
            [one] => can_be_centre(one),
            _ => met.iter().all(|&i| self.meets[i].is_empty()),
        };
        if self.is_full() || !fits {
            return false;
        }
        let new = self.boxes.len();
        met.iter().for_each(|&i| self.meets[i].push(new));
        self.boxes.push(area);
        self.meets.push(met);
        true
    }

    /// Adds a run that meets nobody.
    fn add_alone(&mut self, area: Area) -> bool {
        self.met_by(&area).is_empty() && self.add(area)
    }

    /// Adds what fits of a star, moved so far; nothing where its centre meets somebody.
    fn add_star(&mut self, boxes: &[Area], by: Point) {
        let moved = |area: &Area| moved(area, by);
        if self.add_alone(moved(&boxes[0])) {
            boxes[1..].iter().for_each(|area| {
                self.add(moved(area));
            });
        }
    }

    /// A point of the lattice around the runs so far, or not far from them.
    fn anywhere(&self, random: &mut Random, span: i32) -> Point {
        let reach = if self.boxes.is_empty() { 0 } else { span };
        Point::new(random.from(-reach, reach), random.from(-reach, reach))
    }

    /// A straight run anywhere; most that meet somebody are left out.
    fn add_segment(&mut self, random: &mut Random, span: i32) {
        let p = self.anywhere(random, span);
        let size = random.from(1, 2 * span);
        let end = if random.once_in(2) { Point::new(p.x + size, p.y) } else { Point::new(p.x, p.y + size) };
        let area = Area::of(p, end);
        if self.met_by(&area).is_empty() || random.once_in(4) {
            self.add(area);
        }
    }

    /// Two runs between the same points, or the second from a point of the first one's box on.
    fn add_pair(&mut self, random: &mut Random, span: i32) {
        let p = self.anywhere(random, 2 * span);
        let area = around(random, p, 2);
        if self.boxes.len() + 1 < self.most && self.add_alone(area) {
            let inside = point_in(random, &area);
            let second = if random.once_in(2) { area } else { around(random, inside, 2) };
            if self.met_by(&second) == [self.boxes.len() - 1] {
                self.add(second);
            }
        }
    }

    /// Adds a group, or a run or two, as the layout has them; whatever does not fit is left out.
    fn extend(&mut self, random: &mut Random, layout: Layout, span: i32) {
        let (first, room) = (self.boxes.is_empty(), self.most - self.boxes.len());
        match layout {
            Layout::Apart | Layout::Tiles => unreachable!("these are laid at once"),
            Layout::Crossed => self.add_segment(random, span),
            Layout::Pairs => self.add_pair(random, span),
            Layout::Singles => {
                let p = self.anywhere(random, 2 * span);
                let area = around(random, p, 3);
                self.add_alone(area);
            }
            Layout::Within if first => {
                let boxes = angle(random, 4 * span);
                self.add_star(&boxes, Point::new(0, 0));
            }
            Layout::Within => {
                let boxes = some_star(random, room, 2.max(span / 2));
                let by = Point::new(random.from(1, 3 * span), random.from(1, 3 * span));
                self.add_star(&boxes, by);
            }
            Layout::Corners if !first => {
                let (boxes, area) = (some_star(random, room, span), *random.pick(&self.boxes));
                let (to, from) = (corner_of(random, &area), corner_of(random, &boxes[0]));
                self.add_star(&boxes, Point::new(to.x - from.x, to.y - from.y));
            }
            Layout::Corners | Layout::Woven => {
                let boxes = some_star(random, room, span);
                let by = self.anywhere(random, span);
                self.add_star(&boxes, by);
            }
        }
    }
}

fn moved(area: &Area, by: Point) -> Area {
    let point = |p: Point| Point::new(p.x + by.x, p.y + by.y);
    Area { low: point(area.low), high: point(area.high) }
}

fn corner_of(random: &mut Random, area: &Area) -> Point {
    Point::new(*random.pick(&[area.low.x, area.high.x]), *random.pick(&[area.low.y, area.high.y]))
}

fn point_in(random: &mut Random, area: &Area) -> Point {
    Point::new(random.from(area.low.x, area.high.x), random.from(area.low.y, area.high.y))
}

/// A box with p as its low corner whose sides are at most so long, often a straight piece, and no single point.
fn around(random: &mut Random, p: Point, size: i32) -> Area {
    let (wide, high) = (random.from(0, size), random.from(0, size));
    let wide = if wide + high == 0 { 1 } else { wide };
    Area::of(p, Point::new(p.x + wide, p.y + high))
}

/// A star along two sides of a square, which leaves the rest of it empty: the centre along one, a leaf along the other.
fn angle(random: &mut Random, size: i32) -> Vec<Area> {
    let (corner, thick) = (Point::new(0, 0), random.from(0, 1));
    let mut sides = [(corner, Point::new(size, thick)), (corner, Point::new(1 - thick, size))];
    turned(random, &mut sides, size);
    sides.iter().map(|&(p, q)| Area::of(p, q)).collect()
}

/// A star of any kind with at most so many runs.
fn some_star(random: &mut Random, most: usize, span: i32) -> Vec<Area> {
    let kind = *random.pick(&KINDS);
    let few = *random.pick(&[1, 2, 4, 8, MOST_RUNS]);
    let runs = 1 + random.below(few);
    let mut boxes = on_lattice(random, kind, runs.min(most), span);
    boxes.truncate(most);
    boxes
}

/// Stars side by side: the first to the left, and from below in any order; so that no line of one touches another.
fn side_by_side(random: &mut Random, stars: &[Vec<Area>]) -> Vec<Area> {
    let mut order: Vec<usize> = (0..stars.len()).collect();
    random.shuffle(&mut order);
    let mut from_below = vec![0; stars.len()];
    let mut next = 0;
    for &at in &order {
        let (low, high) = ends(stars[at].iter().flat_map(|area| [area.low.y, area.high.y]));
        from_below[at] = next - low;
        next += high - low + 1;
    }
    let mut next = 0;
    let mut all = Vec::new();
    for (star, y) in stars.iter().zip(from_below) {
        let (low, high) = ends(star.iter().flat_map(|area| [area.low.x, area.high.x]));
        all.extend(star.iter().map(|area| moved(area, Point::new(next - low, y))));
        next += high - low + 1;
    }
    all
}

/// A lease of this layout with at most so many runs, whose groups span about so much of the lattice.
fn lease_on_lattice(random: &mut Random, layout: Layout, most: usize, span: i32) -> Vec<Area> {
    if matches!(layout, Layout::Apart | Layout::Tiles) {
        let mut stars: Vec<Vec<Area>> = Vec::new();
        while stars.iter().map(Vec::len).sum::<usize>() < most {
            let room = most - stars.iter().map(Vec::len).sum::<usize>();
            stars.push(some_star(random, room, span));
        }
        if layout == Layout::Apart {
            return side_by_side(random, &stars);
        }
        let wide = 1 + random.below(4) as i32;
        let tile = |n: i32| Point::new(n % wide * (span + 1), n / wide * (span + 1));
        return stars.iter().zip(0..).flat_map(|(star, n)| star.iter().map(move |area| moved(area, tile(n)))).collect();
    }
    let mut lease = Lease { boxes: Vec::new(), meets: Vec::new(), most };
    let mut tries = 20 + 10 * most;
    while tries > 0 && !lease.is_full() {
        tries -= 1;
        lease.extend(random, layout, span);
    }
    if lease.boxes.is_empty() {
        lease.add(around(random, Point::new(0, 0), span));
    }
    lease.boxes
}

/// A lease of this layout with up to 32 runs, at any coordinates.
pub fn lease(random: &mut Random, layout: Layout) -> Job {
    let runs = if random.once_in(3) { MOST_RUNS } else { 1 + random.below(MOST_RUNS) };
    let span = random.from(2, 12);
    let boxes = lease_on_lattice(random, layout, runs, span);
    anywhere_numbered(random, &boxes)
}

/// A small lease of this layout, its runs numbered 1, 2, 3: so few routes that all choices of them can often be tried.
pub fn small_lease(random: &mut Random, layout: Layout) -> Job {
    let runs = 2 + random.below(6);
    let span = random.from(2, 3);
    let boxes = lease_on_lattice(random, layout, runs, span);
    nearby_numbered(random, &boxes)
}

/// A lease with 32 runs in two groups or more that has 64 columns and 64 rows.
pub fn full_lease(random: &mut Random) -> Job {
    let most = *random.pick(&[1, 2, 4, 10, MOST_RUNS - 1]);
    let mut sizes = Vec::new();
    let mut rest = MOST_RUNS;
    while rest > 0 {
        sizes.push((1 + random.below(most)).min(rest));
        rest -= sizes[sizes.len() - 1];
    }
    spread(random, &sizes)
}

/// A lease of so many stars of so many runs each on twice as many columns and rows, no line of one in the boxes of another.
pub fn spread_lease(random: &mut Random, groups: usize, runs: usize) -> Job {
    spread(random, &vec![runs; groups])
}

fn spread(random: &mut Random, sizes: &[usize]) -> Job {
    let stars: Vec<Vec<Area>> = sizes.iter().map(|&runs| spread_boxes(random, runs)).collect();
    let boxes = side_by_side(random, &stars);
    spread_numbered(random, &boxes)
}

/// A star or a lease in which one thing was changed, so that some group of it often is no star: a run doubled, moved by one
/// decimetre, replaced by one between points of others, or added between such points, so that it may join two groups. Where the
/// change leaves a run with one point, the job is without it.
pub fn near(random: &mut Random) -> Job {
    let (kind, layout) = (*random.pick(&KINDS), *random.pick(&LAYOUTS));
    let job = match random.below(4) {
        0 => generate::small_star(random, kind),
        1 => generate::star(random, kind),
        2 => small_lease(random, layout),
        _ => lease(random, layout),
    };
    let mut points: Vec<(Point, Point)> = job.runs.iter().map(|run| (run.first, run.second)).collect();
    let at = random.below(points.len());
    let other = random.below(points.len());
    match random.below(4) {
        0 => points.push(points[at]),
        1 => {
            let moved = points[at].0;
            let by = |random: &mut Random, value: i32| (value + random.from(-1, 1)).clamp(-FAR, FAR);
            points[at].0 = Point::new(by(random, moved.x), by(random, moved.y));
        }
        2 => points.push((points[at].0, points[other].1)),
        _ => points[at] = (points[at].1, points[other].0),
    }
    points.retain(|(first, second)| first != second);
    points.truncate(MOST_RUNS);
    numbered(random, &points)
}

/// A lease of which one group is no star, by the way it was made, and every other is one.
pub fn broken_lease(random: &mut Random) -> Job {
    let mut stars = vec![no_star(random)];
    for _ in 0..random.below(6) {
        let room = MOST_RUNS - stars.iter().map(Vec::len).sum::<usize>();
        if room > 0 {
            let span = random.from(2, 8);
            stars.push(some_star(random, room, span));
        }
    }
    random.shuffle(&mut stars);
    let boxes = side_by_side(random, &stars);
    anywhere_numbered(random, &boxes)
}

/// The boxes of a group that is no star.
fn no_star(random: &mut Random) -> Vec<Area> {
    let area = |x: i32, y: i32, w: i32, z: i32| Area::of(Point::new(x, y), Point::new(w, z));
    match random.below(5) {
        0 => vec![around(random, Point::new(0, 0), 2); 3 + random.below(MOST_RUNS - 2)],
        // A chain of four runs or more, each of which meets the next.
        1 => (0..4 + random.below(8) as i32).map(|k| area(2 * k, 0, 2 * k + 3, k % 2)).collect(),
        // Two runs across two others: a ring.
        2 => vec![area(0, 1, 9, 2), area(0, 5, 9, 6), area(1, 0, 2, 9), area(5, 0, 6, 9)],
        // A star with one of its leaves doubled.
        3 => {
            let mut star = star_of_two(random);
            star.push(star[1]);
            star
        }
        // Two groups of at least two runs, joined by one more.
        _ => {
            let (left, right) = (star_of_two(random), star_of_two(random));
            let (low, high) = (left[0].low, moved(&right[0], Point::new(20, 20)).high);
            let right = right.iter().map(|area| moved(area, Point::new(20, 20)));
            let mut joined: Vec<Area> = left.iter().copied().chain(right).collect();
            joined.push(Area { low, high });
            joined
        }
    }
}

/// A star of two runs or more, the centre first.
fn star_of_two(random: &mut Random) -> Vec<Area> {
    loop {
        let kind = *random.pick(&KINDS[1..]);
        let runs = 2 + random.below(6);
        let boxes = on_lattice(random, kind, runs, 8);
        if boxes.len() > 1 {
            return boxes;
        }
    }
}
