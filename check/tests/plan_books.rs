//! Plan books read back, of both sets of kinds: every refusal of requests C-12 and C-16 and every limit from both sides, and two
//! opinions on many books.

use trench_check::book_cases::{Made, book_case, count, planned, route};
use trench_check::book_damage;
use trench_check::job::Point;
use trench_check::judge::LONGEST_PLAN;
use trench_check::line;
use trench_check::listing;
use trench_check::plan_book::{Kinds, PlanBook};
use trench_check::planner;
use trench_check::random::Random;
use trench_check::read_back::{Reading, corner_at, listed, route_at};

/// The plan of document 01's listing in a set of kinds, and where its records stand.
struct Example {
    kinds: Kinds,
    routes: [usize; 3],
    corners: [usize; 8],
    end: usize,
    length: usize,
}

const NEWER: Example = Example {
    kinds: Kinds::Newer,
    routes: [19, 64, 91],
    corners: [28, 37, 46, 55, 73, 82, 100, 109],
    end: 118,
    length: 121,
};

const OLDER: Example = Example {
    kinds: Kinds::Older,
    routes: [19, 62, 87],
    corners: [26, 35, 44, 53, 69, 78, 94, 103],
    end: 112,
    length: 115,
};

impl Example {
    fn book(&self) -> PlanBook {
        let job = line::parse("0,0 40,30; 0,10 40,10; 20,20 20,50", 7).expect("a job line").expect("a job");
        let book = PlanBook::of(&job, &planner::plan(&job).expect("a star"));
        if self.kinds == Kinds::Newer { book } else { book.as_older() }
    }

    /// What reading gives once the example was changed: a refusal, or `read`.
    fn changed(&self, change: impl FnOnce(&mut PlanBook)) -> String {
        let mut book = self.book();
        change(&mut book);
        told(&book.bytes())
    }

    /// What reading gives for a book with these corners in its only route, and with right counts.
    fn with_corners(&self, points: &[(i32, i32)]) -> String {
        self.changed(|book| {
            book.routes = vec![route(1, 0, 0, points.iter().map(|&(x, y)| Point::new(x, y)).collect())];
            count(book);
        })
    }

    /// The refusal of this number at the place of a corner.
    fn at_corner(&self, number: i32, k: usize) -> String {
        format!("refused {number} at {}", self.corners[k])
    }

    /// The refusal of this number at the place of a route.
    fn at_route(&self, number: i32, i: usize) -> String {
        format!("refused {number} at {}", self.routes[i])
    }
}

fn told(bytes: &[u8]) -> String {
    PlanBook::read(bytes).map_or_else(|refusal| refusal.to_string(), |_| "read".to_string())
}

/// So many corners around a square.
fn around(corners: usize) -> Vec<Point> {
    let side = |k: usize| if k % 4 < 2 { 0 } else { 5 };
    (0..corners).map(|k| Point::new(side(k), side(k + 1))).collect()
}

#[test]
fn the_example_is_read() {
    for example in [NEWER, OLDER] {
        let book = example.book();
        let bytes = book.bytes();
        let places = [&example.routes[..], &[example.end]].concat();
        assert_eq!((bytes.len(), book.places(), book.kinds), (example.length, places, example.kinds));
        assert_eq!(PlanBook::read(&bytes), Ok(book.clone()));
        assert_eq!(listed(&bytes), listing::of_plan(&book));
    }
}

/// The bytes of a head and of a route as the requests give them, field by field.
#[test]
fn the_records_byte_by_byte() {
    let head = |kind: u8, last: u8| [kind, 7, 0, 0, 0, 3, 0, 100, 0, 0, 0, 40, 0, 0, 0, 6, 0, last, 0];
    let (newer, older) = (NEWER.book(), OLDER.book());
    assert_eq!(newer.bytes()[..28], [&head(0x51, 1)[..], &[0x4F, 1, 0, 2, 0, 4, 0, 1, 0]].concat());
    assert_eq!(older.bytes()[..26], [&head(0x50, 1)[..], &[0x4E, 1, 0, 2, 0, 4, 0]].concat());
    assert_eq!(newer.bytes()[91..100], [0x4F, 3, 0, 1, 0, 2, 0, 1, 0]);
    assert_eq!((newer.bytes()[28..64].to_vec(), newer.bytes()[118..].to_vec()), {
        (older.bytes()[26..62].to_vec(), older.bytes()[112..].to_vec())
    });
}

#[test]
fn the_example_cut() {
    for example in [NEWER, OLDER] {
        let bytes = example.book().bytes();
        let mut records = [&[0, example.end][..], &example.routes, &example.corners].concat();
        records.sort_unstable();
        for length in 0..bytes.len() {
            let place = records.iter().rfind(|&&place| place <= length).expect("the head's place is 0");
            assert_eq!(told(&bytes[..length]), format!("refused 12 at {place}"), "cut to {length}");
        }
    }
}

#[test]
fn records_out_of_order() {
    for example in [NEWER, OLDER] {
        let bytes = example.book().bytes();
        let [first, second, _] = example.routes;
        let (head, first_route) = (&bytes[..first], &bytes[first..example.corners[0]]);
        let (corner, end) = (&bytes[example.corners[0]..example.corners[1]], &bytes[example.end..]);
        let blank = {
            let mut blank = example.book();
            blank.routes.clear();
            count(&mut blank);
            blank.bytes()
        };
        let after = format!("refused 12 at {}", example.length);
        assert_eq!(told(&[]), "refused 12 at 0", "no byte");
        assert_eq!(told(&bytes[first..]), "refused 12 at 0", "no head");
        assert_eq!(told(end), "refused 12 at 0", "an end alone");
        assert_eq!(told(&[0]), "refused 12 at 0", "an unknown kind alone");
        assert_eq!(told(&[head, head, &bytes[19..]].concat()), "refused 12 at 19", "a second head");
        assert_eq!(told(&[head, &head[..5]].concat()), "refused 12 at 19", "a second head, cut");
        assert_eq!(told(&[head, corner, &bytes[19..]].concat()), "refused 12 at 19", "a corner before any route");
        assert_eq!(told(&[head, &[0x5A, 1]].concat()), "refused 12 at 19", "an end, cut");
        assert_eq!(told(&[head, &[0x52], &bytes[20..]].concat()), "refused 12 at 19", "a run");
        let unknown = [&bytes[..second], &[0x4D], &bytes[second + 1..]].concat();
        assert_eq!(told(&unknown), example.at_route(12, 1), "an unknown kind");
        assert_eq!(told(&[&bytes[..], &[0]].concat()), after, "a byte after the end");
        assert_eq!(told(&[&bytes[..], end].concat()), after, "a second end");
        assert_eq!(told(&[&blank[..], first_route].concat()), "refused 12 at 22", "a route after the end");
        assert_eq!(told(&blank), "read");
    }
}

/// Bytes of one example up to a place, and of the other from a place on.
fn mixed(front: &Example, to: usize, back: &Example, from: usize) -> String {
    told(&[&front.book().bytes()[..to], &back.book().bytes()[from..]].concat())
}

/// A book with records of both sets: the first of the other set is told, whole or cut, whatever stands behind it.
#[test]
fn kinds_mixed() {
    for (front, back) in [(NEWER, OLDER), (OLDER, NEWER)] {
        for i in 0..3 {
            assert_eq!(
                mixed(&front, front.routes[i], &back, back.routes[i]),
                front.at_route(12, i),
                "from route {i} on"
            );
        }
        let (bytes, other) = (front.book().bytes(), back.book().bytes());
        for i in 0..3 {
            let to = [front.routes[1], front.routes[2], front.end][i];
            let (from, until) = (back.routes[i], [back.routes[1], back.routes[2], back.end][i]);
            let one = [&bytes[..front.routes[i]], &other[from..until], &bytes[to..]].concat();
            assert_eq!(told(&one), front.at_route(12, i), "one route of the other set");
            for length in 1..until - from {
                let cut = [&bytes[..front.routes[i]], &other[from..from + length]].concat();
                assert_eq!(told(&cut), front.at_route(12, i), "one of {length} bytes");
            }
            let mut kind = bytes.clone();
            kind[front.routes[i]] = back.kinds.route();
            assert_eq!(told(&kind), front.at_route(12, i), "its kind alone");
        }
        let put_in = |place: usize, more: &[u8]| told(&[&bytes[..place], more, &bytes[place..]].concat());
        let last = format!("refused 12 at {}", front.end);
        assert_eq!(put_in(front.end, &other[back.routes[2]..back.end]), last, "a fourth route, of the other set");
        assert_eq!(put_in(19, &other[..19]), "refused 12 at 19", "the other head behind the head");
        assert_eq!(put_in(front.end, &other[..19]), last, "the other head before the end");
        assert_eq!(mixed(&front, 1, &back, 1), "refused 12 at 19", "a head's kind before routes of the other set");
    }
}

/// Corners and ends belong to both sets, and so does a book without routes, but for its head.
#[test]
fn what_both_sets_have() {
    for (front, back) in [(NEWER, OLDER), (OLDER, NEWER)] {
        assert_eq!(mixed(&front, front.corners[6], &back, back.corners[6]), "read", "corners and the end");
        assert_eq!(mixed(&front, front.end, &back, back.end), "read", "the end");
        let mut blank = front.book();
        blank.routes.clear();
        count(&mut blank);
        let mut other = blank.bytes();
        other[0] = back.kinds.head();
        assert_eq!((told(&blank.bytes()), told(&other)), ("read".to_string(), "read".to_string()));
    }
}

/// A wrong corner before a route of the other set is told, and one behind it is not; counts come last.
#[test]
fn kinds_mixed_and_more() {
    for (front, back) in [(NEWER, OLDER), (OLDER, NEWER)] {
        let spoilt = |spoil: fn(&mut PlanBook)| {
            let (mut first, mut second) = (front.book(), back.book());
            spoil(&mut first);
            spoil(&mut second);
            told(&[&first.bytes()[..front.routes[1]], &second.bytes()[back.routes[1]..]].concat())
        };
        assert_eq!(spoilt(|book| book.routes[0].corners[1].x = 1_000_001), front.at_corner(8, 1));
        assert_eq!(spoilt(|book| book.routes[0].corners[1] = Point::new(0, 0)), front.at_corner(13, 1));
        assert_eq!(spoilt(|book| book.routes[1].corners[1].x = 1_000_001), front.at_route(12, 1));
        assert_eq!(spoilt(|book| (book.runs, book.routes[0].count, book.total) = (9, 9, 9)), front.at_route(12, 1));
    }
}

#[test]
fn limits_from_both_sides() {
    for example in [NEWER, OLDER] {
        let routes = |routes: usize| {
            example.changed(|book| {
                book.routes = vec![route(1, 0, 0, around(2)); routes];
                count(book);
            })
        };
        let one = example.kinds.route_length() + 18;
        assert_eq!((routes(0), routes(32)), ("read".into(), "read".into()));
        assert_eq!(routes(33), format!("refused 12 at {}", 19 + 32 * one));
        let corners_of = |corners: usize| {
            example.changed(|book| {
                book.routes[0] = route(1, 0, 0, around(corners));
                count(book);
            })
        };
        assert_eq!((corners_of(1), corners_of(127)), ("read".into(), "read".into()));
        assert_eq!(corners_of(128), format!("refused 12 at {}", example.corners[0] + 127 * 9));
        const FAR: i32 = 1_000_000;
        assert_eq!(example.with_corners(&[(-FAR, FAR), (FAR, FAR), (FAR, -FAR), (-FAR, -FAR)]), "read");
        for outside in [FAR + 1, -FAR - 1, i32::MAX, i32::MIN] {
            assert_eq!(example.with_corners(&[(0, 0), (outside, 0)]), example.at_corner(8, 1), "x {outside}");
            assert_eq!(example.with_corners(&[(0, 0), (0, outside)]), example.at_corner(8, 1), "y {outside}");
            assert_eq!(example.with_corners(&[(outside, outside)]), example.at_corner(8, 0), "both {outside}");
        }
    }
}

/// 32 routes of 127 corners: 36,886 bytes, and 36,822 in the older kinds. One byte more decides every longer book.
#[test]
fn the_longest_books() {
    for (example, length) in [(NEWER, LONGEST_PLAN), (OLDER, 36_822)] {
        let mut book = example.book();
        book.routes = vec![route(1, 0, 0, around(127)); 32];
        count(&mut book);
        let bytes = book.bytes();
        assert_eq!((bytes.len(), told(&bytes)), (length, "read".to_string()));
        for more in [&[0][..], &[0x5A], &bytes] {
            assert_eq!(told(&[&bytes, more].concat()), format!("refused 12 at {length}"));
        }
    }
    assert_eq!(LONGEST_PLAN, 22 + 32 * (9 + 127 * 9));
}

#[test]
fn corners_that_are_no_turns() {
    for example in [NEWER, OLDER] {
        let corners = |points: &[(i32, i32)]| example.with_corners(points);
        let wrong = |k: usize| example.at_corner(13, k);
        assert_eq!(corners(&[(3, 3)]), "read", "one corner");
        assert_eq!(corners(&[(3, 3), (3, 3)]), wrong(1), "twice");
        assert_eq!(corners(&[(3, 3), (4, 4)]), wrong(1), "neither row nor column");
        assert_eq!(corners(&[(0, 0), (5, 0), (9, 0)]), wrong(2), "on along the row");
        assert_eq!(corners(&[(0, 0), (5, 0), (2, 0)]), wrong(2), "back along the row");
        assert_eq!(corners(&[(0, 0), (5, 0), (0, 0)]), wrong(2), "back to the first");
        assert_eq!(corners(&[(0, 0), (0, 5), (0, 9)]), wrong(2), "on along the column");
        assert_eq!(corners(&[(0, 0), (0, 5), (0, -2)]), wrong(2), "back along the column");
        assert_eq!(corners(&[(0, 0), (0, 5), (5, 5), (5, 5)]), wrong(3), "twice, later");
        assert_eq!(corners(&[(0, 0), (0, 5), (5, 5), (5, 0), (0, 0), (0, 5)]), "read", "around, and again");
        let first_of_the_next = example.changed(|book| book.routes[1].corners[0] = Point::new(40, 10));
        assert_eq!(first_of_the_next, wrong(5), "twice in one route");
        let next_begins_where_one_ends = example.changed(|book| {
            book.routes[1].corners = vec![Point::new(40, 30), Point::new(40, 10)];
        });
        assert_eq!(next_begins_where_one_ends, "read", "corners of two routes are not compared");
    }
}

#[test]
fn counts_are_compared_last() {
    for example in [NEWER, OLDER] {
        let at_end = |number: i32| format!("refused {number} at {}", example.end);
        assert_eq!(example.changed(|book| book.runs = 2), "refused 14 at 0");
        assert_eq!(example.changed(|book| book.runs = 4), "refused 14 at 0");
        assert_eq!(example.changed(|book| book.routes[0].count = 3), example.at_route(14, 0));
        assert_eq!(example.changed(|book| book.routes[2].count = 0), example.at_route(14, 2));
        assert_eq!(example.changed(|book| book.total = 7), at_end(14));
        let none = example.changed(|book| {
            book.routes[1].corners.clear();
            count(book);
        });
        assert_eq!(none, example.at_route(14, 1), "a route with no corner that says so");
        let all = |book: &mut PlanBook| {
            book.runs = 9;
            book.routes[1].count = 9;
            book.total = 9;
        };
        assert_eq!(example.changed(all), "refused 14 at 0");
        let but_head = |book: &mut PlanBook| {
            all(book);
            book.runs = 3;
        };
        assert_eq!(example.changed(but_head), example.at_route(14, 1));
        let both_routes = |book: &mut PlanBook| {
            book.routes[2].count = 9;
            book.routes[1].corners.clear();
        };
        assert_eq!(example.changed(both_routes), example.at_route(14, 1));
        let mut wrong = example.book();
        all(&mut wrong);
        assert_eq!(told(&wrong.bytes()[..example.end]), at_end(12), "no end");
        let after = format!("refused 12 at {}", example.length);
        assert_eq!(told(&[wrong.bytes(), vec![0x5A]].concat()), after, "a byte after the end");
        wrong.routes[2].corners[1].x = 21;
        assert_eq!(told(&wrong.bytes()), example.at_corner(13, 7));
        wrong.routes[2].corners[1].y = -1_000_001;
        assert_eq!(told(&wrong.bytes()), example.at_corner(8, 7), "8 before 13");
        wrong.routes[2].corners[0].x = 1_000_001;
        assert_eq!(told(&wrong.bytes()), example.at_corner(8, 6), "front to back");
    }
}

#[test]
fn nothing_else_is_judged() {
    for example in [NEWER, OLDER] {
        let any = example.changed(|book| {
            (book.job, book.trench, book.saved) = (u32::MAX, u32::MAX, 0);
            (book.pits, book.last) = (u16::MAX, 77);
            for route in &mut book.routes {
                (route.run, route.meets, route.centre) = (0, u16::MAX, 9);
            }
        });
        assert_eq!(any, "read");
    }
}

#[test]
fn damaged_books_are_refused_as_made() {
    for n in 0..20_000 {
        let made = book_damage::damaged(&mut Random::nth(3, n as u64), n % book_damage::WAYS);
        assert_eq!(PlanBook::read(&made.bytes), Err(made.refusal), "{}: {:02x?}", made.what, made.bytes);
    }
}

#[test]
fn every_way_of_damage_gives_its_number() {
    let mut tried = std::collections::BTreeSet::new();
    for n in 0..4_000 {
        tried.insert(book_damage::damaged(&mut Random::nth(4, n as u64), n % book_damage::WAYS).refusal.number);
    }
    assert_eq!(tried.into_iter().collect::<Vec<_>>(), [8, 12, 13, 14]);
}

#[test]
fn whole_books_are_read_back() {
    let mut anyhow = [0, 0];
    for n in 0..6_000 {
        let case = book_case(5, n);
        let read = PlanBook::read(&case.bytes);
        match case.made {
            Made::Whole => assert!(read.is_ok(), "book {n}, {}: {read:?}", case.what),
            Made::Refused(refusal) => assert_eq!(read.as_ref().err(), Some(&refusal), "book {n}, {}", case.what),
            Made::Anyhow => anyhow[usize::from(read.is_ok())] += 1,
        }
        if let Ok(book) = read {
            assert_eq!(book.bytes(), case.bytes, "book {n}, {}", case.what);
        }
    }
    assert!(anyhow[0] > 200 && anyhow[1] > 200, "books with no design are of both kinds: {anyhow:?}");
    for n in 0..500 {
        let book = planned(&mut Random::nth(6, n));
        assert_eq!(PlanBook::read(&book.bytes()), Ok(book));
    }
}

/// The rule for any places gives, with the book's own, what the book says.
#[test]
fn own_places_give_the_books_routes() {
    for n in 0..2_000 {
        let bytes = book_case(7, n).bytes;
        let reading = Reading::of(&bytes);
        let places = reading.places();
        let routes = PlanBook::read(&bytes).map_or(Vec::new(), |book| book.routes);
        for i in (0..34).chain([usize::MAX]) {
            let route = routes.get(i);
            let said = route.map(|route| [route.run, route.meets, route.count, route.centre].map(u32::from).to_vec());
            assert_eq!(route_at(&bytes, places, i), said, "book {n}, route {i}");
            for j in (0..130).chain([usize::MAX]) {
                let corner = route.and_then(|route| route.corners.get(j));
                let said = corner.map(|corner| vec![corner.x as u32, corner.y as u32]);
                assert_eq!(corner_at(&bytes, places, i, j), said, "book {n}, route {i}, corner {j}");
            }
        }
    }
}

/// Places that are not the book's: a route record of either kind is given, and corners stand as far behind a place as the book's
/// first byte says.
#[test]
fn other_places_in_both_kinds() {
    let (newer, older) = (NEWER.book().bytes(), OLDER.book().bytes());
    let both = [&newer[..], &older].concat();
    let at = |place: usize| [place as u32, u32::MAX];
    let older_route = NEWER.length + OLDER.routes[0];
    assert_eq!(route_at(&both, &at(NEWER.routes[0]), 0), Some(vec![1, 2, 4, 1]));
    assert_eq!(route_at(&both, &at(older_route), 0), Some(vec![1, 2, 4, 0]), "an older route behind a newer head");
    assert_eq!(route_at(&newer[..27], &at(19), 0), None, "a newer route of eight bytes");
    assert_eq!(route_at(&older[..26], &at(19), 0), Some(vec![1, 2, 4, 0]), "an older one of seven");
    assert_eq!(corner_at(&both, &at(NEWER.routes[0]), 0, 1), Some(vec![0, 10]));
    assert_eq!(corner_at(&both, &at(older_route), 0, 1), None, "seven bytes behind, in a book that begins with 0x51");
    assert_eq!(corner_at(&both, &at(older_route - 2), 0, 1), Some(vec![0, 10]));
    let turned = [&older[..], &newer].concat();
    assert_eq!(corner_at(&turned, &at(OLDER.routes[0]), 0, 1), Some(vec![0, 10]));
    assert_eq!(corner_at(&turned, &at(OLDER.length + NEWER.routes[0] + 2), 0, 1), Some(vec![0, 10]));
    assert_eq!(corner_at(&turned[1..], &at(OLDER.routes[0] - 1), 0, 1), Some(vec![0, 10]), "neither head");
    assert_eq!(corner_at(&[], &at(0), 0, 0), None, "no byte");
}
