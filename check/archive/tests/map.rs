//! The map program, compiled with sanitizers: draws every corner and every crossing of every plan, planned, stored or chosen, makes
//! job books of clicked points, and tells every refusal with its place.

mod common;

use std::collections::{BTreeMap, BTreeSet};
use std::fs::File;
use std::path::{Path, PathBuf};
use std::process::{Command, Stdio};
use std::sync::LazyLock;

use common::svg::{Element, elements};
use common::{compile, has, map_program, older_samples, planned, root, run, samples, text};
use trench_check::book::job_bytes;
use trench_check::book_cases::{Made, book_case, count, made_up, route};
use trench_check::book_damage;
use trench_check::damage::{self, damaged};
use trench_check::generate::{self, CROSSINGS, KINDS};
use trench_check::grid::Grid;
use trench_check::job::{FAR, Job, MOST_RUNS, Point, Run};
use trench_check::judge::LONGEST_PLAN;
use trench_check::leases::{self, LAYOUTS};
use trench_check::line;
use trench_check::pits::{self, Pits};
use trench_check::plan_book::{BOTH_KINDS, Kinds, MOST_CORNERS, PlanBook, RouteRecord};
use trench_check::random::Random;
use trench_check::refusal::{self, verdict, words};

/// The program, compiled once for all tests.
fn map() -> &'static Path {
    static MAP: LazyLock<PathBuf> = LazyLock::new(|| map_program("map"));
    &MAP
}

/// Where the pits are drawn, by where they say they are.
type Places = BTreeMap<Point, (f64, f64)>;

/// The places of some pits, each of which stands once.
fn places(drawn: &[&Element], place: impl Fn(&Element) -> (f64, f64)) -> Places {
    let mut places = Places::new();
    for pit in drawn {
        let p = line::point(&pit.text).expect("a pit says where it is");
        assert!(places.insert(p, place(pit)).is_none(), "the pit {p:?} is drawn once");
    }
    places
}

/// The middle of a square: its path starts there.
fn middle(square: &Element) -> (f64, f64) {
    let start = square.attribute("d").strip_prefix('M').expect("a path").split(' ').take(2);
    let start: Vec<f64> = start.map(|word| word.parse().expect("a number")).collect();
    (start[0], start[1])
}

/// The pits of the routes that a plan's corners draw.
fn pits_of(plan: &PlanBook) -> Pits {
    pits::of_corners(&plan.routes.iter().map(|route| &route.corners[..]).collect::<Vec<_>>())
}

/// How decimetres became pixels.
struct View {
    scale: f64,
    at: Point,
    x: f64,
    y: f64,
}

impl View {
    /// Found from the pits, which say where they are; all the rest is then held to it.
    fn of(pits: &Places) -> View {
        let (&at, &(x, y)) = pits.iter().next().expect("a plan has a pit");
        let far = pits.iter().max_by_key(|(p, _)| (p.x - at.x).abs().max((p.y - at.y).abs())).expect("a pit");
        let (p, (cx, cy)) = (far.0, far.1);
        let wide = (p.x - at.x).abs() > (p.y - at.y).abs();
        let scale = match (wide, *p == at) {
            (_, true) => 1.0,
            (true, _) => (cx - x) / f64::from(p.x - at.x),
            (false, _) => (y - cy) / f64::from(p.y - at.y),
        };
        assert!(scale > 0.0, "east is right and north is up");
        View { scale, at, x, y }
    }

    fn assert_drawn(&self, p: Point, x: f64, y: f64, what: &str) {
        let due_x = self.x + self.scale * f64::from(p.x - self.at.x);
        let due_y = self.y - self.scale * f64::from(p.y - self.at.y);
        assert!(
            (x - due_x).abs() < 0.01 && (y - due_y).abs() < 0.01,
            "{what} {p:?} is at {x},{y} and not at {due_x},{due_y}"
        );
    }
}

/// A row or a column: whether it is a row, and its y or x.
type Line = (bool, i32);

/// The straight pieces of some routes by their lines, each from its lesser coordinate to its greater one; pieces of one line
/// that touch or overlap are one.
fn pieces(routes: &[RouteRecord]) -> BTreeMap<Line, Vec<(i32, i32)>> {
    let mut by_line: BTreeMap<Line, Vec<(i32, i32)>> = BTreeMap::new();
    for pair in routes.iter().flat_map(|route| route.corners.windows(2)) {
        let (line, from, to) = stretch(pair[0], pair[1]);
        by_line.entry(line).or_default().push((from, to));
    }
    for on_line in by_line.values_mut() {
        on_line.sort_unstable();
        let mut joined: Vec<(i32, i32)> = Vec::new();
        for &(from, to) in on_line.iter() {
            match joined.last_mut().filter(|last| from <= last.1) {
                Some(last) => last.1 = last.1.max(to),
                None => joined.push((from, to)),
            }
        }
        *on_line = joined;
    }
    by_line
}

/// The line of two points that share one, and the points' places on it.
fn stretch(p: Point, q: Point) -> (Line, i32, i32) {
    let row = p.y == q.y;
    assert!(row || p.x == q.x, "{p:?} and {q:?} are on one line");
    if row { ((true, p.y), p.x.min(q.x), p.x.max(q.x)) } else { ((false, p.x), p.y.min(q.y), p.y.max(q.y)) }
}

/// The length of the union of some routes.
fn union(routes: &[RouteRecord]) -> i64 {
    pieces(routes).values().flatten().map(|&(from, to)| i64::from(to) - i64::from(from)).sum()
}

/// Holds a drawing to the plan, and to the points and numbers of these runs.
fn assert_drawing(job: &Job, plan: &PlanBook, document: &str) {
    let all = elements(document);
    let of = |name: &str, class: &str| -> Vec<&Element> {
        all.iter()
            .filter(|element| element.name == name && element.has_class(class) && !element.has_class("key"))
            .collect()
    };
    let pits = places(&of("circle", "pit"), |pit| (pit.number("cx"), pit.number("cy")));
    let corners: BTreeSet<Point> = plan.routes.iter().flat_map(|route| route.corners.iter().copied()).collect();
    assert_eq!(pits.keys().copied().collect::<BTreeSet<_>>(), corners, "the pits at ends and turns are the corners");
    let crossings = places(&of("path", "crossing"), middle);
    assert_eq!(crossings.keys().copied().collect::<Vec<_>>(), pits_of(plan).crossings, "the pits at crossings");
    let signs = all.iter().filter(|element| element.has_class("pit") || element.has_class("crossing"));
    assert_eq!(signs.count(), pits.len() + crossings.len() + 2, "no more pits than these and the two of the key");
    if job.runs.is_empty() {
        assert_blank(plan, &all);
        return;
    }
    let view = View::of(&pits);
    let sheet = all.last().expect("the root");
    let on_sheet =
        |x: f64, y: f64| (0.0..sheet.number("width")).contains(&x) && (0.0..sheet.number("height")).contains(&y);
    for (&p, &(x, y)) in pits.iter().chain(&crossings) {
        view.assert_drawn(p, x, y, "pit");
        assert!(on_sheet(x, y), "{p:?} is on the sheet");
    }
    assert_trenches(plan, &view, &of("line", "trench"));
    let routes: Vec<&Element> = of("polyline", "route").into_iter().chain(of("polyline", "centre")).collect();
    match plan.kinds {
        Kinds::Newer => assert_routes(plan, &view, &routes),
        Kinds::Older => assert_centre(plan, &view, &routes),
    }
    assert_legend(plan, &all);
    let ends: Vec<&Element> =
        all.iter().filter(|element| element.has_class("end") || element.has_class("label")).collect();
    assert_ends(job, plan, &view, &ends);
    let grid = Grid::hanan(job);
    assert_eq!(of("line", "survey").len(), grid.columns.len() + grid.rows.len(), "the survey lines");
    let some = |count: u16, what: &str| format!("{count} {what}{}", if count == 1 { "" } else { "s" });
    let last = match plan.kinds {
        Kinds::Newer => some(plan.last, "group"),
        Kinds::Older => format!("centre {}", plan.last),
    };
    let head = format!("job {}: {}, {last}", plan.job, some(plan.runs, "run"));
    let figures = format!("trench {} dm, saved {} dm, pits {}", plan.trench, plan.saved, plan.pits);
    for words in [head, figures] {
        assert!(all.iter().any(|element| element.name == "text" && element.text == words), "`{words}` is there");
    }
    assert_eq!(of("path", "scale").len(), 1, "a scale");
}

/// The colours that groups have by turns.
const COLOURS: usize = 6;

/// The groups of a plan in the order of their first routes: the centre that its routes name.
fn groups(plan: &PlanBook) -> Vec<u16> {
    let mut centres: Vec<u16> = Vec::new();
    for route in &plan.routes {
        if !centres.contains(&route.centre) {
            centres.push(route.centre);
        }
    }
    centres
}

/// The class of a group's colour.
fn colour(plan: &PlanBook, centre: u16) -> String {
    let at = groups(plan).iter().position(|&known| known == centre).expect("a group of the plan");
    format!("g{}", at % COLOURS)
}

/// The classes of an element that tell colours.
fn colours(element: &Element) -> Vec<&str> {
    let is_colour = |class: &&str| class.strip_prefix('g').is_some_and(|digits| digits.parse::<u8>().is_ok());
    element.attributes.get("class").map_or(Vec::new(), |classes| classes.split(' ').filter(is_colour).collect())
}

/// Every group has a line in the foot with its colour, its centre and its number of runs, in their order; an older plan has none.
fn assert_legend(plan: &PlanBook, all: &[Element]) {
    let drawn: Vec<(&str, &str)> = all
        .windows(2)
        .filter(|pair| pair[0].has_class("key") && !colours(&pair[0]).is_empty())
        .map(|pair| (colours(&pair[0])[0], pair[1].text.as_str()))
        .collect();
    if plan.kinds == Kinds::Older {
        assert!(drawn.is_empty(), "no groups are told of an older plan");
        return;
    }
    let told = |&centre: &u16| {
        let runs = plan.routes.iter().filter(|route| route.centre == centre).count();
        (colour(plan, centre), format!("centre {centre}: {runs} run{}", if runs == 1 { "" } else { "s" }))
    };
    let due: Vec<(String, String)> = groups(plan).iter().map(told).collect();
    let due: Vec<(&str, &str)> = due.iter().map(|(colour, text)| (colour.as_str(), text.as_str())).collect();
    assert_eq!(drawn, due, "the groups in the foot");
    let sheet = all.last().expect("the root");
    for line in all.iter().filter(|element| element.has_class("key") && element.name == "line") {
        let (x, y) = (line.number("x2"), line.number("y2"));
        assert!(x < sheet.number("width") && y < sheet.number("height"), "the foot is on the sheet");
    }
}

/// Every route is drawn once, in its group's colour, and says whose it is: first those that are no centres, then the centres.
fn assert_routes(plan: &PlanBook, view: &View, drawn: &[&Element]) {
    let (centres, others): (Vec<_>, Vec<_>) = plan.routes.iter().partition(|route| route.run == route.centre);
    assert_eq!(drawn.len(), plan.routes.len(), "every route is drawn once");
    for (element, route) in drawn.iter().zip(others.into_iter().chain(centres)) {
        let centre = route.run == route.centre;
        assert_eq!((element.has_class("centre"), element.has_class("route")), (centre, !centre), "run {}", route.run);
        assert_eq!(colours(element), [colour(plan, route.centre)], "run {}", route.run);
        let of = if centre { "centre of group" } else { "group" };
        assert_eq!(element.text, format!("run {}, {of} {}", route.run, route.centre));
        assert_points(view, route, element);
    }
}

/// The corners of a route that is drawn as a line.
fn assert_points(view: &View, route: &RouteRecord, drawn: &Element) {
    let points: Vec<&str> = drawn.attribute("points").split(' ').collect();
    assert_eq!(points.len(), route.corners.len());
    for (&corner, point) in route.corners.iter().zip(points) {
        let (x, y) = point.split_once(',').expect("a point");
        view.assert_drawn(corner, x.parse().expect("a number"), y.parse().expect("a number"), "route");
    }
}

/// The sheet of a plan without routes: its number and its figures, and nothing of a map but the key.
fn assert_blank(plan: &PlanBook, all: &[Element]) {
    let classes = ["survey", "trench", "route", "centre", "pit", "crossing", "end", "label", "scale"];
    let drawn =
        all.iter().filter(|element| !element.has_class("key") && classes.iter().any(|class| element.has_class(class)));
    let drawn: Vec<&str> = drawn.map(|element| element.name.as_str()).collect();
    let key = if plan.kinds == Kinds::Older { &["line"][..] } else { &[] };
    assert_eq!(drawn, key, "the key's line of a centre in an older plan");
    assert_legend(plan, all);
    let figures = format!("trench {} dm, saved {} dm, pits {}", plan.trench, plan.saved, plan.pits);
    for words in [format!("job {}: no runs", plan.job), figures] {
        assert!(all.iter().any(|element| element.name == "text" && element.text == words), "`{words}` is there");
    }
}

/// Every trench says from where to where it goes and whose cables it carries, all of them; together they are the plan's union.
fn assert_trenches(plan: &PlanBook, view: &View, trenches: &[&Element]) {
    let by_route: Vec<_> = plan.routes.iter().map(|route| pieces(std::slice::from_ref(route))).collect();
    let (mut dug, mut laid) = (0, 0);
    for trench in trenches {
        let (ends, runs) = trench.text.split_once(": run ").expect("a trench says whose it is");
        let (p, q) = ends.split_once(" to ").expect("a trench says where it goes");
        let (p, q) = (line::point(p).expect("a point"), line::point(q).expect("a point"));
        view.assert_drawn(p, trench.number("x1"), trench.number("y1"), "trench");
        view.assert_drawn(q, trench.number("x2"), trench.number("y2"), "trench");
        let runs: Vec<u16> = runs.split(' ').map(|run| run.parse().expect("a run number")).collect();
        let class = ["one", "two", "more"][runs.len().min(3) - 1];
        assert!(trench.has_class(class), "{runs:?} make it {class}");
        let (line, from, to) = stretch(p, q);
        let passes = |pieces: &BTreeMap<Line, Vec<(i32, i32)>>| {
            pieces.get(&line).is_some_and(|on_line| on_line.iter().any(|piece| piece.0 <= from && to <= piece.1))
        };
        let due = plan.routes.iter().zip(&by_route).filter(|(_, pieces)| passes(pieces)).map(|(route, _)| route.run);
        assert_eq!(runs, due.collect::<Vec<_>>(), "who passes from {p:?} to {q:?}");
        dug += p.distance(q);
        laid += p.distance(q) * runs.len() as i64;
    }
    let each = plan.routes.iter().map(|route| union(std::slice::from_ref(route))).sum();
    assert_eq!((dug, laid), (union(&plan.routes), each), "all trenches and all cables are drawn");
}

/// Of an older plan the centre's route is drawn as a line; in a stored plan any number of routes may have the centre's number.
fn assert_centre(plan: &PlanBook, view: &View, drawn: &[&Element]) {
    let routes: Vec<&RouteRecord> = plan.routes.iter().filter(|route| route.run == plan.last).collect();
    assert_eq!(drawn.len(), routes.len(), "the centre");
    for (centre, route) in drawn.iter().zip(routes) {
        assert!(centre.has_class("centre") && colours(centre).is_empty());
        assert_points(view, route, centre);
    }
}

/// Each point of a run is drawn once, and behind it comes the label with the numbers of all runs that start or end there, so
/// near to it that nobody takes it for another's.
fn assert_ends(job: &Job, plan: &PlanBook, view: &View, drawn: &[&Element]) {
    let mut points = BTreeSet::new();
    for pair in drawn.chunks(2) {
        let [end, label] = pair else { panic!("a point without a label") };
        let p = line::point(&end.text).expect("a point says where it is");
        view.assert_drawn(p, end.number("cx"), end.number("cy"), "end");
        let there: Vec<_> = job.runs.iter().filter(|run| run.first == p || run.second == p).collect();
        let numbers: Vec<String> = there.iter().map(|run| run.number.to_string()).collect();
        assert_eq!(label.text, numbers.join(","), "the label at {p:?}");
        let here = |route: &&RouteRecord| [route.corners[0], route.corners[route.corners.len() - 1]].contains(&p);
        let routes: Vec<&RouteRecord> = plan.routes.iter().filter(here).collect();
        let is_centre = |route: &&RouteRecord| match plan.kinds {
            Kinds::Newer => route.run == route.centre,
            Kinds::Older => route.run == plan.last,
        };
        let centre = routes.iter().any(is_centre);
        let one_group = plan.kinds == Kinds::Newer && routes.iter().all(|route| route.centre == routes[0].centre);
        let due = if one_group { vec![colour(plan, routes[0].centre)] } else { Vec::new() };
        for element in [end, label] {
            assert_eq!(element.has_class("of-centre"), centre, "a centre at {p:?} is told apart");
            assert_eq!(colours(element), due, "the group at {p:?}");
        }
        let across = label.number("x") - end.number("cx");
        let down = label.number("y") - end.number("cy");
        let width = 9.0 * label.text.len() as f64;
        assert!((-width - 10.0..=10.0).contains(&across) && (-10.0..=20.0).contains(&down), "the label is near {p:?}");
        assert!(points.insert(p), "{p:?} is drawn once");
    }
    assert_eq!(points, job.runs.iter().flat_map(|run| [run.first, run.second]).collect(), "all points are drawn");
}

/// What the program draws for a job or a plan book on standard input.
fn drawn(map: &Path, words: &[&str], bytes: &[u8]) -> String {
    let output = run(map, words, bytes);
    assert_eq!((output.status.code(), text(&output.stderr)), (Some(0), String::new()), "{words:?}");
    text(&output.stdout)
}

/// A job is drawn, with as many pits as its plan says, and its plan, stored and drawn again, gives the same drawing.
fn assert_drawn(map: &Path, bytes: &[u8]) {
    let job = verdict(bytes).expect("every group is a star");
    let plan = planned(bytes).expect("a plan");
    let document = drawn(map, &["-"], bytes);
    assert_drawing(&job, &plan, &document);
    let [all, each]: [i64; 2] = [plan.trench.into(), plan.trench as i64 + plan.saved as i64];
    assert_eq!((union(&plan.routes), job.distance()), (all, each), "the figures of {}", line::show(&job));
    assert_eq!(pits_of(&plan).count(), usize::from(plan.pits), "the pits of {}", line::show(&job));
    assert_eq!(document, drawn(map, &["--plan", "-"], &plan.bytes()), "the stored plan of {}", line::show(&job));
}

/// A plan book that is accepted is drawn, whoever wrote it.
fn assert_stored(map: &Path, book: &PlanBook) {
    let run = |route: &RouteRecord| {
        let (first, second) = (route.corners[0], route.corners[route.corners.len() - 1]);
        Run { number: route.run, first, second }
    };
    let job = Job { number: book.job, runs: book.routes.iter().map(run).collect() };
    assert_drawing(&job, book, &drawn(map, &["--plan", "-"], &book.bytes()));
}

/// A plan book that is refused is told and not drawn.
fn assert_told(map: &Path, bytes: &[u8], refused: refusal::Refusal, what: &str) {
    let output = run(map, &["--plan", "-"], bytes);
    let told = format!("map: -: {refused}: {}\n", words(refused.number));
    assert_eq!((output.status.code(), text(&output.stderr)), (Some(1), told), "{what}");
    assert!(output.stdout.is_empty(), "nothing is drawn");
}

#[test]
fn samples_are_drawn_or_refused() {
    let map = map();
    for path in samples("job") {
        let bytes = std::fs::read(&path).expect("a sample");
        let name = path.to_str().expect("a name");
        match verdict(&bytes) {
            Ok(_) => assert_drawn(map, &bytes),
            Err(refused) => {
                let output = run(map, &[name], &[]);
                let told = format!("map: {name}: {refused}: {}\n", words(refused.number));
                assert_eq!((output.status.code(), text(&output.stderr)), (Some(1), told));
                assert!(output.stdout.is_empty(), "nothing is drawn");
            }
        }
    }
}

#[test]
fn stars_are_drawn() {
    let map = map();
    for n in 0..60 {
        let mut random = Random::nth(21, n);
        let kind = KINDS[n as usize % KINDS.len()];
        let job = if n % 15 == 14 { generate::full_star(&mut random) } else { generate::star(&mut random, kind) };
        assert_drawn(map, &job_bytes(&job));
    }
}

/// Leases, with their groups told apart: many groups, groups that touch, and more groups than there are colours.
#[test]
fn leases_are_drawn() {
    let map = map();
    let mut most = 0;
    for n in 0..54 {
        let mut random = Random::nth(30, n);
        let layout = LAYOUTS[n as usize % LAYOUTS.len()];
        let job = if n % 18 == 17 { leases::full_lease(&mut random) } else { leases::lease(&mut random, layout) };
        assert_drawn(map, &job_bytes(&job));
        most = most.max(groups(&planned(&job_bytes(&job)).expect("a plan")).len());
    }
    assert!(most > 2 * COLOURS, "there are many groups: {most}");
}

/// A drawing told in the simplest case, so that the test above cannot be as blind as the program.
#[test]
fn three_groups_element_by_element() {
    let job = line::parse("0,0 2,2; 2,2 4,4; 7,7 8,7; 2,2 4,4", 9).expect("a job line").expect("a job");
    let document = drawn(map(), &["-"], &job_bytes(&job));
    for words in [
        "<polyline class=\"centre g0\"",
        "<title>run 1, centre of group 1</title>",
        "<polyline class=\"centre g1\"",
        "<title>run 2, centre of group 2</title>",
        "<polyline class=\"route g1\"",
        "<title>run 4, group 2</title>",
        "<title>run 3, centre of group 3</title>",
        "<circle class=\"end of-centre g2\"",
        "<text class=\"label of-centre g2\"",
        "<circle class=\"end of-centre\"",
        ">job 9: 4 runs, 3 groups</text>",
        ">centre 2: 2 runs</text>",
        ">centre 3: 1 run</text>",
    ] {
        assert!(document.contains(words), "`{words}` is there");
    }
    assert!(document.contains(">1,2,4</text>"), "runs of two groups end where these touch");
}

#[test]
fn crossings_are_drawn() {
    let map = map();
    let mut crossings = 0;
    for n in 0..60 {
        let job = generate::crossed_star(&mut Random::nth(27, n), CROSSINGS[n as usize % CROSSINGS.len()]);
        let bytes = job_bytes(&job);
        assert_drawn(map, &bytes);
        crossings += pits_of(&planned(&bytes).expect("a plan")).crossings.len();
    }
    assert!(crossings > 40, "there are crossings: {crossings}");
}

/// A plan written before C-14 says fewer pits than are drawn: its crossings are drawn, and its figure is told as it stands.
#[test]
fn an_earlier_plan_is_drawn_with_its_crossings() {
    let map = map();
    let job = job_bytes(&line::parse("0,0 4,2; 0,1 4,1; 2,0 2,2", 7).expect("a job line").expect("a job"));
    let plan = planned(&job).expect("a plan");
    assert_eq!((plan.pits, pits_of(&plan).crossings), (7, vec![Point::new(2, 1)]));
    let later = plan.as_older();
    let earlier = PlanBook { pits: 6, ..later.clone() };
    assert_stored(map, &earlier);
    let drawing = drawn(map, &["--plan", "-"], &earlier.bytes());
    assert_eq!(drawing.replace("pits 6", "pits 7"), drawn(map, &["--plan", "-"], &later.bytes()));
}

#[test]
fn damaged_books_are_refused_with_their_place() {
    let map = map();
    for n in 0..60 {
        let made = damaged(&mut Random::nth(22, n as u64), n % damage::WAYS);
        let output = run(map, &["-"], &made.bytes);
        let told = format!("map: -: {}: {}\n", made.refusal, refusal::words(made.refusal.number));
        assert_eq!((output.status.code(), text(&output.stderr)), (Some(1), told), "{}", made.what);
    }
}

/// A file that a test may write, and that is not there yet.
fn new_file(name: &str) -> PathBuf {
    let path = Path::new(env!("CARGO_TARGET_TMPDIR")).join(name);
    let _ = std::fs::remove_file(&path);
    path
}

/// What the program does with clicked points, on the command line or on standard input: its status, the drawing, what it tells,
/// and the job book, if it wrote one.
fn clicked(number: &str, book: &Path, points: &str, typed: bool) -> (Option<i32>, String, String, Option<Vec<u8>>) {
    let _ = std::fs::remove_file(book);
    let mut words = vec!["--clicks", number, book.to_str().expect("a name")];
    if !typed {
        words.extend(points.split_whitespace());
    }
    let output = run(map(), &words, if typed { points.as_bytes() } else { b"7,7" });
    (output.status.code(), text(&output.stdout), text(&output.stderr), std::fs::read(book).ok())
}

/// The points of a job's runs, in their order.
fn points(job: &Job) -> String {
    line::show(job).replace(';', "\n ")
}

/// Clicked points make this job book, whichever way they come in, and the drawing is that of the book.
fn assert_clicked(job: &Job, book: &Path) {
    let bytes = job_bytes(job);
    for typed in [true, false] {
        if !typed && job.runs.is_empty() {
            continue;
        }
        let (status, drawing, told, written) = clicked(&job.number.to_string(), book, &points(job), typed);
        assert_eq!(written.as_ref(), Some(&bytes), "the job book of {}", line::show(job));
        match verdict(&bytes) {
            Ok(_) => assert_eq!((status, told, drawing), (Some(0), String::new(), drawn(map(), &["-"], &bytes))),
            Err(refused) => {
                let words = format!("map: {}: {refused}: {}\n", book.display(), words(refused.number));
                assert_eq!((refused.number, status, told, drawing), (11, Some(1), words, String::new()));
            }
        }
    }
}

/// The samples whose runs are numbered 1, 2, 3, also those that are no star, are made of their points again.
#[test]
fn samples_are_clicked() {
    let book = new_file("clicked-sample.job");
    let mut counts = [0, 0];
    for path in samples("job") {
        let bytes = std::fs::read(&path).expect("a sample");
        let Ok(job) = refusal::read(&bytes) else { continue };
        if job.runs.iter().zip(1..).all(|(run, number)| run.number == number) {
            assert_clicked(&job, &book);
            assert_eq!(std::fs::read(&book).expect("a job book"), bytes, "{}", path.display());
            counts[usize::from(verdict(&bytes).is_ok())] += 1;
        }
    }
    assert!(counts[0] > 1 && counts[1] > 10, "no stars, and stars: {counts:?}");
}

#[test]
fn stars_are_clicked() {
    let book = new_file("clicked-star.job");
    for n in 0..26 {
        let mut random = Random::nth(28, n);
        let mut job = generate::star(&mut random, KINDS[n as usize % KINDS.len()]);
        job.runs.iter_mut().zip(1..).for_each(|(run, number)| run.number = number);
        assert_clicked(&job, &book);
        let mut job = leases::lease(&mut random, LAYOUTS[n as usize % LAYOUTS.len()]);
        job.runs.iter_mut().zip(1..).for_each(|(run, number)| run.number = number);
        assert_clicked(&job, &book);
    }
    let full = generate::full_star(&mut Random::nth(29, 0));
    let runs = full.runs.iter().zip(1..).map(|(run, number)| Run { number, ..*run }).collect();
    assert_clicked(&Job { number: u32::MAX, runs }, &book);
    assert_clicked(&Job { number: 0, runs: Vec::new() }, &book);
}

/// The writer's refusals are told with the run as it was clicked, and no file is written.
#[test]
fn clicked_runs_are_refused() {
    let book = new_file("clicked-refused.job");
    let assert_refused = |points: &str, number: i32, place: usize| {
        for typed in [true, false] {
            let (status, drawing, told, written) = clicked("7", &book, points, typed);
            let told_due =
                format!("map: {}: refused {number} at {place}: run {}: {}\n", book.display(), place + 1, words(number));
            assert_eq!((status, drawing, told, written), (Some(1), String::new(), told_due, None), "{points}");
        }
    };
    for n in 0..16 {
        let (run, field) = (n % 3, n % 4);
        let mut coordinates = [[0, 0, 40, 30], [0, 10, 40, 10], [20, 20, 20, 50]];
        coordinates[run][field] = [FAR + 1, -FAR - 1, i32::MAX, i32::MIN][n / 4];
        let points: Vec<String> = coordinates.iter().map(|[x, y, w, z]| format!("{x},{y} {w},{z}")).collect();
        assert_refused(&points.join(" "), 8, run);
    }
    for (points, run) in [("5,5 5,5", 0), ("0,0 40,30 0,10 0,10 20,20 20,20", 1), ("0,0 1,1 2,2 3,3 -0,7 0,7", 2)] {
        assert_refused(points, 17, run);
    }
    assert_refused("1000000,-1000000 1000000,-1000000", 17, 0);
    assert_refused("1000001,0 1000001,0", 8, 0);
    let many = |runs: usize, points: &str| vec![points; runs].join("\t");
    for runs in [33, 34, 100, 10_001] {
        assert_refused(&many(runs, "0,0 1,1"), 9, 32);
    }
    assert_refused(&many(33, "1000001,0 1,1"), 9, 32);
    assert_refused(&many(33, "1,1 1,1"), 9, 32);
    assert_eq!(clicked("7", &book, &many(32, "0,0 1,1"), true).0, Some(1), "32 equal runs are no star");
    assert_eq!(std::fs::read(&book).map(|bytes| bytes.len()).ok(), Some(616), "and are a job book");
}

/// Coordinates at the ends of their range are clicked too.
#[test]
fn the_farthest_points_are_clicked() {
    let book = new_file("clicked-far.job");
    let far = line::parse("-1000000,1000000 1000000,-1000000; 1000000,1000000 -1000000,-1000000", 7);
    assert_clicked(&far.expect("a job line").expect("a job"), &book);
}

/// What is no point, or no job number, is told by itself, and no file is written.
#[test]
fn what_cannot_be_clicked() {
    let book = new_file("clicked-wrong.job");
    let no_point = "is no point: two whole numbers of 32 bits with a comma between are wanted, as in 40,-30";
    let wrong =
        ["5", "5,", ",5", "5;5", "5,5,5", "5,5;", "+5,5", "5,+5", "--5,5", "5,-", "x,5", "5,5x", "0x5,5", "5.0,5", "-"];
    let too_wide =
        ["2147483648,0", "0,2147483648", "-2147483649,0", "0,-2147483649", "4294967296,0", "99999999999999999999,0"];
    for (n, point) in wrong.iter().chain(&too_wide).enumerate() {
        let points = [format!("{point} 1,1"), format!("1,1 {point}"), format!("0,0 1,1 {point}")][n % 3].clone();
        let due = (Some(2), String::new(), format!("map: {point}: {no_point}\n"), None);
        for typed in [true, false] {
            assert_eq!(clicked("7", &book, &points, typed), due, "{points}");
        }
    }
    for (points, last) in [("5,-5", "5,-5"), ("0,0 1,1 2147483647,-2147483648", "2147483647,-2147483648")] {
        let due = (Some(2), String::new(), format!("map: {last}: is a point without its second\n"), None);
        assert_eq!((clicked("7", &book, points, true), clicked("7", &book, points, false)), (due.clone(), due));
    }
    for number in ["", "x", "-1", "7x", "4294967296", "1,1"] {
        let told = format!("map: {number}: is no job number: one from 0 to 4294967295 is wanted\n");
        assert_eq!(clicked(number, &book, "0,0 1,1", false), (Some(2), String::new(), told, None));
    }
    let zero = clicked("7", &book, "0,0\01 1,1", true);
    assert_eq!((zero.0, zero.2, zero.3), (Some(2), format!("map: 0,0?1: {no_point}\n"), None), "a byte 0");
    let long = "0".repeat(1_000) + ",1 1,1";
    let told = format!("map: {}: is too long for a point\n", "0".repeat(63));
    assert_eq!(clicked("7", &book, &long, true), (Some(2), String::new(), told, None), "a long word");
}

/// A job book that cannot be written is told; one that stood there is replaced, or stays where the runs are refused.
#[test]
fn job_books_that_are_there() {
    let missing = clicked("7", Path::new("no/such/folder/book.job"), "0,0 1,1", false);
    let told = "map: no/such/folder/book.job: cannot be written\n".to_string();
    assert_eq!(missing, (Some(2), String::new(), told, None));
    let full = run(map(), &["--clicks", "7", "/dev/full", "0,0", "1,1"], &[]);
    assert_eq!((full.status.code(), text(&full.stderr)), (Some(2), "map: /dev/full: cannot be written\n".to_string()));
    let path = new_file("clicked-before.job");
    let name = path.to_str().expect("a name");
    std::fs::write(&path, [7; 700]).expect("a file");
    for (points, status) in [(["0,0", "1000001,1"], 1), (["0,0", "1"], 2)] {
        assert_eq!(run(map(), &[&["--clicks", "7", name], &points[..]].concat(), &[]).status.code(), Some(status));
        assert_eq!(std::fs::read(&path).expect("the file"), [7; 700]);
    }
    assert_eq!(run(map(), &["--clicks", "7", name, "0,0", "1,1"], &[]).status.code(), Some(0));
    assert_eq!(std::fs::read(&path).expect("the job book").len(), 27);
}

#[test]
fn stored_samples_are_drawn_or_refused() {
    let map = map();
    for path in samples("plan").into_iter().chain(older_samples("plan")) {
        let bytes = std::fs::read(&path).expect("a sample");
        match PlanBook::read(&bytes) {
            Ok(book) => assert_stored(map, &book),
            Err(refused) => assert_told(map, &bytes, refused, &path.display().to_string()),
        }
    }
}

/// A stored plan with a route of one corner, told in words: the point has a pit, an end and the run's number, its group a line in the
/// foot, and the route is a line of this one point.
#[test]
fn a_route_of_one_corner_is_drawn() {
    let document = drawn(map(), &["--plan", &sample("older/earlier-groups-3-inside.plan")], &[]);
    let all = elements(&document);
    let count = |name: &str, class: &str, text: &str| {
        let is_meant = |element: &&Element| element.name == name && element.text == text;
        all.iter().filter(is_meant).filter(|element| class.is_empty() || element.has_class(class)).count()
    };
    let routes: Vec<&Element> = all.iter().filter(|element| element.name == "polyline").collect();
    let route = routes.iter().find(|route| route.text == "run 7, centre of group 7").expect("the route");
    assert_eq!((routes.len(), route.attribute("points").split(' ').count()), (7, 1), "one point of seven routes");
    assert_eq!((count("circle", "pit", "50,40"), count("circle", "end", "50,40")), (1, 1), "a pit and an end");
    assert_eq!((count("text", "label", "7"), count("text", "", "centre 7: 1 run")), (1, 1), "its number and its group");
    let of_run = |text: &str| text.split(' ').skip_while(|&word| word != "run").any(|word| word == "7");
    assert!(!all.iter().any(|element| element.has_class("trench") && of_run(&element.text)), "it needs no trench");
}

/// The path of a sample.
fn sample(name: &str) -> String {
    root().join("samples").join(name).to_str().expect("a name").to_owned()
}

/// Of two plan books of a job the one to stake from is drawn, whichever stands first; a refusal names the book, or the job.
#[test]
fn the_book_to_stake_from_is_drawn() {
    let map = map();
    let [job, ours, more] = ["job-7.job", "job-7.plan", "contractor-1-more.plan"].map(sample);
    for (first, second, chosen) in [(&ours, &more, &ours), (&more, &ours, &ours), (&more, &more, &more)] {
        assert_eq!(drawn(map, &["--choose", &job, first, second], &[]), drawn(map, &["--plan", chosen], &[]));
    }
    let told = |job: &str, first: &str, second: &str| {
        let output = run(map, &["--choose", job, first, second], &[]);
        assert_eq!((output.status.code(), output.stdout.len()), (Some(1), 0), "{first} {second}");
        text(&output.stderr)
    };
    for (name, number) in [
        ("contractor-2-trench", 16),
        ("contractor-4-another-job", 15),
        ("refused-08-newer-corner", 8),
        ("refused-12-cut", 12),
    ] {
        let book = sample(&format!("{name}.plan"));
        for (place, which, said) in [(1, "first", told(&job, &book, &ours)), (2, "second", told(&job, &ours, &book))] {
            assert_eq!(
                said,
                format!("map: {book}: refused {number} at {place}: the {which} book: {}\n", words(number))
            );
        }
    }
    for (name, number, place) in [
        ("refused-03-cut.job", 3, 24),
        ("refused-08-coordinate.job", 8, 24),
        ("groups-4-no-star.job", 11, 0),
        ("refused-17-stored.job", 17, 119),
    ] {
        let job = sample(name);
        assert_eq!(told(&job, &ours, &more), format!("map: {job}: refused {number} at {place}: {}\n", words(number)));
    }
}

/// The stored pictures are what the stored plans draw, whichever least plans the archive finds; those of older plans are as they
/// were drawn then, one with a route of one corner.
#[test]
fn pictures_of_the_samples() {
    let map = map();
    for path in samples("svg").into_iter().chain(older_samples("svg")) {
        let picture = std::fs::read_to_string(&path).expect("a sample");
        let plan = path.with_extension("plan");
        assert_eq!(drawn(map, &["--plan", plan.to_str().expect("a name")], &[]), picture, "{}", path.display());
    }
}

/// Books that no planner writes: routes that go to and fro off the survey lines, to the limits of the coordinates, with numbers
/// that stand twice, of one corner and of 127.
#[test]
fn strange_plans_are_drawn() {
    let map = map();
    for n in 0..40 {
        let mut random = Random::nth(23, n);
        let routes = [0, 1, 2, 3, 5, 9, MOST_RUNS][n as usize % 7];
        assert_stored(map, &made_up(&mut random, BOTH_KINDS[n as usize / 7 % 2], routes));
    }
}

#[test]
fn special_plans_are_drawn() {
    let map = map();
    let special = (0..).map(|n| book_case(0, n)).take_while(|case| case.made == Made::Whole);
    let special: Vec<_> = special.map(|case| PlanBook::read(&case.bytes).expect("a plan")).collect();
    assert!(special.len() > 3, "there are special books");
    special.iter().for_each(|book| assert_stored(map, book));
}

/// The most columns and rows that a plan can have, 2,048 of each: every corner of 32 routes of 127 lies on a line of its own.
#[test]
fn a_plan_of_the_most_lines_is_drawn() {
    let map = map();
    let mut book = made_up(&mut Random::nth(24, 0), Kinds::Newer, 0);
    let place = |i: i32, k: i32| if i % 2 == 0 { -FAR + 900 * k + i } else { FAR - 900 * k - i };
    for i in 0..MOST_RUNS as i32 {
        let corner = |j: i32| Point::new(place(i, (j + 1) / 2), place(i + 2, j / 2));
        book.routes.push(route(i as u16 / 3, 0, i as u16 / 5, (0..MOST_CORNERS as i32).map(corner).collect()));
    }
    count(&mut book);
    let lines: BTreeSet<i32> = book.routes.iter().flat_map(|route| route.corners.iter().map(|p| p.x)).collect();
    assert_eq!((lines.len(), book.bytes().len()), (2_048, LONGEST_PLAN));
    assert_stored(map, &book);
}

/// Many routes along few lines: pieces that overlap, meet end to end, and go over the same stretch twice.
#[test]
fn crowded_plans_are_drawn() {
    let map = map();
    for n in 0..20 {
        let mut random = Random::nth(25, n);
        let mut book = made_up(&mut random, Kinds::Newer, 0);
        for i in 0..MOST_RUNS {
            let mut here = Point::new(random.from(0, 3), random.from(0, 3));
            let mut corners = vec![here];
            for k in 0..random.below(MOST_CORNERS) {
                let field = if k % 2 == i % 2 { &mut here.x } else { &mut here.y };
                *field = (*field + random.from(1, 3)) % 4;
                corners.push(here);
            }
            book.routes.push(route(i as u16 / 2, 0, i as u16 / 4, corners));
        }
        count(&mut book);
        assert_stored(map, &book);
    }
}

#[test]
fn damaged_plan_books_are_refused_with_their_place() {
    let map = map();
    for n in 0..3 * book_damage::WAYS {
        let made = book_damage::damaged(&mut Random::nth(26, n as u64), n % book_damage::WAYS);
        assert_told(map, &made.bytes, made.refusal, made.what);
    }
    let longest = (0..).map(|n| book_case(0, n).bytes).find(|bytes| bytes.len() == LONGEST_PLAN).expect("a book");
    for more in [1, 5_000, 100_000] {
        let bytes = [&longest[..], &vec![0x43; more]].concat();
        assert_told(map, &bytes, refusal::Refusal { number: 12, place: LONGEST_PLAN }, "bytes after the longest book");
    }
    let job = std::fs::read(root().join("samples/job-7.job")).expect("a sample");
    assert_told(map, &job, refusal::Refusal { number: 12, place: 0 }, "a job book");
}

#[test]
fn plan_books_in_files() {
    let map = map();
    let job = std::fs::read(root().join("samples/lease.job")).expect("a sample");
    let plan = planned(&job).expect("a plan").bytes();
    let path = Path::new(env!("CARGO_TARGET_TMPDIR")).join("lease.plan");
    let name = path.to_str().expect("a name");
    std::fs::write(&path, &plan).expect("a plan is stored");
    assert_eq!(drawn(map, &["--plan", name], &[]), drawn(map, &["-"], &job));
    std::fs::write(&path, &plan[..plan.len() - 1]).expect("a plan is stored");
    let output = run(map, &["--plan", name], &[]);
    let told = format!("map: {name}: refused 12 at {}: {}\n", plan.len() - 3, words(12));
    assert_eq!((output.status.code(), text(&output.stderr)), (Some(1), told));
}

#[test]
fn what_cannot_be_read_or_written() {
    let map = map();
    for words in [&[][..], &["a", "b"], &["--plan", "a", "b"], &["--clicks", "7"], &["0,0", "1,1", "2,2", "3,3"]] {
        let output = run(map, words, &[]);
        assert_eq!(output.status.code(), Some(2), "{words:?}");
        assert!(text(&output.stderr).starts_with("usage: "), "{words:?}");
    }
    for words in [&["no/such/file"][..], &["--plan", "no/such/file"]] {
        let missing = run(map, words, &[]);
        assert_eq!(
            (missing.status.code(), text(&missing.stderr)),
            (Some(2), "map: no/such/file: cannot be opened\n".to_string())
        );
    }
    let full = File::options().write(true).open("/dev/full").expect("a device that is full");
    let job = root().join("samples/job-7.job");
    let status = Command::new(map).arg(job).stdout(full).stderr(Stdio::null()).status().expect("it runs");
    assert_eq!(status.code(), Some(2), "standard output is full");
}

#[test]
fn other_compilers_find_nothing_to_warn_of() {
    let source = [root().join("map/map.c")];
    compile(&["cc", "-std=c99", "-O2"], &source, "map-cc");
    compile(&["cc", "-std=c11", "-O3"], &source, "map-cc11");
    if has("clang") {
        compile(&["clang", "-std=c99", "-O2"], &source, "map-clang");
    }
}
