//! The comparison passes a right reader of plan books, and notices each wrong one.

use trench_check::book_cases::book_case;
use trench_check::job::Point;
use trench_check::plan_book::{Kinds, PlanBook, RouteRecord};
use trench_check::read_back::{
    Answered, Asker, FIGURES, Question, ROUTE_WORDS, corner_at, listed, route_at, try_books, try_plan_listing,
};
use trench_check::refusal::Refusal;
use trench_check::report::{Report, Subject};

const BOOKS: u64 = 1_000;

/// What a reader of this file does wrong.
#[derive(Clone, Copy, Debug, PartialEq, Eq)]
enum Slip {
    None,
    // In reading.
    CutAtLength,
    NoEndAtLastRecord,
    EmptyAccepted,
    SecondHead,
    CornerBeforeRoute,
    AfterEndOverlooked,
    AfterEndAtEnd,
    Route33,
    Route32Refused,
    Corner128,
    Corner127Refused,
    MillionRefused,
    MillionAndOne,
    LowerLimitOnly,
    ThirteenBeforeEight,
    EqualCorners,
    SlopedCorners,
    ThirdOnRow,
    ThirdOnColumn,
    AcrossRoutes,
    CountsEarly,
    CountsLast,
    TotalFirst,
    FourteenAtEnd,
    FourteenAtCorner,
    NoCornerAccepted,
    OneCornerRefused,
    NowhereRefused,
    RunsNotCompared,
    TotalNotCompared,
    RunNumberJudged,
    // In the kinds.
    OlderRefused,
    NewerRefused,
    MixedRead,
    MixedAtHead,
    MixedAtLength,
    MixedByLength,
    OlderRouteInNewer,
    NewerRouteInOlder,
    SevenBytesAlways,
    NineBytesAlways,
    OtherHeadRead,
    GroupsJudged,
    // In what is asked.
    PlaceOfAccepted,
    FiguresOfRefused,
    FiguresSwapped,
    FiguresThoughShort,
    SixFigures,
    KindOfOlder,
    KindsSwapped,
    ThreeFields,
    CentreByIndex,
    CentreOfOlder,
    FieldsOfOlder,
    OlderRouteNotFound,
    CornerByPlace,
    CornerBySeven,
    CornerByNine,
    PlacesOfRefused,
    PlacesWithoutEnd,
    PlacesNotCleared,
    PlacesForFewer,
    RouteBehind,
    RouteOfEnd,
    RouteNotWithin,
    RouteKindNotLookedAt,
    RouteTouchesMore,
    CornerBehind,
    CornerPastItsRoute,
    CornerThoughShort,
    Corner127Asked,
    CornerByWrappingWords,
    CornerJudged,
    PlacesPastTheLast,
}

/// A second reader of plan books, which can be made to slip.
struct Reader {
    slip: Slip,
    bytes: Vec<u8>,
    read: Result<PlanBook, Refusal>,
}

fn half(bytes: &[u8]) -> u16 {
    u16::from_le_bytes([bytes[0], bytes[1]])
}

fn word(bytes: &[u8]) -> u32 {
    u32::from_le_bytes(bytes[..4].try_into().expect("4 bytes"))
}

fn refusal(number: i32, place: usize) -> Refusal {
    Refusal { number, place }
}

/// Whether a corner may follow those before it.
fn turns(slip: Slip, before: &[Point], p: Point) -> bool {
    let Some(&last) = before.last() else { return true };
    let (on_column, on_row) = (p.x == last.x, p.y == last.y);
    if on_column && on_row {
        return slip == Slip::EqualCorners;
    }
    if !on_column && !on_row {
        return slip == Slip::SlopedCorners;
    }
    let Some(&other) = before.len().checked_sub(2).map(|at| &before[at]) else { return true };
    !(on_column && other.x == p.x && slip != Slip::ThirdOnColumn
        || on_row && other.y == p.y && slip != Slip::ThirdOnRow)
}

fn in_range(slip: Slip, value: i32) -> bool {
    let far = match slip {
        Slip::MillionRefused => 999_999,
        Slip::MillionAndOne => 1_000_001,
        _ => 1_000_000,
    };
    value >= -far && (value <= far || slip == Slip::LowerLimitOnly)
}

/// The length of a record of this kind in a book of these kinds.
fn record_length(slip: Slip, kind: u8, kinds: Option<Kinds>) -> Option<usize> {
    match kind {
        0x50 | 0x51 => Some(19),
        0x4F if slip == Slip::SevenBytesAlways => Some(7),
        0x4E if slip == Slip::NineBytesAlways => Some(9),
        0x4E | 0x4F if slip == Slip::MixedByLength => Some(if kinds == Some(Kinds::Newer) { 9 } else { 7 }),
        0x4F => Some(9),
        0x4E => Some(7),
        0x43 => Some(9),
        0x5A => Some(3),
        _ => None,
    }
}

/// The kinds of the book whose head this is.
fn kinds_of(slip: Slip, kind: u8) -> Option<Kinds> {
    match kind {
        0x51 if slip != Slip::NewerRefused => Some(Kinds::Newer),
        0x50 if slip != Slip::OlderRefused => Some(Kinds::Older),
        _ => None,
    }
}

/// Whether a route of this kind may stand in a book of these kinds.
fn belongs(slip: Slip, kind: u8, kinds: Kinds) -> bool {
    match (kind, kinds) {
        _ if matches!(slip, Slip::MixedRead | Slip::MixedByLength) => true,
        (0x4E, Kinds::Newer) => slip == Slip::OlderRouteInNewer,
        (0x4F, Kinds::Older) => slip == Slip::NewerRouteInOlder,
        _ => true,
    }
}

/// The records front to back, each with its place.
fn records(slip: Slip, bytes: &[u8]) -> Result<(PlanBook, Vec<usize>), Refusal> {
    let (mut book, mut places): (Option<PlanBook>, Vec<usize>) = (None, Vec::new());
    let (mut at, mut before) = (0, 0);
    loop {
        let wrong = Err(refusal(12, at));
        let Some(&kind) = bytes.get(at) else {
            return if slip == Slip::NoEndAtLastRecord { Err(refusal(12, before)) } else { wrong };
        };
        let kinds = book.as_ref().map(|book| book.kinds);
        let Some(length) = record_length(slip, kind, kinds) else { return wrong };
        let Some(body) = bytes.get(at + 1..at + length) else {
            return if slip == Slip::CutAtLength { Err(refusal(12, bytes.len())) } else { wrong };
        };
        let Some(read) = book.as_mut() else {
            let Some(kinds) = kinds_of(slip, kind) else { return wrong };
            let (runs, pits, last) = (half(&body[4..]), half(&body[14..]), half(&body[16..]));
            let (job, trench, saved) = (word(body), word(&body[6..]), word(&body[10..]));
            if slip == Slip::GroupsJudged && kinds == Kinds::Newer && last > runs {
                return Err(refusal(14, 0));
            }
            book = Some(PlanBook { kinds, job, runs, trench, saved, pits, last, routes: Vec::new(), total: 0 });
            at += length;
            continue;
        };
        match kind {
            0x50 | 0x51 if slip == Slip::SecondHead => {}
            0x50 | 0x51 if slip == Slip::OtherHeadRead && kind != read.kinds.head() => {}
            0x50 | 0x51 => return wrong,
            0x4E | 0x4F if !belongs(slip, kind, read.kinds) => {
                return match slip {
                    Slip::MixedAtHead => Err(refusal(12, 0)),
                    Slip::MixedAtLength => Err(refusal(12, bytes.len())),
                    _ => wrong,
                };
            }
            0x4E | 0x4F => {
                if slip == Slip::CountsEarly
                    && read.routes.last().is_some_and(|r| usize::from(r.count) != r.corners.len())
                {
                    return Err(refusal(14, *places.last().expect("a route")));
                }
                let most = 32 + usize::from(slip == Slip::Route33) - usize::from(slip == Slip::Route32Refused);
                if read.routes.len() >= most {
                    return wrong;
                }
                let (run, meets, count) = (half(body), half(&body[2..]), half(&body[4..]));
                if slip == Slip::RunNumberJudged && run == 0 {
                    return Err(refusal(7, at));
                }
                let centre = body.get(6..8).filter(|_| read.kinds == Kinds::Newer).map_or(0, half);
                read.routes.push(RouteRecord { run, meets, count, centre, corners: Vec::new() });
                places.push(at);
            }
            0x43 => {
                let last_of_all = read.routes.iter().rev().find_map(|r| r.corners.last().copied());
                let Some(route) = read.routes.last_mut() else {
                    if slip == Slip::CornerBeforeRoute {
                        at += length;
                        continue;
                    }
                    return wrong;
                };
                let most = 127 + usize::from(slip == Slip::Corner128) - usize::from(slip == Slip::Corner127Refused);
                if route.corners.len() >= most {
                    return wrong;
                }
                let p = Point::new(word(body) as i32, word(&body[4..]) as i32);
                let eight = !in_range(slip, p.x) || !in_range(slip, p.y);
                let thirteen = !turns(slip, &route.corners, p)
                    || slip == Slip::AcrossRoutes && route.corners.is_empty() && last_of_all == Some(p);
                match (eight, thirteen) {
                    (true, true) if slip == Slip::ThirteenBeforeEight => return Err(refusal(13, at)),
                    (true, _) => return Err(refusal(8, at)),
                    (_, true) => return Err(refusal(13, at)),
                    _ => route.corners.push(p),
                }
            }
            _ => {
                read.total = half(body);
                places.push(at);
                let end = at + length;
                if end < bytes.len() && slip != Slip::AfterEndOverlooked {
                    return Err(refusal(12, if slip == Slip::AfterEndAtEnd { at } else { end }));
                }
                return Ok((book.expect("a head"), places));
            }
        }
        before = at;
        at += length;
    }
}

/// The counts that are wrong, in the book's order: the place of each.
fn wrong_counts(slip: Slip, book: &PlanBook, places: &[usize]) -> Vec<usize> {
    let mut wrong = Vec::new();
    if usize::from(book.runs) != book.routes.len() && slip != Slip::RunsNotCompared {
        wrong.push(0);
    }
    for (route, &place) in book.routes.iter().zip(places) {
        let empty = route.corners.is_empty() && slip != Slip::NoCornerAccepted;
        let alone = route.corners.len() == 1 && slip == Slip::OneCornerRefused;
        if usize::from(route.count) != route.corners.len() || empty || alone {
            wrong.push(place + if slip == Slip::FourteenAtCorner { book.kinds.route_length() } else { 0 });
        }
    }
    let end = *places.last().expect("an end");
    if usize::from(book.total) != book.corners() && slip != Slip::TotalNotCompared {
        wrong.push(end);
    }
    match slip {
        Slip::FourteenAtEnd => wrong.iter_mut().for_each(|place| *place = end),
        Slip::CountsLast if wrong.len() > 1 => wrong.rotate_left(1),
        Slip::TotalFirst if wrong.last() == Some(&end) => wrong.rotate_right(1),
        _ => {}
    }
    wrong
}

fn read(slip: Slip, bytes: &[u8]) -> Result<PlanBook, Refusal> {
    if slip == Slip::EmptyAccepted && bytes.is_empty() {
        return read(Slip::None, &[&[0x51][..], &[0; 18], &[0x5A, 0, 0]].concat());
    }
    let (book, places) = records(slip, bytes)?;
    let nowhere = book.routes.iter().position(|route| route.corners.len() == 1);
    match (wrong_counts(slip, &book, &places).first(), nowhere) {
        (Some(&place), _) => Err(refusal(14, place)),
        (None, Some(i)) if slip == Slip::NowhereRefused => Err(refusal(17, places[i])),
        (None, _) => Ok(book),
    }
}

impl Reader {
    fn new(slip: Slip) -> Reader {
        Reader { slip, bytes: Vec::new(), read: Err(refusal(12, 0)) }
    }

    fn figures(&self) -> Option<Vec<u32>> {
        let slipped = self.slip == Slip::FiguresOfRefused && self.bytes.len() > 19;
        let book = match &self.read {
            Err(_) if slipped => records(Slip::None, &[&self.bytes[..19], &[0x5A, 0, 0]].concat()).ok()?.0,
            read => read.clone().ok()?,
        };
        let (pits, last, kind) = (book.pits.into(), book.last.into(), book.kinds.head().into());
        let mut figures = vec![book.job, book.runs.into(), book.trench, book.saved, pits, last, kind];
        match self.slip {
            Slip::FiguresSwapped => figures.swap(4, 5),
            Slip::SixFigures => figures.truncate(6),
            Slip::KindOfOlder => figures[6] = 0x51,
            Slip::KindsSwapped => figures[6] ^= 1,
            _ => {}
        }
        Some(figures)
    }

    fn places(&self) -> Vec<u32> {
        let mut places: Vec<u32> = match &self.read {
            Ok(book) => book.places().iter().map(|&place| place as u32).collect(),
            Err(refused) if self.slip == Slip::PlacesOfRefused => vec![refused.place as u32],
            Err(_) => Vec::new(),
        };
        if self.slip == Slip::PlacesWithoutEnd {
            places.pop();
        }
        let rest = if self.slip == Slip::PlacesNotCleared { 1 } else { 0 };
        places.resize(33, rest);
        places
    }

    fn route(&self, places: &[u32], i: usize) -> Option<Vec<u32>> {
        let i = if self.slip == Slip::RouteBehind { i.saturating_add(1) } else { i };
        let from = *places.get(i)? as usize;
        let fields = |count: usize| {
            let body = self.bytes.get(from + 1..from + 1 + 2 * count)?;
            let mut fields: Vec<u32> = body.chunks_exact(2).map(|field| half(field).into()).collect();
            fields.resize(ROUTE_WORDS, 0);
            Some(fields)
        };
        let kind = self.bytes.get(from).copied();
        let right = route_at(&self.bytes, places, i);
        match self.slip {
            Slip::RouteOfEnd if kind == Some(0x5A) => Some(vec![0; ROUTE_WORDS]),
            Slip::RouteNotWithin if kind == Some(0x4F) => fields(4),
            Slip::RouteKindNotLookedAt if places.get(i + 1).is_some_and(|&to| from < to as usize) => fields(3),
            Slip::ThreeFields => right.map(|fields| fields[..3].to_vec()),
            Slip::CentreByIndex => right.map(|mut fields| {
                let routes = self.read.as_ref().map_or(&[][..], |book| &book.routes);
                let index = routes.iter().position(|route| u32::from(route.run) == fields[3]);
                fields[3] = index.map_or(fields[3], |index| index as u32);
                fields
            }),
            Slip::CentreOfOlder => right.map(|mut fields| {
                if let (Some(0x4E), Ok(book)) = (kind, &self.read) {
                    fields[3] = book.last.into();
                }
                fields
            }),
            Slip::FieldsOfOlder if kind == Some(0x4E) => right.and_then(|right| fields(4).or(Some(right))),
            Slip::OlderRouteNotFound => right.filter(|_| kind == Some(0x4F) || self.bytes.first() != Some(&0x51)),
            _ => right,
        }
    }

    /// How far behind a route's place its first corner stands.
    fn behind(&self, from: u32) -> usize {
        match self.slip {
            Slip::CornerBySeven => 7,
            Slip::CornerByNine => 9,
            Slip::CornerByPlace if self.bytes.get(from as usize) == Some(&0x4F) => 9,
            Slip::CornerByPlace => 7,
            _ if self.bytes.first() == Some(&0x51) => 9,
            _ => 7,
        }
    }

    fn corner(&self, places: &[u32], i: usize, j: usize) -> Option<Vec<u32>> {
        let j = if self.slip == Slip::CornerBehind { j.saturating_add(1) } else { j };
        let place = |i: usize| places.get(i).copied().unwrap_or(0);
        let (from, to) = (place(i), place(i.wrapping_add(1)));
        let two = |at: usize| {
            let body = self.bytes.get(at..at + 9).filter(|record| record[0] == 0x43)?;
            Some(vec![word(&body[1..]), word(&body[5..])])
        };
        let behind = self.behind(from);
        let at = |j: usize| from as usize + behind + 9 * j;
        match self.slip {
            Slip::CornerPastItsRoute if j < 127 && from < to => two(at(j)),
            Slip::Corner127Asked if j < 200 && at(j) < to as usize => two(at(j)),
            Slip::CornerBySeven | Slip::CornerByNine | Slip::CornerByPlace if j < 127 && at(j) < to as usize => {
                two(at(j))
            }
            Slip::CornerByWrappingWords if j < 127 => {
                let at = from.wrapping_add((behind + 9 * j) as u32);
                two(at as usize).filter(|_| at < to)
            }
            Slip::CornerJudged => corner_at(&self.bytes, places, i, j).filter(|_| self.read.is_ok()),
            Slip::PlacesPastTheLast if i.checked_add(1) == Some(places.len()) && j < 127 => two(at(j)),
            _ => corner_at(&self.bytes, places, i, j),
        }
    }

    /// Writes an answer as the functions do.
    fn write(&self, found: Option<Vec<u32>>, words: &mut [u32]) -> i64 {
        let Some(found) = found else { return 0 };
        let though_short = match self.slip {
            Slip::FiguresThoughShort => found.len() == FIGURES,
            Slip::CornerThoughShort => found.len() == 2,
            Slip::PlacesForFewer => found.len() == 33,
            _ => false,
        };
        if words.len() < found.len() && !though_short {
            return 0;
        }
        let count = words.len().min(found.len());
        words[..count].copy_from_slice(&found[..count]);
        let more = self.slip == Slip::RouteTouchesMore && found.len() == ROUTE_WORDS;
        if let Some(word) = words.get_mut(ROUTE_WORDS).filter(|_| more) {
            *word = 0;
        }
        count as i64
    }
}

impl Asker for Reader {
    fn lend(&mut self, book: &[u8]) {
        self.bytes = book.to_vec();
        self.read = read(self.slip, book);
    }

    fn ask(&mut self, question: Question, words: &mut [u32]) -> Answered {
        let accepted = if self.slip == Slip::PlaceOfAccepted { self.bytes.len() } else { 0 };
        let answer = match question {
            Question::Read => self.read.as_ref().map_or_else(|r| -i64::from(r.number), |b| b.routes.len() as i64),
            Question::ReadPlace => self.read.as_ref().map_or_else(|refused| refused.place, |_| accepted) as i64,
            Question::Figures => self.write(self.figures(), words),
            Question::Places => self.write(Some(self.places()), words),
            Question::Route(places, i) => self.write(self.route(places, i), words),
            Question::Corner(places, i, j) => self.write(self.corner(places, i, j), words),
        };
        Answered { answer, strayed: None }
    }

    fn give_back(&mut self) -> Option<String> {
        None
    }
}

#[test]
fn a_right_reader_passes() {
    let report = try_books(&mut Reader::new(Slip::None), 11, 0, BOOKS, 1);
    assert_eq!(report.faults, Vec::<String>::new());
    assert_eq!(report.books, BOOKS as usize);
    assert_eq!(report.untried(), Vec::<String>::new());
}

#[test]
fn what_was_not_tried_is_told() {
    let untried = Report::of(Subject::Plans).untried();
    assert_eq!(untried[..5], ["refusal 8", "refusal 12", "refusal 13", "refusal 14", "a plan of 0 routes"]);
    assert_eq!((untried.len(), untried[36].as_str()), (37, "a plan of 32 routes"));
}

fn assert_noticed(slip: Slip, words: &str) {
    let noticed = (0..BOOKS).any(|n| {
        let faults = try_books(&mut Reader::new(slip), 11, n, n + 1, 1).faults;
        faults.iter().any(|fault| fault.contains(words))
    });
    assert!(noticed, "{slip:?}: `{words}` is in no fault");
}

#[test]
fn wrong_records_are_noticed() {
    assert_noticed(Slip::CutAtLength, "ReadPlace with 0 words: the answer is ");
    assert_noticed(Slip::NoEndAtLastRecord, "ReadPlace with 0 words: the answer is ");
    assert_noticed(Slip::EmptyAccepted, "empty (): Read with 0 words: the answer is 0 and should be -12");
    assert_noticed(Slip::SecondHead, "and should be -12");
    assert_noticed(Slip::CornerBeforeRoute, "and should be -12");
    assert_noticed(Slip::AfterEndOverlooked, "and should be -12");
    assert_noticed(Slip::AfterEndAtEnd, "byte after the end");
    assert_noticed(Slip::Route33, "33rd route");
    assert_noticed(Slip::Route32Refused, "the answer is -12 and should be 32");
    assert_noticed(Slip::Corner128, "128th corner");
    assert_noticed(Slip::Corner127Refused, "routes of 127 corners");
}

#[test]
fn wrong_corners_are_noticed() {
    assert_noticed(Slip::MillionRefused, "the answer is -8 and should be ");
    assert_noticed(Slip::MillionAndOne, "and should be -8");
    assert_noticed(Slip::LowerLimitOnly, "and should be -8");
    assert_noticed(Slip::ThirteenBeforeEight, "the answer is -13 and should be -8");
    assert_noticed(Slip::EqualCorners, "corner twice");
    assert_noticed(Slip::SlopedCorners, "corner off the lines of the one before");
    assert_noticed(Slip::ThirdOnRow, "three corners on one line");
    assert_noticed(Slip::ThirdOnColumn, "three corners on one line");
    assert_noticed(Slip::AcrossRoutes, "the answer is -13 and should be ");
}

#[test]
fn wrong_counts_are_noticed() {
    assert_noticed(Slip::CountsEarly, "the answer is -14 and should be -12");
    assert_noticed(Slip::CountsEarly, "the answer is -14 and should be -8");
    assert_noticed(Slip::CountsLast, "two wrong counts");
    assert_noticed(Slip::TotalFirst, "two wrong counts");
    assert_noticed(Slip::FourteenAtEnd, "wrong number of runs");
    assert_noticed(Slip::FourteenAtCorner, "wrong number of corners");
    assert_noticed(Slip::NoCornerAccepted, "route with no corner");
    assert_noticed(Slip::OneCornerRefused, "the answer is -14 and should be 1");
    assert_noticed(Slip::NowhereRefused, "the answer is -17 and should be 1");
    assert_noticed(Slip::RunsNotCompared, "and should be -14");
    assert_noticed(Slip::TotalNotCompared, "and should be -14");
    assert_noticed(Slip::RunNumberJudged, "the answer is -7 and should be ");
}

#[test]
fn wrong_kinds_are_noticed() {
    assert_noticed(Slip::OlderRefused, "the answer is -12 and should be ");
    assert_noticed(Slip::NewerRefused, "the answer is -12 and should be ");
    assert_noticed(Slip::MixedRead, "route of the other set");
    assert_noticed(Slip::MixedRead, "and should be -12");
    assert_noticed(Slip::MixedAtHead, "the answer is 0 and should be ");
    assert_noticed(Slip::MixedAtLength, "route of the other set");
    assert_noticed(Slip::MixedByLength, "other set's kind on a route");
    assert_noticed(Slip::OlderRouteInNewer, "and should be -12");
    assert_noticed(Slip::NewerRouteInOlder, "and should be -12");
    assert_noticed(Slip::SevenBytesAlways, "the answer is -12 and should be ");
    assert_noticed(Slip::NineBytesAlways, "the answer is -12 and should be ");
    assert_noticed(Slip::OtherHeadRead, "second head, of the other set");
    assert_noticed(Slip::GroupsJudged, "the answer is -14 and should be ");
}

#[test]
fn wrong_answers_by_kinds_are_noticed() {
    assert_noticed(Slip::SixFigures, "the answer is 6 and should be 7");
    assert_noticed(Slip::KindOfOlder, "Figures with 7 words: ");
    assert_noticed(Slip::KindsSwapped, "Figures with 7 words: ");
    assert_noticed(Slip::ThreeFields, "the answer is 3 and should be 4");
    assert_noticed(Slip::CentreByIndex, "planned");
    assert_noticed(Slip::CentreOfOlder, "is written and should be");
    assert_noticed(Slip::FieldsOfOlder, "is written and should be");
    assert_noticed(Slip::OlderRouteNotFound, "the answer is 0 and should be 4");
    assert_noticed(Slip::CornerBySeven, "the answer is 0 and should be 2");
    assert_noticed(Slip::CornerByNine, "the answer is 0 and should be 2");
    assert_noticed(Slip::CornerByPlace, "the answer is ");
}

#[test]
fn wrong_answers_to_questions_are_noticed() {
    assert_noticed(Slip::PlaceOfAccepted, "and should be 0");
    assert_noticed(Slip::FiguresOfRefused, "Figures with 7 words: the answer is 7 and should be 0");
    assert_noticed(Slip::FiguresSwapped, "is written and should be");
    assert_noticed(Slip::FiguresThoughShort, "Figures with 6 words: the answer is 6 and should be 0");
    assert_noticed(Slip::PlacesOfRefused, "is written and should be");
    assert_noticed(Slip::PlacesWithoutEnd, "is written and should be");
    assert_noticed(Slip::PlacesNotCleared, "is written and should be");
    assert_noticed(Slip::PlacesForFewer, "Places with 32 words: the answer is 32 and should be 0");
    assert_noticed(Slip::RouteBehind, "is written and should be");
    assert_noticed(Slip::RouteOfEnd, "the answer is 4 and should be 0");
    assert_noticed(Slip::RouteNotWithin, "the answer is 4 and should be 0");
    assert_noticed(Slip::RouteKindNotLookedAt, "the answer is 4 and should be 0");
    assert_noticed(Slip::RouteTouchesMore, "a word behind the 4 written was changed");
    assert_noticed(Slip::CornerBehind, "is written and should be");
    assert_noticed(Slip::CornerPastItsRoute, "the answer is 2 and should be 0");
    assert_noticed(Slip::CornerThoughShort, "the answer is 1 and should be 0");
    assert_noticed(Slip::Corner127Asked, "the answer is 2 and should be 0");
    assert_noticed(Slip::CornerByWrappingWords, "the answer is 2 and should be 0");
    assert_noticed(Slip::CornerJudged, "the answer is 0 and should be 2");
    assert_noticed(Slip::PlacesPastTheLast, "the answer is 2 and should be 0");
}

/// Lends as `Reader` does, and says that the book was changed.
struct Careless(Reader);

impl Asker for Careless {
    fn lend(&mut self, book: &[u8]) {
        self.0.lend(book);
    }

    fn ask(&mut self, question: Question, words: &mut [u32]) -> Answered {
        Answered { strayed: Some("one byte too far".to_string()), ..self.0.ask(question, words) }
    }

    fn give_back(&mut self) -> Option<String> {
        Some("the book was changed".to_string())
    }
}

#[test]
fn strays_are_told() {
    let faults = try_books(&mut Careless(Reader::new(Slip::None)), 11, 0, 3, 1).faults;
    assert!(faults.iter().any(|fault| fault.ends_with("Read with 0 words: one byte too far")));
    assert!(faults.iter().any(|fault| fault.ends_with("the book was changed")));
}

fn listing_faults(list: impl Fn(&[u8]) -> String) -> Vec<String> {
    let mut report = Report::of(Subject::Plans);
    for n in 0..BOOKS {
        let case = book_case(15, n);
        try_plan_listing(&case, &list(&case.bytes), &mut report);
    }
    report.faults
}

#[test]
fn listings_are_held_to_what_is_due() {
    let assert_noticed = |words: &str, list: &dyn Fn(String) -> String| {
        let faults = listing_faults(|book| list(listed(book)));
        assert!(faults.iter().any(|fault| fault.contains(words)), "`{words}` is in none of {} faults", faults.len());
    };
    assert_eq!(listing_faults(listed), Vec::<String>::new());
    assert_noticed("and should be \"refused 13 at", &|text| text.replace("refused 13 at ", "refused 13 at 1"));
    assert_noticed("and should be \"refused 12 at 0\\n\"", &|text| text.trim_end().to_string());
    assert_noticed("line 2 of the listing is \"route", &|text| text.replace("meets 0", "meets 00"));
    assert_noticed("line 2 of the listing is \"route", &|text| text.replace(" centre ", " center "));
    assert_noticed("line 1 of the listing is \"job", &|text| text.replace(" groups ", " centre "));
    assert_noticed("line 1 of the listing is \"job", &|text| text.replacen(" centre ", " groups ", 1));
    assert_noticed("is none and should be \"route", &|text| {
        text.lines().take(1).map(|line| line.to_string() + "\n").collect()
    });
    assert_noticed("and should be none", &|text| text + "\n");
}
