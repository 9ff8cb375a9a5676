//! The comparison passes a right writer of job books, and notices each wrong one.

use trench_check::compare::Called;
use trench_check::list_cases::labels;
use trench_check::read_back::Answered;
use trench_check::refusal::Refusal;
use trench_check::report::{Report, Subject};
use trench_check::write_job::{Writer, try_lists};

const LISTS: u64 = 2_800;

/// What a writer of this file does wrong.
#[derive(Clone, Copy, Debug, PartialEq, Eq)]
enum Slip {
    None,
    // In the refusals.
    RaggedOverlooked,
    ThreeAtRuns,
    ThreeAfterNine,
    ThreeLast,
    Run33Accepted,
    Run32Refused,
    NineAt33,
    NineLast,
    BlankRefused,
    NumberZeroAccepted,
    NumberBelowZeroAccepted,
    Number10000Accepted,
    Number9999Refused,
    NumberOneRefused,
    NumberByHalf,
    EqualNumberAccepted,
    FallingNumberAccepted,
    MillionRefused,
    MillionAndOneAccepted,
    LowerEndOnly,
    UpperEndOnly,
    FieldNotLookedAt(usize),
    NowhereAccepted,
    NowhereByX,
    NowhereByY,
    SeventeenBeforeEight,
    SeventeenBeforeSeven,
    EightBeforeSeven,
    NumbersFirst,
    LastRunFirst,
    RunsFromOne,
    TwoBeforeThree,
    TwoBeforeNine,
    TwoBeforeSeven,
    TwoBeforeEight,
    TwoBeforeSeventeen,
    TwoAtLength,
    ExactRefused,
    OneLessAccepted,
    // In what is written.
    SignLost,
    FieldsSwapped,
    PointsSwapped,
    BigEndian,
    JobNumberCut,
    CountLeftOut,
    CountOfNumbers,
    EndLeftOut,
    RoomAnswered,
    ByteBehind,
    ByteBeforeRefusal,
    HeadBeforeSeven,
    ByteBeforeTwo,
    // In the place.
    PlaceOff,
    PlaceOfAccepted,
    PlaceWrites,
    PlaceWithoutBuffer,
}

/// A second writer of job books, which can be made to slip.
struct Plain(Slip);

impl Plain {
    fn number_is_wrong(&self, number: i32, before: i32) -> bool {
        let number = if self.0 == Slip::NumberByHalf { number & 0xFFFF } else { number };
        let least = match self.0 {
            Slip::NumberZeroAccepted => 0,
            Slip::NumberBelowZeroAccepted => i32::MIN,
            Slip::NumberOneRefused => 2,
            _ => 1,
        };
        let most = match self.0 {
            Slip::Number10000Accepted => 10_000,
            Slip::Number9999Refused => 9_998,
            _ => 9_999,
        };
        let rises = match self.0 {
            Slip::EqualNumberAccepted => number >= before,
            Slip::FallingNumberAccepted => number != before,
            _ => number > before,
        };
        let free = matches!(self.0, Slip::NumberZeroAccepted | Slip::NumberBelowZeroAccepted) && number <= 0;
        number < least || number > most || !(rises || free)
    }

    fn coordinate_is_wrong(&self, field: usize, value: i32) -> bool {
        let far = match self.0 {
            Slip::MillionRefused => 999_999,
            Slip::MillionAndOneAccepted => 1_000_001,
            _ => 1_000_000,
        };
        let (low, high) = (value < -far, value > far);
        match self.0 {
            Slip::LowerEndOnly => low,
            Slip::UpperEndOnly => high,
            Slip::FieldNotLookedAt(other) if other == field => false,
            _ => low || high,
        }
    }

    fn goes_nowhere(&self, run: &[i32]) -> bool {
        let (same_x, same_y) = (run[1] == run[3], run[2] == run[4]);
        match self.0 {
            Slip::NowhereAccepted => false,
            Slip::NowhereByX => same_x,
            Slip::NowhereByY => same_y,
            _ => same_x && same_y,
        }
    }

    /// The refusals of the runs, in the order in which they are found.
    fn wrong_runs(&self, list: &[i32]) -> Vec<Refusal> {
        let mut wrong = Vec::new();
        let mut before = 0;
        for (i, run) in list.chunks_exact(5).enumerate() {
            let place = i + usize::from(self.0 == Slip::RunsFromOne);
            let seven = self.number_is_wrong(run[0], before).then_some(Refusal { number: 7, place });
            let eight = (1..5).any(|field| self.coordinate_is_wrong(field, run[field]));
            let eight = eight.then_some(Refusal { number: 8, place });
            let seventeen = self.goes_nowhere(run).then_some(Refusal { number: 17, place });
            let in_order = match self.0 {
                Slip::EightBeforeSeven => [eight, seven, seventeen],
                Slip::SeventeenBeforeEight => [seven, seventeen, eight],
                Slip::SeventeenBeforeSeven => [seventeen, seven, eight],
                _ => [seven, eight, seventeen],
            };
            wrong.extend(in_order.into_iter().flatten());
            before = run[0];
        }
        match self.0 {
            Slip::NumbersFirst => wrong.sort_by_key(|refusal| refusal.number),
            Slip::LastRunFirst => wrong.sort_by_key(|refusal| usize::MAX - refusal.place),
            _ => {}
        }
        wrong
    }

    /// Every refusal that applies, in the order in which they are told.
    fn refusals(&self, list: &[i32], room: usize) -> Vec<Refusal> {
        let Plain(slip) = *self;
        let runs = list.len() / 5;
        let most = 32 + usize::from(slip == Slip::Run33Accepted) - usize::from(slip == Slip::Run32Refused);
        let three = (list.len() % 5 != 0 && slip != Slip::RaggedOverlooked)
            .then_some(Refusal { number: 3, place: if slip == Slip::ThreeAtRuns { runs } else { list.len() } });
        let nine = (runs > most).then_some(Refusal { number: 9, place: if slip == Slip::NineAt33 { 33 } else { 32 } });
        let ten = (runs == 0 && slip == Slip::BlankRefused).then_some(Refusal { number: 10, place: 0 });
        let limit =
            8 + 19 * runs + usize::from(slip == Slip::ExactRefused) - usize::from(slip == Slip::OneLessAccepted);
        let place = if slip == Slip::TwoAtLength { room } else { 0 };
        let two = (room < limit).then_some(Refusal { number: 2, place });
        let (three, nine): (Vec<_>, Vec<_>) = (three.into_iter().collect(), nine.into_iter().collect());
        let (two, of_runs): (Vec<_>, Vec<_>) = (two.into_iter().chain(ten).collect(), self.wrong_runs(list));
        let split = |number: i32| of_runs.iter().partition::<Vec<Refusal>, _>(|refusal| refusal.number < number);
        match slip {
            Slip::ThreeAfterNine => [nine, three, of_runs, two].concat(),
            Slip::ThreeLast => [nine, of_runs, two, three].concat(),
            Slip::NineLast => [three, of_runs, two, nine].concat(),
            Slip::TwoBeforeThree => [two, three, nine, of_runs].concat(),
            Slip::TwoBeforeNine => [three, two, nine, of_runs].concat(),
            Slip::TwoBeforeSeven => [three, nine, two, of_runs].concat(),
            Slip::TwoBeforeEight | Slip::TwoBeforeSeventeen => {
                let (before, behind) = split(if slip == Slip::TwoBeforeEight { 8 } else { 17 });
                [three, nine, before, two, behind].concat()
            }
            _ => [three, nine, of_runs, two].concat(),
        }
    }

    fn book(&self, number: u32, list: &[i32]) -> Vec<u8> {
        let Plain(slip) = *self;
        let mut bytes = vec![0x48];
        bytes.extend(if slip == Slip::JobNumberCut { number & 0xFF_FFFF } else { number }.to_le_bytes());
        for run in list.chunks_exact(5) {
            bytes.push(0x52);
            bytes.extend((run[0] as u16).to_le_bytes());
            let order = match slip {
                Slip::FieldsSwapped => [2, 1, 3, 4],
                Slip::PointsSwapped => [3, 4, 1, 2],
                _ => [1, 2, 3, 4],
            };
            for value in order.map(|field| run[field]) {
                bytes.extend(match slip {
                    Slip::SignLost => value.wrapping_abs().to_le_bytes(),
                    Slip::BigEndian => value.to_be_bytes(),
                    _ => value.to_le_bytes(),
                });
            }
        }
        let count = match slip {
            Slip::CountLeftOut => 0,
            Slip::CountOfNumbers => list.len(),
            _ => list.len() / 5,
        };
        bytes.push(0x5A);
        bytes.extend((count as u16).to_le_bytes());
        if slip == Slip::EndLeftOut {
            bytes.truncate(bytes.len() - 3);
        }
        bytes
    }

    /// What is left in the buffer of a refused call.
    fn spoil(&self, refused: Refusal, out: &mut [u8]) {
        let spoils = match self.0 {
            Slip::ByteBeforeRefusal => true,
            Slip::HeadBeforeSeven => [7, 8, 17].contains(&refused.number) && refused.place > 0,
            Slip::ByteBeforeTwo => refused.number == 2,
            _ => false,
        };
        if let Some(byte) = out.first_mut().filter(|_| spoils) {
            *byte = 0x48;
        }
    }
}

impl Writer for Plain {
    fn write(&mut self, number: u32, list: &[i32], out: &mut [u8]) -> Called {
        if let Some(&refused) = self.refusals(list, out.len()).first() {
            self.spoil(refused, out);
            return Called { answer: -refused.number, strayed: None };
        }
        let book = self.book(number, list);
        let length = book.len().min(out.len());
        out[..length].copy_from_slice(&book[..length]);
        if let Some(byte) = out.get_mut(length).filter(|_| self.0 == Slip::ByteBehind) {
            *byte ^= 1;
        }
        let answer = if self.0 == Slip::RoomAnswered { out.len() } else { length };
        Called { answer: answer as i32, strayed: None }
    }

    fn place(&mut self, _: u32, list: &[i32], out: &mut [u8]) -> Answered {
        let room = if self.0 == Slip::PlaceWithoutBuffer { 0 } else { out.len() };
        let refused = self.refusals(list, room);
        if let Some(byte) = out.first_mut().filter(|_| self.0 == Slip::PlaceWrites) {
            *byte ^= 1;
        }
        let off = usize::from(self.0 == Slip::PlaceOff);
        let accepted = if self.0 == Slip::PlaceOfAccepted { 8 + 19 * (list.len() / 5) } else { 0 };
        let place = refused.first().map_or(accepted, |refusal| refusal.place + off);
        Answered { answer: place as i64, strayed: None }
    }
}

fn report(slip: Slip) -> Report {
    try_lists(&mut Plain(slip), 11, 0, LISTS, 1)
}

#[test]
fn a_right_writer_passes() {
    let report = report(Slip::None);
    assert_eq!(report.faults, Vec::<String>::new());
    assert_eq!((report.books, report.untried()), (LISTS as usize, Vec::new()));
}

#[test]
fn what_was_not_tried_is_told() {
    let untried = Report::of(Subject::Lists).untried();
    assert_eq!(untried[..3], ["refusal 2", "refusal 3", "refusal 7"]);
    assert_eq!(untried[3..7], ["refusal 8", "refusal 9", "refusal 17", "a list of 0 runs"]);
    assert_eq!((untried[38].as_str(), untried[39].as_str()), ("a list of 32 runs", "enough lists every-count"));
    assert_eq!(untried.len(), 6 + 33 + labels().count());
    let few = try_lists(&mut Plain(Slip::None), 11, 0, LISTS / 4, 1).untried();
    assert!(few.iter().any(|what| what == "enough lists noise"), "a quarter is too few: {few:?}");
}

fn assert_noticed(slip: Slip, words: &str) {
    let noticed = (0..LISTS).any(|n| {
        let faults = try_lists(&mut Plain(slip), 11, n, n + 1, 1).faults;
        faults.iter().any(|fault| fault.contains(words))
    });
    assert!(noticed, "{slip:?}: `{words}` is in no fault");
}

#[test]
fn wrong_lengths_are_noticed() {
    assert_noticed(Slip::RaggedOverlooked, "length-6 ");
    assert_noticed(Slip::ThreeAtRuns, "the place is 1 and should be 6");
    assert_noticed(Slip::ThreeAfterNine, "the answer is -9 and should be -3");
    assert_noticed(Slip::ThreeLast, "the answer is -7 and should be -3");
    assert_noticed(Slip::ThreeLast, "the answer is -8 and should be -3");
    assert_noticed(Slip::Run33Accepted, "the answer is 635 and should be -9");
    assert_noticed(Slip::Run32Refused, "the answer is -9 and should be 616");
    assert_noticed(Slip::NineAt33, "the place is 33 and should be 32");
    assert_noticed(Slip::NineLast, "the answer is -7 and should be -9");
    assert_noticed(Slip::NineLast, "the answer is -8 and should be -9");
    assert_noticed(Slip::BlankRefused, "the answer is -10 and should be 8");
}

#[test]
fn wrong_numbers_are_noticed() {
    assert_noticed(Slip::NumberZeroAccepted, "the answer is 27 and should be -7");
    assert_noticed(Slip::NumberBelowZeroAccepted, "the answer is 27 and should be -7");
    assert_noticed(Slip::Number10000Accepted, "number-10000 ");
    assert_noticed(Slip::Number9999Refused, "the answer is -7 and should be 27");
    assert_noticed(Slip::NumberOneRefused, "the answer is -7 and should be 27");
    assert_noticed(Slip::NumberByHalf, "number-65537 ");
    assert_noticed(Slip::EqualNumberAccepted, "number-equal ");
    assert_noticed(Slip::FallingNumberAccepted, "number-falling ");
}

#[test]
fn wrong_coordinates_are_noticed() {
    assert_noticed(Slip::MillionRefused, "the answer is -8 and should be 65");
    assert_noticed(Slip::MillionAndOneAccepted, "first-x-above ");
    assert_noticed(Slip::LowerEndOnly, "second-y-greatest ");
    assert_noticed(Slip::UpperEndOnly, "second-y-least ");
    for (field, name) in ["first-x", "first-y", "second-x", "second-y"].into_iter().enumerate() {
        assert_noticed(Slip::FieldNotLookedAt(field + 1), &format!("{name}-above "));
        assert_noticed(Slip::FieldNotLookedAt(field + 1), &format!("{name}-below "));
    }
}

#[test]
fn runs_that_go_nowhere_are_noticed() {
    assert_noticed(Slip::NowhereAccepted, "the answer is 27 and should be -17");
    assert_noticed(Slip::NowhereAccepted, "the book is refused 17 at 5 when it is read");
    assert_noticed(Slip::NowhereAccepted, "the place is 0 and should be 1");
    assert_noticed(Slip::NowhereByX, "points-y-one-more ");
    assert_noticed(Slip::NowhereByX, "the answer is -17 and should be 65");
    assert_noticed(Slip::NowhereByY, "points-x-one-less ");
    assert_noticed(Slip::SeventeenBeforeEight, "the answer is -17 and should be -8");
    assert_noticed(Slip::SeventeenBeforeSeven, "the answer is -17 and should be -7");
    assert_noticed(Slip::TwoBeforeSeventeen, "the answer is -2 and should be -17");
    assert_noticed(Slip::NumbersFirst, "the answer is -7 and should be -17");
    assert_noticed(Slip::NumbersFirst, "the answer is -8 and should be -17");
    assert_noticed(Slip::LastRunFirst, "seventeen-then-seventeen ");
    assert_noticed(Slip::RunsFromOne, "points-coincide ");
    assert_noticed(Slip::ThreeLast, "the answer is -17 and should be -3");
    assert_noticed(Slip::NineLast, "the answer is -17 and should be -9");
}

#[test]
fn a_wrong_order_is_noticed() {
    assert_noticed(Slip::EightBeforeSeven, "the answer is -8 and should be -7");
    assert_noticed(Slip::NumbersFirst, "the answer is -7 and should be -8");
    assert_noticed(Slip::LastRunFirst, "seven-then-seven ");
    assert_noticed(Slip::LastRunFirst, "eight-then-seven ");
    assert_noticed(Slip::TwoBeforeThree, "the answer is -2 and should be -3");
    assert_noticed(Slip::TwoBeforeNine, "the answer is -2 and should be -9");
    assert_noticed(Slip::TwoBeforeSeven, "the answer is -2 and should be -7");
    assert_noticed(Slip::TwoBeforeSeven, "two-and-seven ");
    assert_noticed(Slip::TwoBeforeEight, "the answer is -2 and should be -8");
}

#[test]
fn wrong_buffers_are_noticed() {
    assert_noticed(Slip::ExactRefused, "buffer of 27: the answer is -2 and should be 27");
    assert_noticed(Slip::OneLessAccepted, "buffer of 26: the answer is 26 and should be -2");
    assert_noticed(Slip::RoomAnswered, "buffer of 28: the answer is 28 and should be 27");
    assert_noticed(Slip::ByteBehind, "a byte behind the book was changed");
    assert_noticed(Slip::ByteBeforeRefusal, "a refused call changed the buffer");
    assert_noticed(Slip::HeadBeforeSeven, "a refused call changed the buffer");
    assert_noticed(Slip::ByteBeforeTwo, "a refused call changed the buffer");
}

#[test]
fn wrong_books_are_noticed() {
    for slip in [Slip::SignLost, Slip::FieldsSwapped, Slip::PointsSwapped, Slip::BigEndian, Slip::JobNumberCut] {
        assert_noticed(slip, "is written and should be");
    }
    for slip in [Slip::SignLost, Slip::FieldsSwapped, Slip::PointsSwapped, Slip::JobNumberCut] {
        assert_noticed(slip, "the book is read as job");
    }
    assert_noticed(Slip::BigEndian, "the book is refused 8 at 5 when it is read");
    assert_noticed(Slip::CountLeftOut, "the book is refused 6 at 24 when it is read");
    assert_noticed(Slip::CountOfNumbers, "the book is refused 6 at 24 when it is read");
    assert_noticed(Slip::EndLeftOut, "the book is refused 3 at 5 when it is read");
}

#[test]
fn wrong_places_are_noticed() {
    assert_noticed(Slip::RunsFromOne, "the place is 1 and should be 0");
    assert_noticed(Slip::PlaceOff, "the place is 33 and should be 32");
    assert_noticed(Slip::PlaceOff, "the place is 1 and should be 0");
    assert_noticed(Slip::PlaceOfAccepted, "the place is 27 and should be 0");
    assert_noticed(Slip::TwoAtLength, "the place is 26 and should be 0");
    assert_noticed(Slip::PlaceWrites, "asking for the place changed the buffer");
}

/// The place of 2 is 0, as of no refusal: a place function that takes every buffer for too short cannot be told apart.
#[test]
fn a_place_without_a_buffer_is_right() {
    assert_eq!(report(Slip::PlaceWithoutBuffer).faults, Vec::<String>::new());
}

/// Writes as `Plain` does, and says that it strayed.
struct Careless(Plain);

impl Writer for Careless {
    fn write(&mut self, number: u32, list: &[i32], out: &mut [u8]) -> Called {
        Called { strayed: Some("one byte too far".to_string()), ..self.0.write(number, list, out) }
    }

    fn place(&mut self, number: u32, list: &[i32], out: &mut [u8]) -> Answered {
        Answered { strayed: Some("one byte too early".to_string()), ..self.0.place(number, list, out) }
    }
}

#[test]
fn strays_are_told() {
    let faults = try_lists(&mut Careless(Plain(Slip::None)), 11, 0, 3, 1).faults;
    assert!(faults.iter().any(|fault| fault.ends_with("buffer of 27: one byte too far")));
    assert!(faults.iter().any(|fault| fault.ends_with("buffer of 27: one byte too early")));
}
