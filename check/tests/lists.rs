//! Job books from lists of runs: every refusal of requests C-15 and C-18 and every limit from both sides, and two opinions on many lists.

use std::collections::{BTreeMap, BTreeSet};

use trench_check::book::{hex, job_bytes};
use trench_check::book_cases::Made;
use trench_check::generate;
use trench_check::job_list::{book_of, list_of};
use trench_check::list_cases::{FAR_TOO_MANY, ListCase, TABLE, labels, list_case};
use trench_check::list_line::{short_cases, show, written};
use trench_check::random::Random;
use trench_check::refusal::{Refusal, read};

fn refused(number: i32, place: usize) -> Result<Vec<u8>, Refusal> {
    Err(Refusal { number, place })
}

#[test]
fn readings_of_request_15() {
    let (right, room) = ([9, -1, 2, -1_000_000, 1_000_000], 27);
    let book = [
        &[0x48, 0x04, 0x03, 0x02, 0x01][..],
        &[0x52, 9, 0, 0xFF, 0xFF, 0xFF, 0xFF, 2, 0, 0, 0, 0xC0, 0xBD, 0xF0, 0xFF, 0x40, 0x42, 0x0F, 0],
        &[0x5A, 1, 0],
    ];
    assert_eq!(book_of(0x0102_0304, &right, room), Ok(book.concat()), "one run");
    assert_eq!(book_of(7, &[], 8), Ok(vec![0x48, 7, 0, 0, 0, 0x5A, 0, 0]), "no runs");
    assert_eq!(book_of(7, &[], 7), refused(2, 0), "no runs, and no room");
    assert_eq!(book_of(7, &right, room - 1), refused(2, 0), "one run, and no room");
    assert_eq!(book_of(7, &right[..4], room), refused(3, 4), "no multiple of five");
    assert_eq!(book_of(7, &[-1, 0, 0, 0, 0], room), refused(7, 0), "a number below 0");
    assert_eq!(book_of(7, &[1, 0, 0, 1, 1, 2, 0, 0, 0, 1_000_001], 46), refused(8, 1), "the second run's last number");
}

#[test]
fn readings_of_request_18() {
    let run = |number: i32, at: i32, to: i32| [number, at, at, to, to];
    let list = |runs: &[[i32; 5]]| runs.concat();
    let [right, nowhere] = [run(1, 0, 1), run(2, 5, 5)];
    assert_eq!(book_of(7, &nowhere, 27), refused(17, 0), "one run");
    assert_eq!(book_of(7, &list(&[right, nowhere, run(3, 0, 1)]), 65), refused(17, 1), "the run's index");
    assert_eq!(book_of(7, &list(&[right, nowhere, run(3, 6, 6)]), 65), refused(17, 1), "the first of two");
    assert_eq!(book_of(7, &list(&[right, nowhere, run(1, 0, 1)]), 65), refused(17, 1), "before 7 of a later run");
    assert_eq!(
        book_of(7, &list(&[right, nowhere, run(3, 0, 2_000_000)]), 65),
        refused(17, 1),
        "before 8 of a later run"
    );
    assert_eq!(book_of(7, &list(&[run(0, 0, 1), nowhere]), 46), refused(7, 0), "after 7 of an earlier run");
    assert_eq!(book_of(7, &list(&[right, run(1, 5, 5)]), 46), refused(7, 1), "after 7 of the same run");
    assert_eq!(book_of(7, &run(1, 2_000_000, 2_000_000), 27), refused(8, 0), "after 8 of the same run");
    assert_eq!(book_of(7, &nowhere, 0), refused(17, 0), "before 2");
    for (first, second) in [([5, 5], [5, 6]), ([5, 5], [6, 5]), ([5, 6], [6, 5]), ([-5, 5], [5, 5])] {
        let list = [&[1], &first[..], &second].concat();
        assert!(book_of(7, &list, 27).is_ok(), "{list:?} goes somewhere");
    }
}

/// The rows say what is due, and that was worked out by hand.
#[test]
fn the_table_of_limits() {
    for case in TABLE.iter() {
        let written = book_of(case.number, &case.list, case.room);
        let agreed = match case.due(case.room) {
            Made::Whole => written.is_ok(),
            Made::Refused(refusal) => written == Err(refusal),
            Made::Anyhow => false,
        };
        assert!(agreed, "{}: {:?} is due, and {written:?} comes", case.label, case.due(case.room));
    }
    let labels: BTreeSet<&str> = TABLE.iter().map(|case| case.label.as_str()).collect();
    assert_eq!(labels.len(), TABLE.len(), "each row has a label of its own");
}

/// The number that is due for a row, 0 for none.
fn number_due(case: &ListCase) -> i32 {
    match case.due(case.room) {
        Made::Refused(refusal) => refusal.number,
        _ => 0,
    }
}

#[test]
fn the_table_has_both_sides_of_each_limit() {
    let has = |what: &str, number: i32, row: &dyn Fn(&ListCase) -> bool| {
        assert!(TABLE.iter().any(|case| row(case) && number_due(case) == number), "{what} with {number}");
    };
    for (value, number) in [(1, 0), (0, 7), (-1, 7), (9_999, 0), (10_000, 7), (i32::MIN, 7), (i32::MAX, 7)] {
        has(&format!("run number {value}"), number, &|case| case.list.first() == Some(&value));
    }
    for (value, number) in
        [(1_000_000, 0), (1_000_001, 8), (-1_000_000, 0), (-1_000_001, 8), (i32::MIN, 8), (i32::MAX, 8)]
    {
        for field in 1..5 {
            has(&format!("{value} in field {field}"), number, &|case| case.list.get(5 + field) == Some(&value));
        }
    }
    for (dx, dy, number) in [(0, 0, 17), (1, 0, 0), (-1, 0, 0), (0, 1, 0), (0, -1, 0)] {
        has(&format!("points {dx},{dy} apart"), number, &|case| {
            let gap = |run: &[i32], at: usize| i64::from(run[at + 2]) - i64::from(run[at]);
            case.list.get(5..10).is_some_and(|run| (gap(run, 1), gap(run, 2)) == (dx, dy))
        });
    }
    for (runs, number) in [(0, 0), (1, 0), (31, 0), (32, 0), (33, 9), (34, 9)] {
        has(&format!("{runs} runs"), number, &|case| case.list.len() == 5 * runs && case.room >= 8 + 19 * runs);
    }
    for length in [1, 2, 3, 4, 6, 7, 8, 9] {
        has(&format!("a length of {length}"), 3, &|case| case.list.len() == length);
    }
    for (runs, more) in [0, 1, 3, 32].iter().flat_map(|&runs| [0, 1, 2].map(|more| (runs, more))) {
        let room = 7 + 19 * runs + more;
        let number = if more == 0 { 2 } else { 0 };
        has(&format!("{runs} runs in {room}"), number, &|case| (case.list.len(), case.room) == (5 * runs, room));
    }
}

#[test]
fn lists_are_refused_as_made() {
    let mut found: BTreeMap<(String, i32), usize> = BTreeMap::new();
    for n in 0..20_000 {
        let case = list_case(31, n);
        for room in [0, case.limit() - 1, case.limit(), case.room] {
            let written = book_of(case.number, &case.list, room);
            let number = written.as_ref().err().map_or(0, |refusal| refusal.number);
            match case.due(room) {
                Made::Whole => assert!(written.is_ok(), "{}: {:?}: {written:?}", case.label, case.list),
                Made::Refused(refusal) => assert_eq!(written, Err(refusal), "{}: {:?}", case.label, case.list),
                Made::Anyhow => *found.entry((case.label.clone(), number)).or_default() += 1,
            }
        }
    }
    let numbers: [(&str, &[i32]); 4] =
        [("extremes", &[3, 7]), ("near-limits", &[0, 2, 3, 7, 8]), ("near-points", &[0, 2, 17]), ("noise", &[3, 7, 9])];
    for (label, number) in numbers.iter().flat_map(|(label, numbers)| numbers.iter().map(move |&n| (*label, n))) {
        let count = found.get(&(label.to_string(), number)).copied().unwrap_or(0);
        assert!(count > 20, "{label} gives {number} only {count} times");
    }
}

/// Reading what was written gives number and runs back, and every well-formed book is what writing its number and runs gives.
#[test]
fn books_are_written_and_read_back() {
    for n in 0..2_000 {
        let job = generate::any(&mut Random::nth(32, n));
        let bytes = job_bytes(&job);
        assert_eq!(book_of(job.number, &list_of(&job), bytes.len()).as_ref(), Ok(&bytes));
        assert_eq!(read(&bytes), Ok(job));
    }
    for n in 0..2_000 {
        let case = list_case(33, n);
        if let Ok(book) = book_of(case.number, &case.list, case.limit()) {
            let job = read(&book).expect("a well-formed job");
            assert_eq!((job.number, list_of(&job)), (case.number, case.list), "{}", case.label);
        }
    }
}

#[test]
fn lines_of_lists() {
    let lines: Vec<_> = short_cases(1).take(185).collect();
    let seen: BTreeSet<&str> = lines.iter().map(|case| case.label.as_str()).collect();
    for label in labels().filter(|&label| label != FAR_TOO_MANY).chain(TABLE.iter().map(|case| case.label.as_str())) {
        assert!(seen.contains(label), "{label} is among the first lines");
    }
    for case in short_cases(2).take(3_000) {
        assert!(case.room <= 700 && case.list.len() <= 170, "{}: {} bytes", case.label, case.room);
        let said = written(&show(&case)).expect("a line");
        let due = match book_of(case.number, &case.list, case.room) {
            Ok(book) => format!("0 0 {}", hex(&book)),
            Err(refusal) => format!("{} {}", refusal.number, refusal.place),
        };
        assert_eq!(said, format!("{} {due}", case.label));
    }
}

#[test]
fn one_line_by_hand() {
    let line = "minus 1b0007000000010000000000000000000000feffffffc0bdf0ff";
    let book = "48070000005201000000000000000000feffffffc0bdf0ff5a0100";
    assert_eq!(written(line), Ok(format!("minus 0 0 {book}")));
    assert_eq!(written(&line.replace("1b00", "1a00")), Ok("minus 2 0".to_string()));
    assert_eq!(written("blank 080007000000"), Ok("blank 0 0 48070000005a0000".to_string()));
    for (line, wrong) in [
        ("blank", "a label and hexadecimal digits are wanted, and these are 1 words"),
        ("a b c", "a label and hexadecimal digits are wanted, and these are 3 words"),
        ("a 08000700000", "`08000700000` are no hexadecimal digits, two a byte"),
        ("a 0800070000g0", "`0800070000g0` are no hexadecimal digits, two a byte"),
        ("a 0800070000", "2 bytes of length, 4 of job number and 4 a number are wanted, and these are 5"),
        ("a 08000700000001", "2 bytes of length, 4 of job number and 4 a number are wanted, and these are 7"),
    ] {
        assert_eq!(written(line), Err(wrong.to_string()), "{line}");
    }
}

/// What the proved program must print of its lists is what is written here.
#[test]
fn vectors_of_the_proved_program() {
    let stored = concat!(env!("CARGO_MANIFEST_DIR"), "/../crates/job_writer_vectors/");
    let [lines, printed] = ["stdin", "stdout"].map(|name| std::fs::read_to_string(format!("{stored}{name}")).unwrap());
    let written: Vec<String> = lines.lines().map(|line| written(line).unwrap()).collect();
    assert_eq!(printed.lines().collect::<Vec<_>>(), written);
    assert!(written.len() >= 185);
}
