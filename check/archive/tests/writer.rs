//! Job books from lists of runs, written by the archive: every limit from both sides, also from C; the caller between
//! inaccessible pages notices every access outside the lent memory, and the archive makes none.

mod common;

use std::path::Path;

use common::{SANITIZERS, assert_ends_the_process, assert_faultless_in_threads, compile, run, text};
use trench_archive::call::{Against, GuardedWriter, JobWriter, write_job, write_job_place};
use trench_check::book_cases::Made;
use trench_check::job_list::{book_length, book_of};
use trench_check::list_cases::TABLE;
use trench_check::list_line::{short_cases, show, written};
use trench_check::write_job::{Writer, try_lists};

/// The deeds of `stray_job` and `stray_job_place`, by number.
mod deed {
    pub const WRITE_BEFORE_BUFFER: u32 = 0;
    pub const WRITE_BEHIND_BUFFER: u32 = 1;
    pub const WRITE_LIST: u32 = 2;
    pub const READ_BEFORE_LIST: u32 = 3;
    pub const READ_BEHIND_LIST: u32 = 4;
    pub const WRITE_BEFORE_LIST: u32 = 5;
    pub const WRITE_BEHIND_LIST: u32 = 6;
    pub const WRITE_BUFFER_BY_PLACE: u32 = 7;
}

/// What is told of a deed of `stray_job`.
fn strayed(deed: u32, against: Against) -> Option<String> {
    let mut out = vec![7; 100];
    let called = GuardedWriter::new(JobWriter::Stray, against).write(deed, &[1, 2, 3], &mut out);
    assert_eq!((called.answer, out), (-4, vec![7; 100]));
    called.strayed
}

/// What is told of a deed of `stray_job_place`.
fn strayed_by_place(deed: u32, against: Against) -> Option<String> {
    let mut out = vec![7; 100];
    let answered = GuardedWriter::new(JobWriter::Stray, against).place(deed, &[1, 2, 3], &mut out);
    assert_eq!((answered.answer, out), (0, vec![7; 100]));
    answered.strayed
}

#[test]
fn changed_bytes_are_noticed() {
    let words = |text: &str| Some(text.to_string());
    let around = words("bytes changed outside the lent ones: 1");
    assert_eq!(strayed(deed::WRITE_BEFORE_BUFFER, Against::Back), around);
    assert_eq!(strayed(deed::WRITE_BEHIND_BUFFER, Against::Front), around);
    assert_eq!(strayed(deed::WRITE_BEFORE_LIST, Against::Back), around);
    assert_eq!(strayed(deed::WRITE_BEHIND_LIST, Against::Front), around);
    assert_eq!(strayed(deed::WRITE_LIST, Against::Back), words("the list was changed"));
    assert_eq!(strayed(deed::READ_BEFORE_LIST, Against::Back), None, "a read inside the page goes unnoticed");
    assert_eq!(strayed_by_place(deed::WRITE_LIST, Against::Front), words("the list was changed"));
    assert_eq!(strayed_by_place(deed::WRITE_BEFORE_LIST, Against::Back), around);
}

/// Run by `accesses_of_the_pages_end_the_process` in a process of their own.
mod ending {
    use super::*;

    #[test]
    #[ignore = "ends the process"]
    fn write_before_buffer() {
        strayed(deed::WRITE_BEFORE_BUFFER, Against::Front);
    }

    #[test]
    #[ignore = "ends the process"]
    fn write_behind_buffer() {
        strayed(deed::WRITE_BEHIND_BUFFER, Against::Back);
    }

    #[test]
    #[ignore = "ends the process"]
    fn read_before_list() {
        strayed(deed::READ_BEFORE_LIST, Against::Front);
    }

    #[test]
    #[ignore = "ends the process"]
    fn read_behind_list() {
        strayed(deed::READ_BEHIND_LIST, Against::Back);
    }

    #[test]
    #[ignore = "ends the process"]
    fn read_behind_list_by_place() {
        strayed_by_place(deed::READ_BEHIND_LIST, Against::Back);
    }

    #[test]
    #[ignore = "ends the process"]
    fn write_buffer_by_place() {
        strayed_by_place(deed::WRITE_BUFFER_BY_PLACE, Against::Front);
    }
}

#[test]
fn accesses_of_the_pages_end_the_process() {
    let writes = ["write_before_buffer", "write_behind_buffer", "write_buffer_by_place"];
    let reads = ["read_before_list", "read_behind_list", "read_behind_list_by_place"];
    for name in writes.iter().chain(&reads) {
        assert_ends_the_process(&format!("ending::{name}"));
    }
}

/// The archive's answer and place for a list and a buffer of noise, with the book that was written or none; nothing else may be
/// changed.
fn answered(writer: &mut GuardedWriter, number: u32, list: &[i32], room: usize) -> (i32, i64, Vec<u8>) {
    let noise: Vec<u8> = (0..room).map(|at| (at * 7 + 3) as u8).collect();
    let mut out = noise.clone();
    let called = writer.write(number, list, &mut out);
    let length = usize::try_from(called.answer).unwrap_or(0);
    assert_eq!((called.strayed, &out[length..]), (None, &noise[length..]), "{list:?} in {room}");
    let book = out[..length].to_vec();
    out.clone_from(&noise);
    let placed = writer.place(number, list, &mut out);
    assert_eq!((placed.strayed, out), (None, noise), "{list:?} in {room}");
    (called.answer, placed.answer, book)
}

#[test]
fn the_table_of_limits() {
    let mut writer = GuardedWriter::new(JobWriter::Archive, Against::Back);
    for case in TABLE.iter().chain(TABLE.iter()) {
        let (answer, place, book) = answered(&mut writer, case.number, &case.list, case.room);
        match case.due(case.room) {
            Made::Refused(refusal) => {
                assert_eq!((answer, place), (-refusal.number, refusal.place as i64), "{}", case.label);
            }
            _ => {
                assert_eq!((answer, place), (case.limit() as i32, 0), "{}", case.label);
                assert_eq!(Ok(book), book_of(case.number, &case.list, case.room), "{}", case.label);
            }
        }
    }
}

/// A blank list, lists of 1, 2, 31 and 32 runs and one of each fault, with buffers of every length from 0 to little above the
/// least.
#[test]
fn every_length_of_buffer() {
    let mut writer = GuardedWriter::new(JobWriter::Archive, Against::Front);
    let labels = ["runs-0", "runs-1", "runs-2", "runs-31", "runs-32"];
    let faults = ["runs-33", "length-9", "number-equal", "second-y-above", "number-zero", "seven-and-eight"];
    let points = ["points-coincide", "points-coincide-above", "seventeen-then-seven", "points-of-last"];
    for label in labels.iter().chain(&faults).chain(&points) {
        let case = TABLE.iter().find(|case| case.label == *label).expect("a row of the table");
        for room in 0..case.limit() + 6 {
            let (answer, place, book) = answered(&mut writer, 9, &case.list, room);
            let (due, at) = match book_of(9, &case.list, room) {
                Ok(due) => (due, (case.limit() as i32, 0)),
                Err(refusal) => (Vec::new(), (-refusal.number, refusal.place as i64)),
            };
            assert_eq!(((answer, place), book), (at, due), "{label} in {room}");
        }
    }
}

/// A wrong number and a short buffer, each alone and both: 7 comes before 2.
#[test]
fn two_against_seven() {
    let mut writer = GuardedWriter::new(JobWriter::Archive, Against::Back);
    let (right, wrong) = ([1, 0, 0, 1, 1, 2, 0, 0, 1, 1], [1, 0, 0, 1, 1, 1, 0, 0, 1, 1]);
    let mut told = |list: &[i32], room: usize| {
        let (answer, place, _) = answered(&mut writer, 3, list, room);
        (answer, place)
    };
    assert_eq!((told(&right, 45), told(&right, 46)), ((-2, 0), (46, 0)));
    assert_eq!((told(&wrong, 46), told(&wrong, 45), told(&wrong, 0)), ((-7, 1), (-7, 1), (-7, 1)));
}

/// Lists whose number of runs, or whose length, fits no 16 bits: no count may be cut on its way to the limit of 32.
#[test]
fn very_long_lists() {
    for runs in [33, 255, 256, 257, 65_535, 65_536, 65_537, 65_536 + 32, 200_000] {
        let list: Vec<i32> = (1..=runs).flat_map(|number: i32| [number % 9_999 + 1, 0, 0, 1, 1]).collect();
        let mut out = [0x55; 700];
        assert_eq!((write_job(1, &list, &mut out), write_job_place(1, &list, &out)), (-9, 32), "{runs} runs");
        let ragged = &list[..list.len() - 1];
        assert_eq!(write_job(1, ragged, &mut out), -3, "{runs} runs but for a number");
        assert_eq!(write_job_place(1, ragged, &out), ragged.len(), "{runs} runs but for a number");
        assert_eq!(out, [0x55; 700]);
    }
}

/// Buffers longer than 16 bits can count.
#[test]
fn very_long_buffers() {
    for room in [65_535, 65_536, 65_537, 65_536 + 8, 1 << 20] {
        let mut out = vec![0x55; room];
        let list = [1, 0, 0, 1, 1];
        assert_eq!((write_job(1, &list, &mut out), write_job_place(1, &list, &out)), (27, 0), "{room} bytes");
        assert!(out[book_length(1)..].iter().all(|&byte| byte == 0x55), "{room} bytes");
    }
}

/// A C program with sanitizers answers the lines of `trench-check lists` as `trench-check written` does.
#[test]
fn from_c() {
    let source = Path::new(env!("CARGO_MANIFEST_DIR")).join("c/lists.c");
    let lists = compile(&[&["cc", "-std=c99", "-g", "-O1"], &SANITIZERS[..]].concat(), &[source], "lists");
    let lines: Vec<String> = short_cases(35).take(2_000).map(|case| show(&case)).collect();
    let file = Path::new(env!("CARGO_TARGET_TMPDIR")).join("lists.txt");
    std::fs::write(&file, lines.join("\n") + "\n").expect("the lines are written");
    let output = run(&lists, &[file.to_str().expect("a name")], &[]);
    assert_eq!((output.status.code(), text(&output.stderr)), (Some(0), String::new()));
    let told = text(&output.stdout);
    assert_eq!(told.lines().count(), lines.len());
    for (line, told) in lines.iter().zip(told.lines()) {
        assert_eq!(Ok(told), written(line).as_deref().map_err(|_| ()));
    }
}

#[test]
fn several_threads_at_once() {
    assert_faultless_in_threads(|from| {
        try_lists(&mut GuardedWriter::new(JobWriter::Archive, Against::Back), 12, from, 2_000, 8)
    });
}
