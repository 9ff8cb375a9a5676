//! The unsafe code, but for the loops of the benchmark: the declarations of the C functions, calls of them, and memory between
//! inaccessible pages. Nothing checks the declarations against the archive; `include/trench.h` says the same to C.

#![allow(unsafe_code)]

use std::ffi::c_void;

use trench_check::choose::Chooser;
use trench_check::compare::{Asked, Called, Caller};
use trench_check::read_back::{Answered, Asker, Question};
use trench_check::write_job::Writer;

type Plan = unsafe extern "C" fn(*const u8, usize, *mut u8, usize) -> i32;
type PlanIn = unsafe extern "C" fn(*const u8, usize, *mut u32, usize, *mut u8, usize) -> i32;

unsafe extern "C" {
    fn trench_words(job: *const u8, job_len: usize) -> i32;
    fn trench_bytes(job: *const u8, job_len: usize) -> i32;
    fn trench_plan(job: *const u8, job_len: usize, out: *mut u8, out_len: usize) -> i32;
    fn trench_plan_in(
        job: *const u8,
        job_len: usize,
        work: *mut u32,
        work_len: usize,
        out: *mut u8,
        out_len: usize,
    ) -> i32;
    fn trench_plan_place(job: *const u8, job_len: usize) -> usize;
    fn table_plan_in(
        job: *const u8,
        job_len: usize,
        work: *mut u32,
        work_len: usize,
        out: *mut u8,
        out_len: usize,
    ) -> i32;
    fn table_frame(job: *const u8, job_len: usize, group: u32, rounds: u32, out: *mut u8) -> usize;
    fn table_rounds(job: *const u8, job_len: usize, group: u32, rounds: u32, sum: *mut u32) -> u32;
    fn tuned_plan_in(
        job: *const u8,
        job_len: usize,
        work: *mut u32,
        work_len: usize,
        out: *mut u8,
        out_len: usize,
    ) -> i32;
    fn tuned_rounds(job: *const u8, job_len: usize, group: u32, rounds: u32, sum: *mut u32) -> u32;
    fn stray_plan(job: *const u8, job_len: usize, out: *mut u8, out_len: usize) -> i32;
    fn stray_plan_in(
        job: *const u8,
        job_len: usize,
        work: *mut u32,
        work_len: usize,
        out: *mut u8,
        out_len: usize,
    ) -> i32;
    fn stray_ask(job: *const u8, job_len: usize) -> i32;
    fn trench_job(number: u32, runs: *const i32, runs_len: usize, out: *mut u8, out_len: usize) -> i32;
    fn trench_job_place(number: u32, runs: *const i32, runs_len: usize, out: *const u8, out_len: usize) -> usize;
    fn stray_job(number: u32, runs: *const i32, runs_len: usize, out: *mut u8, out_len: usize) -> i32;
    fn stray_job_place(number: u32, runs: *const i32, runs_len: usize, out: *const u8, out_len: usize) -> usize;
    fn trench_read(book: *const u8, book_len: usize) -> i32;
    fn trench_read_place(book: *const u8, book_len: usize) -> usize;
    fn trench_figures(book: *const u8, book_len: usize, figures: *mut u32, figures_len: usize) -> usize;
    fn trench_places(book: *const u8, book_len: usize, places: *mut u32, places_len: usize) -> usize;
    fn trench_route(
        book: *const u8,
        book_len: usize,
        places: *const u32,
        places_len: usize,
        i: usize,
        route: *mut u32,
        route_len: usize,
    ) -> usize;
    fn trench_corner(
        book: *const u8,
        book_len: usize,
        places: *const u32,
        places_len: usize,
        i: usize,
        j: usize,
        corner: *mut i32,
        corner_len: usize,
    ) -> usize;
    fn stray_corner(
        book: *const u8,
        book_len: usize,
        places: *const u32,
        places_len: usize,
        i: usize,
        j: usize,
        corner: *mut i32,
        corner_len: usize,
    ) -> usize;
    fn trench_choose(
        job: *const u8,
        job_len: usize,
        first: *const u8,
        first_len: usize,
        second: *const u8,
        second_len: usize,
    ) -> i32;
    fn trench_choose_place(
        job: *const u8,
        job_len: usize,
        first: *const u8,
        first_len: usize,
        second: *const u8,
        second_len: usize,
    ) -> usize;
    fn stray_choose(
        job: *const u8,
        job_len: usize,
        first: *const u8,
        first_len: usize,
        second: *const u8,
        second_len: usize,
    ) -> i32;
    fn stray_choose_place(
        job: *const u8,
        job_len: usize,
        first: *const u8,
        first_len: usize,
        second: *const u8,
        second_len: usize,
    ) -> usize;
    fn mmap(at: *mut c_void, length: usize, protection: i32, flags: i32, file: i32, offset: i64) -> *mut c_void;
    fn mprotect(at: *mut c_void, length: usize, protection: i32) -> i32;
    fn munmap(at: *mut c_void, length: usize) -> i32;
    fn getrusage(who: i32, usage: *mut [i64; USAGE]) -> i32;
}

/// A planner in C that is lent its work words.
#[derive(Clone, Copy, Debug, PartialEq, Eq)]
pub enum Planner {
    /// The archive's, `trench_plan_in`. It has `trench_plan` beside it, and what is asked of a job alone.
    Archive,
    /// The plain C planner of `bench/`.
    Table,
    /// The tuned C planner.
    Tuned,
    /// `stray_plan_in`, `stray_plan` and `stray_ask`, which do what those of the archive must not.
    Stray,
}

impl Planner {
    fn pointer(self) -> PlanIn {
        match self {
            Planner::Archive => trench_plan_in,
            Planner::Table => table_plan_in,
            Planner::Tuned => tuned_plan_in,
            Planner::Stray => stray_plan_in,
        }
    }

    /// The planner with words of its own, if there is one.
    fn own(self) -> Option<Plan> {
        match self {
            Planner::Archive => Some(trench_plan),
            Planner::Table | Planner::Tuned => None,
            Planner::Stray => Some(stray_plan),
        }
    }
}

/// Plans a job in lent words: the plan's length, or minus the refusal number.
pub fn plan_in(planner: Planner, job: &[u8], work: &mut [u32], out: &mut [u8]) -> i32 {
    assert!(planner != Planner::Stray, "a call from safe code touches nothing but what it is lent");
    let (work_len, out_len) = (work.len(), out.len());
    // SAFETY: the function reads `job.len()` bytes of job and reads and writes the words of work and the bytes of out; the slices
    // are alive and do not overlap, since those that are written are borrowed mutably.
    unsafe { planner.pointer()(job.as_ptr(), job.len(), work.as_mut_ptr(), work_len, out.as_mut_ptr(), out_len) }
}

/// Has the archive plan a job in its own words: the plan's length, or minus the refusal number.
pub fn plan(job: &[u8], out: &mut [u8]) -> i32 {
    // SAFETY: the function reads `job.len()` bytes of job and reads and writes `out.len()` bytes of out; both slices are
    // alive and do not overlap, since one of them is borrowed mutably.
    unsafe { trench_plan(job.as_ptr(), job.len(), out.as_mut_ptr(), out.len()) }
}

/// The archive's plan of a job, in a buffer of just the bytes that it forecasts; or minus the refusal number.
pub fn planned(job: &[u8]) -> Result<Vec<u8>, i32> {
    let length = |answer: i32| usize::try_from(answer).map_err(|_| answer);
    // SAFETY: the function reads `job.len()` bytes of job, which is alive.
    let mut out = vec![0; length(unsafe { trench_bytes(job.as_ptr(), job.len()) })?];
    let plan = length(plan(job, &mut out))?;
    out.truncate(plan);
    Ok(out)
}

/// The archive's place of the refusal of a job.
pub fn plan_place(job: &[u8]) -> usize {
    // SAFETY: the function reads `job.len()` bytes of job, which is alive.
    unsafe { trench_plan_place(job.as_ptr(), job.len()) }
}

/// Has the archive write a job book from a list: the book's length, or minus the refusal number.
pub fn write_job(number: u32, list: &[i32], out: &mut [u8]) -> i32 {
    // SAFETY: the function reads the numbers of the list and reads and writes `out.len()` bytes of out; both slices are alive
    // and do not overlap, since one of them is borrowed mutably.
    unsafe { trench_job(number, list.as_ptr(), list.len(), out.as_mut_ptr(), out.len()) }
}

/// The archive's place of the refusal of the same.
pub fn write_job_place(number: u32, list: &[i32], out: &[u8]) -> usize {
    // SAFETY: the function reads the numbers of the list and `out.len()` bytes of out, and both slices are alive.
    unsafe { trench_job_place(number, list.as_ptr(), list.len(), out.as_ptr(), out.len()) }
}

/// The archive's choice between two plan books of a job: 1 or 2, or minus the refusal number.
pub fn choose(job: &[u8], first: &[u8], second: &[u8]) -> i32 {
    // SAFETY: the function reads the bytes of the three slices, which are alive.
    unsafe { trench_choose(job.as_ptr(), job.len(), first.as_ptr(), first.len(), second.as_ptr(), second.len()) }
}

/// The archive's place of the refusal of the same.
pub fn choose_place(job: &[u8], first: &[u8], second: &[u8]) -> usize {
    // SAFETY: as above.
    unsafe { trench_choose_place(job.as_ptr(), job.len(), first.as_ptr(), first.len(), second.as_ptr(), second.len()) }
}

/// Bytes of a record that the program `table_rounds` reads.
const FRAME: usize = 1546;

/// So many rounds and the frame of the centre of a group, as the program `table_rounds` reads them; none where the job is refused or
/// has no such group. Groups are counted from 0 in the order of their first runs.
pub fn frame_of(job: &[u8], group: usize, rounds: u32) -> Option<[u8; FRAME]> {
    let mut out = [0; FRAME];
    // SAFETY: the function reads `job.len()` bytes of job and writes at most FRAME bytes of out; both are alive and apart.
    let length = unsafe { table_frame(job.as_ptr(), job.len(), group as u32, rounds, out.as_mut_ptr()) };
    (length == FRAME).then_some(out)
}

/// Fills the table of a job's first group and traces the walk in it so many times, by the plain C planner or the tuned one: what is
/// saved, and a sum over the walks.
pub fn rounds_in_c(tuned: bool, job: &[u8], rounds: u32) -> (u32, u32) {
    let mut sum = 0;
    // SAFETY: the functions read `job.len()` bytes of job and write one word; both are alive and apart.
    let saved = unsafe {
        let function = if tuned { tuned_rounds } else { table_rounds };
        function(job.as_ptr(), job.len(), 0, rounds, &mut sum)
    };
    (saved, sum)
}

/// Words of the system's record of what a process used: first the seconds and microseconds of its own code, then the system's.
const USAGE: usize = 18;

/// Whose processor time is asked for.
#[derive(Clone, Copy, Debug, PartialEq, Eq)]
pub enum Whose {
    /// This process's.
    Own = 0,
    /// That of the programs that it ran and that have ended.
    Programs = -1,
}

/// Microseconds of processor time so far. Time in which other processes had the processor does not count.
pub fn processor_time(whose: Whose) -> f64 {
    let mut usage = [0; USAGE];
    // SAFETY: the function writes a record of USAGE words, and they are alive.
    assert_eq!(unsafe { getrusage(whose as i32, &mut usage) }, 0, "no processor time");
    (usage[0] + usage[2]) as f64 * 1e6 + (usage[1] + usage[3]) as f64
}

const PAGE: usize = 4096;
const NO_ACCESS: i32 = 0;
const READ_ONLY: i32 = 1;
const READ_AND_WRITE: i32 = 3;
const PRIVATE_AND_ANONYMOUS: i32 = 0x22;
/// What stands in the part of a room that is not lent.
const CANARY: u8 = 0xA5;
/// The pages of a room for a plan book: the longest takes ten of them.
const BOOK_PAGES: usize = 11;
/// The most pages of a room, which is one for work words: the most that any job needs take all but one of them.
const MOST_PAGES: usize = 17;
/// A room full of it, which is quickly compared.
static CANARIES: [u8; MOST_PAGES * PAGE] = [CANARY; MOST_PAGES * PAGE];

/// Memory of some pages between two that nobody may touch: a read or a write beyond it ends the process.
struct Room {
    base: *mut u8,
    size: usize,
}

impl Room {
    fn new(pages: usize) -> Room {
        let size = pages * PAGE;
        // SAFETY: a fresh mapping of our own; no other memory is touched.
        let base = unsafe {
            let nowhere = std::ptr::null_mut();
            let base = mmap(nowhere, size + 2 * PAGE, NO_ACCESS, PRIVATE_AND_ANONYMOUS, -1, 0);
            assert!(base as isize != -1, "no memory");
            base.cast::<u8>().add(PAGE)
        };
        let mut room = Room { base, size };
        room.protect(READ_AND_WRITE);
        room
    }

    /// Has the memory between the two pages read alone, or read and written again.
    fn protect(&mut self, protection: i32) {
        // SAFETY: the pages are the room's own, and nothing borrows them here.
        assert_eq!(unsafe { mprotect(self.base.cast(), self.size, protection) }, 0, "no access");
    }

    fn bytes(&mut self) -> &mut [u8] {
        // SAFETY: `size` bytes from `base` are mapped, readable and writable while the room lives, and the room owns them.
        unsafe { std::slice::from_raw_parts_mut(self.base, self.size) }
    }

    /// Fills the room with canaries, and gives the offset of so many bytes against one of the inaccessible pages.
    fn clear(&mut self, length: usize, against: Against) -> usize {
        self.bytes().fill(CANARY);
        if against == Against::Back { self.size - length } else { 0 }
    }

    /// Puts bytes against one of the inaccessible pages, canaries elsewhere, and gives the offset of the bytes.
    fn lend(&mut self, bytes: &[u8], against: Against) -> usize {
        let start = self.clear(bytes.len(), against);
        self.bytes()[start..start + bytes.len()].copy_from_slice(bytes);
        start
    }

    /// The same for words.
    fn lend_words(&mut self, words: &[u32], against: Against) -> usize {
        let start = self.clear(4 * words.len(), against);
        self.words(start, words.len()).copy_from_slice(words);
        start
    }

    /// So many words of the lent part.
    fn words(&mut self, start: usize, count: usize) -> &mut [u32] {
        assert!(start % 4 == 0 && start + 4 * count <= self.size, "words of the room");
        // SAFETY: the words are in the room, which owns them, and are aligned, since a page is and `start` is whole words.
        unsafe { std::slice::from_raw_parts_mut(self.base.add(start).cast(), count) }
    }

    /// The number of canaries around the lent part that were changed.
    fn changed_around(&mut self, start: usize, length: usize) -> usize {
        let room = self.bytes();
        let changed = |part: &[u8]| match part == &CANARIES[..part.len()] {
            true => 0,
            false => part.iter().filter(|&&byte| byte != CANARY).count(),
        };
        changed(&room[..start]) + changed(&room[start + length..])
    }
}

impl Drop for Room {
    fn drop(&mut self) {
        // SAFETY: the mapping that `new` made, which nothing refers to any more.
        unsafe { munmap(self.base.sub(PAGE).cast(), self.size + 2 * PAGE) };
    }
}

/// Which of the two inaccessible pages memory is lent against.
#[derive(Clone, Copy, Debug, PartialEq, Eq)]
pub enum Against {
    /// The one before it.
    Front,
    /// The one behind it.
    Back,
}

impl Against {
    fn other(self) -> Against {
        if self == Against::Back { Against::Front } else { Against::Back }
    }
}

/// Calls a planner with job, work words and plan buffer each against an inaccessible page, by turns the one behind and the one before.
/// The rest of their pages holds canaries. The archive's is asked about jobs alone too, and has a writer and a chooser beside it.
pub struct Guarded {
    planner: Planner,
    job: Room,
    work: Room,
    out: Room,
    /// Against which page the next call is made: in lent words, in words of its own, and with a job alone.
    next: [Against; 3],
    writer: Option<GuardedWriter>,
    chooser: Option<GuardedChooser>,
}

impl Guarded {
    /// A caller of this planner; job books of at most 4,096 bytes, at most 17,408 words, plan buffers of at most 45,056 bytes. The
    /// first call of each kind is made against these pages.
    pub fn new(planner: Planner, first: Against) -> Guarded {
        let is_archive = planner == Planner::Archive;
        let writer = is_archive.then(|| GuardedWriter::new(JobWriter::Archive, first));
        let chooser = is_archive.then(|| GuardedChooser::new(BookChooser::Archive, first));
        let (job, work, out) = (Room::new(1), Room::new(MOST_PAGES), Room::new(BOOK_PAGES));
        Guarded { planner, job, work, out, next: [first; 3], writer, chooser }
    }

    /// Against which page this kind of call is made now; the next one against the other.
    fn turn(&mut self, kind: usize) -> Against {
        let against = self.next[kind];
        self.next[kind] = against.other();
        against
    }

    /// What became of a lent job, and of the bytes around it.
    fn strayed(&mut self, job_at: usize, job: &[u8]) -> Option<String> {
        if &self.job.bytes()[job_at..job_at + job.len()] != job {
            return Some("the job was changed".to_string());
        }
        around(self.job.changed_around(job_at, job.len()))
    }

    /// Takes the plan buffer back as it then is, and says in words what was changed besides.
    fn give_back(&mut self, (job_at, out_at): (usize, usize), job: &[u8], out: &mut [u8]) -> Option<String> {
        out.copy_from_slice(&self.out.bytes()[out_at..out_at + out.len()]);
        around(self.out.changed_around(out_at, out.len())).or(self.strayed(job_at, job))
    }
}

/// Says in words how many bytes were changed outside the lent ones, if any were.
fn around(changed: usize) -> Option<String> {
    (changed > 0).then(|| format!("bytes changed outside the lent ones: {changed}"))
}

impl Caller for Guarded {
    fn plan_in(&mut self, job: &[u8], work: &mut [u32], out: &mut [u8]) -> Option<Called> {
        let against = self.turn(0);
        let at = (self.job.lend(job, against), self.out.lend(out, against));
        let work_at = self.work.lend_words(work, against);
        // SAFETY: the three parts lie in rooms that live and do not overlap; the words are aligned, since a page is and they fill
        // whole words at an end of one. A function that strays beyond its parts hits canaries, or a page that it may not touch;
        // then the process ends.
        let answer = unsafe {
            let (job_at, words) = (self.job.base.add(at.0), self.work.base.add(work_at).cast());
            self.planner.pointer()(job_at, job.len(), words, work.len(), self.out.base.add(at.1), out.len())
        };
        let strayed = around(self.work.changed_around(work_at, 4 * work.len()));
        work.copy_from_slice(self.work.words(work_at, work.len()));
        Some(Called { answer, strayed: strayed.or(self.give_back(at, job, out)) })
    }

    fn plan(&mut self, job: &[u8], out: &mut [u8]) -> Option<Called> {
        let function = self.planner.own()?;
        let against = self.turn(1);
        let at = (self.job.lend(job, against), self.out.lend(out, against));
        // SAFETY: as above, with two parts.
        let answer = unsafe { function(self.job.base.add(at.0), job.len(), self.out.base.add(at.1), out.len()) };
        Some(Called { answer, strayed: self.give_back(at, job, out) })
    }

    fn ask(&mut self, asked: Asked, job: &[u8]) -> Option<Answered> {
        if !matches!(self.planner, Planner::Archive | Planner::Stray) {
            return None;
        }
        let against = self.turn(2);
        let job_at = self.job.lend(job, against);
        // SAFETY: as above, with the job alone.
        let answer = unsafe {
            let bytes = self.job.base.cast_const().add(job_at);
            match asked {
                _ if self.planner == Planner::Stray => stray_ask(bytes, job.len()).into(),
                Asked::Words => trench_words(bytes, job.len()).into(),
                Asked::Bytes => trench_bytes(bytes, job.len()).into(),
                Asked::Place => trench_plan_place(bytes, job.len()) as i64,
            }
        };
        Some(Answered { answer, strayed: self.strayed(job_at, job) })
    }

    fn writer(&mut self) -> Option<&mut dyn Writer> {
        self.writer.as_mut().map(|writer| writer as &mut dyn Writer)
    }

    fn chooser(&mut self) -> Option<&mut dyn Chooser> {
        self.chooser.as_mut().map(|chooser| chooser as &mut dyn Chooser)
    }
}

/// The functions that write job books.
#[derive(Clone, Copy, Debug, PartialEq, Eq)]
pub enum JobWriter {
    /// Those of the archive.
    Archive,
    /// `stray_job` and `stray_job_place`, which do what those must not.
    Stray,
}

/// Calls the writer with list and buffer each against an inaccessible page, by turns the one behind and the one before. The
/// rest of their pages holds canaries. While the place is asked for, nobody may write into the buffer.
pub struct GuardedWriter {
    functions: JobWriter,
    list: Room,
    out: Room,
    next: Against,
    next_place: Against,
}

/// The same bits as words.
fn words_of(list: &[i32]) -> Vec<u32> {
    list.iter().map(|&number| number as u32).collect()
}

impl GuardedWriter {
    /// A caller of these functions; lists of at most 1,024 numbers, buffers of at most 4,096 bytes. The first call of each is
    /// made against these pages.
    pub fn new(functions: JobWriter, first: Against) -> GuardedWriter {
        GuardedWriter { functions, list: Room::new(1), out: Room::new(1), next: first, next_place: first }
    }

    /// Lends list and buffer, and gives their offsets.
    fn lend(&mut self, list: &[i32], out: &[u8], against: Against) -> (usize, usize) {
        (self.list.lend_words(&words_of(list), against), self.out.lend(out, against))
    }

    /// Takes both back: the buffer as it then is, and in words what was changed besides.
    fn give_back(&mut self, (list_at, out_at): (usize, usize), list: &[i32], out: &mut [u8]) -> Option<String> {
        out.copy_from_slice(&self.out.bytes()[out_at..out_at + out.len()]);
        if self.list.words(list_at, list.len()) != words_of(list) {
            return Some("the list was changed".to_string());
        }
        around(self.list.changed_around(list_at, 4 * list.len()) + self.out.changed_around(out_at, out.len()))
    }
}

impl Writer for GuardedWriter {
    fn write(&mut self, number: u32, list: &[i32], out: &mut [u8]) -> Called {
        let at = self.lend(list, out, self.next);
        self.next = self.next.other();
        let function = if self.functions == JobWriter::Stray { stray_job } else { trench_job };
        // SAFETY: both parts lie in rooms that live and do not overlap; the list is aligned, since a page is and it fills
        // whole words at an end of one. A function that strays beyond its parts hits canaries, or a page that it may not
        // touch; then the process ends.
        let answer = unsafe {
            let runs = self.list.base.cast_const().add(at.0).cast();
            function(number, runs, list.len(), self.out.base.add(at.1), out.len())
        };
        Called { answer, strayed: self.give_back(at, list, out) }
    }

    fn place(&mut self, number: u32, list: &[i32], out: &mut [u8]) -> Answered {
        let at = self.lend(list, out, self.next_place);
        self.next_place = self.next_place.other();
        let function = if self.functions == JobWriter::Stray { stray_job_place } else { trench_job_place };
        self.out.protect(READ_ONLY);
        // SAFETY: as above; a function that writes into the buffer ends the process too.
        let answer = unsafe {
            let runs = self.list.base.cast_const().add(at.0).cast();
            function(number, runs, list.len(), self.out.base.cast_const().add(at.1), out.len())
        } as i64;
        self.out.protect(READ_AND_WRITE);
        Answered { answer, strayed: self.give_back(at, list, out) }
    }
}

/// The functions that read plan books back.
#[derive(Clone, Copy, Debug, PartialEq, Eq)]
pub enum Reader {
    /// Those of the archive.
    Archive,
    /// Those of the archive, but for `trench_corner`: in its place `stray_corner`, which does what it must not.
    Stray,
}

/// Calls the reader with a book, places and words each against an inaccessible page, by turns the one behind and the one before:
/// the book from lending to lending, places and words from call to call. The rest of their pages holds canaries.
pub struct GuardedReader {
    reader: Reader,
    book: Room,
    places: Room,
    words: Room,
    lent: Vec<u8>,
    book_at: usize,
    next_book: Against,
    next: Against,
}

impl GuardedReader {
    /// A caller of these functions; plan books of at most 45,056 bytes, at most 1,024 places and words. Each kind of memory is
    /// first lent against these pages.
    pub fn new(reader: Reader, first: Against) -> GuardedReader {
        let (book, places, words) = (Room::new(BOOK_PAGES), Room::new(1), Room::new(1));
        GuardedReader { reader, book, places, words, lent: Vec::new(), book_at: 0, next_book: first, next: first }
    }

    /// Calls the function that answers a question, with memory that is lent already.
    fn call(&mut self, question: Question, places_at: usize, words_at: usize, count: usize) -> i64 {
        let (length, strays) = (self.lent.len(), self.reader == Reader::Stray);
        // SAFETY: the three parts lie in rooms that live and do not overlap; words and places are aligned, since a page is and
        // they fill whole words at an end of one. A function that strays beyond its parts hits canaries, or a page that it may
        // not touch; then the process ends.
        unsafe {
            let book = self.book.base.cast_const().add(self.book_at);
            let places = self.places.base.cast_const().add(places_at).cast::<u32>();
            let words = self.words.base.add(words_at).cast::<u32>();
            match question {
                Question::Read => trench_read(book, length).into(),
                Question::ReadPlace => trench_read_place(book, length) as i64,
                Question::Figures => trench_figures(book, length, words, count) as i64,
                Question::Places => trench_places(book, length, words, count) as i64,
                Question::Route(list, i) => trench_route(book, length, places, list.len(), i, words, count) as i64,
                Question::Corner(list, i, j) => {
                    let corner = if strays { stray_corner } else { trench_corner };
                    corner(book, length, places, list.len(), i, j, words.cast(), count) as i64
                }
            }
        }
    }
}

impl Asker for GuardedReader {
    fn lend(&mut self, book: &[u8]) {
        self.lent = book.to_vec();
        self.book_at = self.book.lend(book, self.next_book);
        self.next_book = self.next_book.other();
    }

    fn ask(&mut self, question: Question, words: &mut [u32]) -> Answered {
        let list = match question {
            Question::Route(places, _) | Question::Corner(places, ..) => places,
            _ => &[],
        };
        let places_at = self.places.lend_words(list, self.next);
        let words_at = self.words.lend_words(words, self.next);
        self.next = self.next.other();
        let answer = self.call(question, places_at, words_at, words.len());
        let changed = self.places.changed_around(places_at, 4 * list.len())
            + self.words.changed_around(words_at, 4 * words.len());
        let strayed = match self.places.words(places_at, list.len()) == list {
            true => around(changed),
            false => Some("the places were changed".to_string()),
        };
        words.copy_from_slice(self.words.words(words_at, words.len()));
        Answered { answer, strayed }
    }

    fn give_back(&mut self) -> Option<String> {
        let (at, length) = (self.book_at, self.lent.len());
        if self.book.bytes()[at..at + length] != self.lent[..] {
            return Some("the book was changed".to_string());
        }
        let around = self.book.changed_around(at, length);
        (around > 0).then(|| format!("bytes changed around the book: {around}"))
    }
}

/// The functions that choose between two plan books.
#[derive(Clone, Copy, Debug, PartialEq, Eq)]
pub enum BookChooser {
    /// Those of the archive.
    Archive,
    /// `stray_choose` and `stray_choose_place`, which do what those must not.
    Stray,
}

/// Calls the chooser with job and books each against an inaccessible page, by turns the one behind and the one before. The rest of
/// their pages holds canaries.
pub struct GuardedChooser {
    functions: BookChooser,
    /// Those of the job, the first book and the second.
    rooms: [Room; 3],
    next: Against,
    next_place: Against,
}

/// What is lent, by index.
const LENT: [&str; 3] = ["the job", "the first book", "the second book"];

impl GuardedChooser {
    /// A caller of these functions; job books of at most 4,096 bytes, plan books of at most 45,056. The first call of each is made
    /// against these pages.
    pub fn new(functions: BookChooser, first: Against) -> GuardedChooser {
        let rooms = [Room::new(1), Room::new(BOOK_PAGES), Room::new(BOOK_PAGES)];
        GuardedChooser { functions, rooms, next: first, next_place: first }
    }

    /// Lends all three and gives their offsets.
    fn lend(&mut self, lent: [&[u8]; 3], against: Against) -> [usize; 3] {
        [0, 1, 2].map(|i| self.rooms[i].lend(lent[i], against))
    }

    /// Where the part of this index lies.
    fn part(&self, i: usize, at: [usize; 3]) -> *const u8 {
        // SAFETY: the offset is inside the room.
        unsafe { self.rooms[i].base.cast_const().add(at[i]) }
    }

    /// Says in words what was changed, of what was lent or around it.
    fn give_back(&mut self, at: [usize; 3], lent: [&[u8]; 3]) -> Option<String> {
        let mut outside = 0;
        for (i, room) in self.rooms.iter_mut().enumerate() {
            if room.bytes()[at[i]..at[i] + lent[i].len()] != *lent[i] {
                return Some(format!("{} was changed", LENT[i]));
            }
            outside += room.changed_around(at[i], lent[i].len());
        }
        around(outside)
    }
}

impl Chooser for GuardedChooser {
    fn choose(&mut self, job: &[u8], first: &[u8], second: &[u8]) -> Answered {
        let at = self.lend([job, first, second], self.next);
        self.next = self.next.other();
        let function = if self.functions == BookChooser::Stray { stray_choose } else { trench_choose };
        let [job_at, first_at, second_at] = [0, 1, 2].map(|i| self.part(i, at));
        // SAFETY: the three parts lie in rooms that live and do not overlap. A function that strays beyond its parts hits canaries,
        // or a page that it may not touch; then the process ends.
        let answer = unsafe { function(job_at, job.len(), first_at, first.len(), second_at, second.len()) }.into();
        Answered { answer, strayed: self.give_back(at, [job, first, second]) }
    }

    fn place(&mut self, job: &[u8], first: &[u8], second: &[u8]) -> Answered {
        let at = self.lend([job, first, second], self.next_place);
        self.next_place = self.next_place.other();
        let function = if self.functions == BookChooser::Stray { stray_choose_place } else { trench_choose_place };
        let [job_at, first_at, second_at] = [0, 1, 2].map(|i| self.part(i, at));
        // SAFETY: as above.
        let answer = unsafe { function(job_at, job.len(), first_at, first.len(), second_at, second.len()) } as i64;
        Answered { answer, strayed: self.give_back(at, [job, first, second]) }
    }
}
