//! The caller of the reader between inaccessible pages notices every access outside the lent memory, and the archive makes none.

mod common;

use common::{assert_ends_the_process, assert_faultless_in_threads};
use trench_archive::call::{Against, GuardedReader, Reader};
use trench_check::read_back::{Asker, Question, try_books};

/// The deeds of `stray_corner`, by number.
mod deed {
    pub const WRITE_BEFORE_CORNER: usize = 0;
    pub const WRITE_BEHIND_CORNER: usize = 1;
    pub const WRITE_BOOK: usize = 2;
    pub const WRITE_PLACES: usize = 3;
    pub const READ_BEFORE_BOOK: usize = 4;
    pub const READ_BEHIND_BOOK: usize = 5;
    pub const READ_BEFORE_PLACES: usize = 6;
    pub const READ_BEHIND_PLACES: usize = 7;
    pub const WRITE_BEFORE_BOOK: usize = 8;
}

/// What is told of a deed: with the call, and when the book is given back.
fn told(deed: usize, against: Against) -> (Option<String>, Option<String>) {
    let mut asker = GuardedReader::new(Reader::Stray, against);
    asker.lend(&[1, 2, 3]);
    let mut words = [7; 2];
    let answered = asker.ask(Question::Corner(&[4, 5, 6], deed, 0), &mut words);
    assert_eq!((answered.answer, words), (0, [7; 2]));
    (answered.strayed, asker.give_back())
}

#[test]
fn changed_bytes_are_noticed() {
    let words = |text: &str| Some(text.to_string());
    let around = words("bytes changed outside the lent ones: 1");
    assert_eq!(told(deed::WRITE_BEFORE_CORNER, Against::Back), (around.clone(), None));
    assert_eq!(told(deed::WRITE_BEHIND_CORNER, Against::Front), (around, None));
    assert_eq!(told(deed::WRITE_PLACES, Against::Back), (words("the places were changed"), None));
    assert_eq!(told(deed::WRITE_BOOK, Against::Front), (None, words("the book was changed")));
    assert_eq!(told(deed::WRITE_BEFORE_BOOK, Against::Back), (None, words("bytes changed around the book: 1")));
    assert_eq!(told(deed::READ_BEFORE_BOOK, Against::Back), (None, None), "a read inside the page goes unnoticed");
}

/// Run by `accesses_of_the_pages_end_the_process` in a process of their own.
mod ending {
    use super::*;

    #[test]
    #[ignore = "ends the process"]
    fn write_before_corner() {
        told(deed::WRITE_BEFORE_CORNER, Against::Front);
    }

    #[test]
    #[ignore = "ends the process"]
    fn write_behind_corner() {
        told(deed::WRITE_BEHIND_CORNER, Against::Back);
    }

    #[test]
    #[ignore = "ends the process"]
    fn read_before_book() {
        told(deed::READ_BEFORE_BOOK, Against::Front);
    }

    #[test]
    #[ignore = "ends the process"]
    fn read_behind_book() {
        told(deed::READ_BEHIND_BOOK, Against::Back);
    }

    #[test]
    #[ignore = "ends the process"]
    fn read_before_places() {
        told(deed::READ_BEFORE_PLACES, Against::Front);
    }

    #[test]
    #[ignore = "ends the process"]
    fn read_behind_places() {
        told(deed::READ_BEHIND_PLACES, Against::Back);
    }
}

#[test]
fn accesses_of_the_pages_end_the_process() {
    let writes = ["write_before_corner", "write_behind_corner"];
    let reads = ["read_before_book", "read_behind_book", "read_before_places", "read_behind_places"];
    for name in writes.iter().chain(&reads) {
        assert_ends_the_process(&format!("ending::{name}"));
    }
}

#[test]
fn several_threads_at_once() {
    assert_faultless_in_threads(|from| {
        try_books(&mut GuardedReader::new(Reader::Archive, Against::Back), 12, from, 800, 8)
    });
}
