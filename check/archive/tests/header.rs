//! `include/trench.h` compiles as C99 and as C++ without a warning, its programs link the archive, and it declares the archive's
//! functions, all of them.

mod common;

use std::collections::BTreeSet;
use std::path::{Path, PathBuf};

use common::{compile, has, root, run, text};

/// Forecasts and plans a job of one run, a blank one and a refused one, writes jobs from lists, reads plans, and chooses between plans,
/// with every name of the header in use.
const PROGRAM: &str = r#"
#include "trench.h"
#include "trench.h"
#include <string.h>

static const uint8_t job[] = { 0x48, 7, 0, 0, 0,
    0x52, 1, 0, 0, 0, 0, 0, 0, 0, 0, 0, 3, 0, 0, 0, 4, 0, 0, 0,
    0x5A, 1, 0 };
static const uint8_t blank[] = { 0x48, 7, 0, 0, 0, 0x5A, 0, 0 };
static uint8_t out[TRENCH_LONGEST_PLAN];
static uint32_t work[TRENCH_MOST_WORDS];

/* The types that callers rely on. */
static int32_t (*const words_for)(const uint8_t *, size_t) = trench_words;
static int32_t (*const bytes_for)(const uint8_t *, size_t) = trench_bytes;
static int32_t (*const plan)(const uint8_t *, size_t, uint8_t *, size_t) = trench_plan;
static int32_t (*const plan_in)(const uint8_t *, size_t, uint32_t *, size_t, uint8_t *, size_t) = trench_plan_in;
static size_t (*const plan_place)(const uint8_t *, size_t) = trench_plan_place;
static int32_t (*const write_job)(uint32_t, const int32_t *, size_t, uint8_t *, size_t) = trench_job;
static size_t (*const job_place)(uint32_t, const int32_t *, size_t, const uint8_t *, size_t) = trench_job_place;
static int32_t (*const read_plan)(const uint8_t *, size_t) = trench_read;
static size_t (*const read_place)(const uint8_t *, size_t) = trench_read_place;
static size_t (*const figures_of)(const uint8_t *, size_t, uint32_t *, size_t) = trench_figures;
static size_t (*const places_of)(const uint8_t *, size_t, uint32_t *, size_t) = trench_places;
static size_t (*const route_of)(const uint8_t *, size_t, const uint32_t *, size_t, size_t, uint32_t *, size_t) = trench_route;
static size_t (*const corner_of)(const uint8_t *, size_t, const uint32_t *, size_t, size_t, size_t, int32_t *, size_t) = trench_corner;

typedef int32_t chooser(const uint8_t *, size_t, const uint8_t *, size_t, const uint8_t *, size_t);
typedef size_t chooser_place(const uint8_t *, size_t, const uint8_t *, size_t, const uint8_t *, size_t);
static chooser *const choose_book = trench_choose;
static chooser_place *const choose_place = trench_choose_place;

/* Whether this answer and place are given for the job of one run and two plans of these lengths. */
static int gives(const uint8_t *first, size_t first_len, const uint8_t *second, size_t second_len, int32_t answer, size_t place)
{
    return choose_book(job, sizeof job, first, first_len, second, second_len) == answer &&
           choose_place(job, sizeof job, first, first_len, second, second_len) == place;
}

/* Chooses between the plan of the run from 0,0 to 3,4 and others; 0, or where it went wrong. */
static int choose_books(void)
{
    uint8_t plan_of[64], other[64];
    int32_t length = plan(job, sizeof job, out, sizeof out);
    if (length != 22 + 9 + 3 * 9)
        return 80;
    size_t book = (size_t)length;
    memcpy(plan_of, out, book), memcpy(other, out, book);
    if (!gives(plan_of, book, plan_of, book, 1, 0) || !gives(plan_of, book, other, book, 1, 0))
        return 81;
    if (!gives(plan_of, book - 1, other, book, -TRENCH_NOT_WHOLE, 1) || !gives(plan_of, book, other, book - 1, -TRENCH_NOT_WHOLE, 2))
        return 82;
    other[7] = 6; /* the trench, which is 7 */
    if (!gives(plan_of, book, other, book, -TRENCH_UNTRUE, 2) || !gives(other, book, plan_of, book, -TRENCH_UNTRUE, 1))
        return 83;
    other[1] = 8; /* the job number */
    if (!gives(plan_of, book, other, book, -TRENCH_OTHER_JOB, 2) || !gives(other, book, plan_of, book, -TRENCH_OTHER_JOB, 1))
        return 84;
    if (choose_book(job, sizeof job - 1, other, book, other, book) != -TRENCH_CUT)
        return 85;
    if (choose_place(job, sizeof job - 1, other, book, other, book) != 24)
        return 86;
    return choose_book(blank, sizeof blank, out, (size_t)plan(blank, sizeof blank, out, sizeof out), out, 22) == 1 ? 0 : 87;
}

/* Reads the plan of a run from 0,0 to -3,4 back, whole and damaged; 0, or where it went wrong. */
static int read_back(void)
{
    static const uint8_t turned[] = { 0x48, 0xFF, 0xFF, 0xFF, 0xFF,
        0x52, 9, 0, 0, 0, 0, 0, 0, 0, 0, 0, 0xFD, 0xFF, 0xFF, 0xFF, 4, 0, 0, 0,
        0x5A, 1, 0 };
    uint32_t figures[TRENCH_FIGURES + 1], places[TRENCH_PLACES + 1], route[TRENCH_ROUTE + 1];
    int32_t corner[TRENCH_CORNER + 1];
    int32_t length = plan(turned, sizeof turned, out, sizeof out);
    if (length != 22 + 9 + 3 * 9)
        return 10;
    size_t book = (size_t)length;
    memset(figures, 1, sizeof figures), memset(places, 1, sizeof places);
    memset(route, 1, sizeof route), memset(corner, 1, sizeof corner);
    if (read_plan(out, book) != 1 || read_place(out, book) != 0)
        return 11;
    if (figures_of(out, book, figures, TRENCH_FIGURES - 1) != 0 || figures[0] != 0x01010101)
        return 12;
    if (figures_of(out, book, figures, TRENCH_FIGURES) != TRENCH_FIGURES)
        return 13;
    if (figures[0] != 0xFFFFFFFF || figures[1] != 1 || figures[2] != 7 || figures[3] != 0 || figures[4] != 3)
        return 14;
    if (figures[5] != 1 || figures[6] != 0x51)
        return 33;
    if (places_of(out, book, places, TRENCH_PLACES - 1) != 0 || places[0] != 0x01010101)
        return 15;
    if (places_of(out, book, places, TRENCH_PLACES) != TRENCH_PLACES || places[0] != 19 || places[1] != 55 || places[2] != 0)
        return 16;
    if (route_of(out, book, places, TRENCH_PLACES, 0, route, TRENCH_ROUTE - 1) != 0 || route[0] != 0x01010101)
        return 17;
    if (route_of(out, book, places, TRENCH_PLACES, 1, route, TRENCH_ROUTE) != 0 || route[0] != 0x01010101)
        return 18;
    if (route_of(out, book, places, TRENCH_PLACES, 0, route, TRENCH_ROUTE) != TRENCH_ROUTE)
        return 19;
    if (route[0] != 9 || route[1] != 0 || route[2] != 3 || route[3] != 9)
        return 20;
    if (corner_of(out, book, places, TRENCH_PLACES, 0, 2, corner, TRENCH_CORNER - 1) != 0 || corner[0] != 0x01010101)
        return 21;
    if (corner_of(out, book, places, TRENCH_PLACES, 0, 3, corner, TRENCH_CORNER) != 0 || corner[0] != 0x01010101)
        return 22;
    if (corner_of(out, book, places, TRENCH_PLACES, 0, 2, corner, TRENCH_CORNER) != TRENCH_CORNER)
        return 23;
    if (corner[0] != -3 || corner[1] != 4)
        return 24;
    if (figures[TRENCH_FIGURES] != 0x01010101 || places[TRENCH_PLACES] != 0x01010101 || route[TRENCH_ROUTE] != 0x01010101)
        return 25;
    if (corner[TRENCH_CORNER] != 0x01010101 || TRENCH_FIGURES != 7 || TRENCH_PLACES != 33 || TRENCH_ROUTE != 4)
        return 26;
    if (read_plan(out, book - 1) != -TRENCH_NOT_WHOLE || read_place(out, book - 1) != 55)
        return 27;
    out[54] = 1; /* the last corner's y is 16,777,220 */
    if (read_plan(out, book) != -TRENCH_COORDINATE || read_place(out, book) != 46)
        return 28;
    memcpy(out + 46, out + 37, 9);
    if (read_plan(out, book) != -TRENCH_NO_TURN || read_place(out, book) != 46)
        return 29;
    plan(turned, sizeof turned, out, sizeof out);
    out[56] = 4;
    if (read_plan(out, book) != -TRENCH_MISCOUNTED || read_place(out, book) != 55)
        return 30;
    if (figures_of(out, book, figures, TRENCH_FIGURES) != 0 || places_of(out, book, places, TRENCH_PLACES) != TRENCH_PLACES)
        return 31;
    return places[0] == 0 && route_of(out, book, places, TRENCH_PLACES, 0, route, TRENCH_ROUTE) == 0 ? 0 : 32;
}

/* Reads a plan of the older kinds, and refuses one with routes of the other set; 0, or where it went wrong. */
static int read_older(void)
{
    static const uint8_t older[] = { 0x50, 7, 0, 0, 0, 1, 0, 7, 0, 0, 0, 0, 0, 0, 0, 2, 0, 9, 0,
        0x4E, 9, 0, 0, 0, 1, 0, 0x43, 3, 0, 0, 0, 4, 0, 0, 0, 0x5A, 1, 0 };
    uint8_t book[sizeof older];
    uint32_t figures[TRENCH_FIGURES], places[TRENCH_PLACES], route[TRENCH_ROUTE];
    int32_t corner[TRENCH_CORNER];
    memcpy(book, older, sizeof book);
    if (read_plan(book, sizeof book) != 1 || figures_of(book, sizeof book, figures, TRENCH_FIGURES) != TRENCH_FIGURES)
        return 70;
    if (figures[0] != 7 || figures[2] != 7 || figures[4] != 2 || figures[5] != 9 || figures[6] != 0x50)
        return 71;
    if (places_of(book, sizeof book, places, TRENCH_PLACES) != TRENCH_PLACES || places[0] != 19 || places[1] != 35)
        return 72;
    if (route_of(book, sizeof book, places, TRENCH_PLACES, 0, route, TRENCH_ROUTE) != TRENCH_ROUTE)
        return 73;
    if (route[0] != 9 || route[1] != 0 || route[2] != 1 || route[3] != 0)
        return 74;
    if (corner_of(book, sizeof book, places, TRENCH_PLACES, 0, 0, corner, TRENCH_CORNER) != TRENCH_CORNER || corner[1] != 4)
        return 75;
    book[0] = 0x51;
    if (read_plan(book, sizeof book) != -TRENCH_NOT_WHOLE || read_place(book, sizeof book) != 19)
        return 76;
    book[0] = 0x50, book[19] = 0x4F;
    return read_plan(book, sizeof book) == -TRENCH_NOT_WHOLE && read_place(book, sizeof book) == 19 ? 0 : 77;
}

/* Writes the job of two runs and a blank one from lists, and has lists refused with every number; 0, or where it went wrong. */
static int write_jobs(void)
{
    static const int32_t runs[2 * TRENCH_RUN] = { 1, 0, 0, 3, 4, 9999, -1, -1000000, 1000000, 0 };
    static const uint8_t written[] = { 0x48, 0xFE, 0xFF, 0xFF, 0xFF,
        0x52, 1, 0, 0, 0, 0, 0, 0, 0, 0, 0, 3, 0, 0, 0, 4, 0, 0, 0,
        0x52, 0x0F, 0x27, 0xFF, 0xFF, 0xFF, 0xFF, 0xC0, 0xBD, 0xF0, 0xFF, 0x40, 0x42, 0x0F, 0, 0, 0, 0, 0,
        0x5A, 2, 0 };
    static int32_t many[33 * TRENCH_RUN];
    uint8_t book[TRENCH_LONGEST_JOB];
    int32_t wrong[2 * TRENCH_RUN];
    memset(book, 0x77, sizeof book);
    if (write_job(0xFFFFFFFE, runs, 10, book, 46) != 46 || memcmp(book, written, 46) != 0 || book[46] != 0x77)
        return 40;
    if (job_place(0xFFFFFFFE, runs, 10, book, 46) != 0)
        return 41;
    memset(book, 0x77, sizeof book);
    if (write_job(7, runs, 10, book, 45) != -TRENCH_SHORT_BUFFER || job_place(7, runs, 10, book, 45) != 0 || book[0] != 0x77)
        return 42;
    if (write_job(7, runs, 9, book, sizeof book) != -TRENCH_CUT || job_place(7, runs, 9, book, sizeof book) != 9)
        return 43;
    memcpy(wrong, runs, sizeof wrong);
    wrong[5] = 1;
    if (write_job(7, wrong, 10, book, 0) != -TRENCH_RUN_NUMBER || job_place(7, wrong, 10, book, 0) != 1)
        return 44;
    wrong[5] = 2, wrong[9] = -1000001;
    if (write_job(7, wrong, 10, book, sizeof book) != -TRENCH_COORDINATE || job_place(7, wrong, 10, book, sizeof book) != 1)
        return 45;
    memcpy(wrong + 8, wrong + 6, 2 * sizeof *wrong);
    if (write_job(7, wrong, 10, book, sizeof book) != -TRENCH_COINCIDENT || job_place(7, wrong, 10, book, sizeof book) != 1)
        return 51;
    for (int32_t i = 0; i < 33; i++)
        many[TRENCH_RUN * i] = many[TRENCH_RUN * i + 3] = i + 1;
    if (write_job(7, many, 165, book, sizeof book) != -TRENCH_TOO_MANY_RUNS || job_place(7, many, 165, book, sizeof book) != 32)
        return 46;
    if (book[0] != 0x77 || book[TRENCH_LONGEST_JOB - 1] != 0x77)
        return 47;
    if (write_job(7, many, 160, book, sizeof book) != TRENCH_LONGEST_JOB || book[TRENCH_LONGEST_JOB - 2] != TRENCH_MOST_RUNS)
        return 48;
    if (write_job(7, runs, 5, book, sizeof book) != sizeof job || memcmp(book, job, sizeof job) != 0)
        return 49;
    return write_job(7, runs, 0, book, 8) == 8 && memcmp(book, blank, 8) == 0 ? 0 : 50;
}

/* The places of a job's refusals; 0, or where it went wrong. */
static int ask_places(void)
{
    uint8_t wrong[sizeof job + 1] = { 0 };
    memcpy(wrong, job, sizeof job);
    if (plan_place(job, sizeof job) != 0 || plan_place(blank, sizeof blank) != 0)
        return 60;
    if (plan_place(job, sizeof job - 1) != 24 || plan_place(job, 24) != 24)
        return 61;
    if (plan_place(wrong, sizeof wrong) != sizeof job)
        return 62;
    wrong[6] = 0;
    if (plan_place(wrong, sizeof wrong) != 5)
        return 63;
    memcpy(wrong, job, sizeof job);
    memset(wrong + 16, 0, 8); /* the run goes from 0,0 to 0,0 */
    if (plan(wrong, sizeof job, out, sizeof out) != -TRENCH_COINCIDENT || plan_place(wrong, sizeof job) != 5)
        return 64;
    wrong[20] = 1; /* and now to 0,1 */
    return plan(wrong, sizeof job, out, sizeof out) == 22 + 9 + 2 * 9 ? 0 : 65;
}

/* Whether the job of one run, lent so many words and bytes, gets this answer, and all that is left is as it should be. */
static int lent(size_t words, size_t bytes, int32_t answer)
{
    size_t cleared = answer < 0 ? 0 : 16, written = answer < 0 ? 0 : (size_t)answer;
    memset(work, 0x77, sizeof work), memset(out, 0x77, sizeof out);
    if (plan_in(job, sizeof job, work, words, out, bytes) != answer)
        return 0;
    for (size_t i = 0; i < TRENCH_MOST_WORDS; i++)
        if (work[i] != (i < cleared ? 0 : 0x77777777))
            return 0;
    return out[written] == 0x77 && (answer < 0 || out[0] == 0x51);
}

/* Forecasts, and plans in lent words; 0, or where it went wrong. */
static int forecast(void)
{
    if (words_for(job, sizeof job) != 16 || bytes_for(job, sizeof job) != 22 + 9 + 3 * 9)
        return 100;
    if (words_for(blank, sizeof blank) != 0 || bytes_for(blank, sizeof blank) != 22)
        return 101;
    if (words_for(job, 26) != -TRENCH_CUT || bytes_for(job, 26) != -TRENCH_CUT)
        return 102;
    if (!lent(16, 58, 58) || !lent(TRENCH_MOST_WORDS, TRENCH_LONGEST_PLAN, 58))
        return 103;
    if (!lent(15, 58, -TRENCH_SHORT_WORK) || !lent(15, 57, -TRENCH_SHORT_WORK) || !lent(0, 0, -TRENCH_SHORT_WORK))
        return 104;
    if (!lent(16, 57, -TRENCH_SHORT_BUFFER) || !lent(17, 0, -TRENCH_SHORT_BUFFER))
        return 105;
    if (plan_in(job, sizeof job - 1, work, 0, out, 0) != -TRENCH_CUT)
        return 106;
    if (plan(job, sizeof job, out, 57) != -TRENCH_SHORT_BUFFER || plan(job, sizeof job, out, 58) != 58)
        return 107;
    if (plan_in(blank, sizeof blank, work, 0, out, 22) != 22 || plan_in(blank, sizeof blank, work, 0, out, 21) != -2)
        return 108;
    return TRENCH_MOST_WORDS == 16384 ? 0 : 109;
}

int main(void)
{
    int32_t length = trench_plan(job, sizeof job, out, sizeof out);
    if (length <= 0 || length > TRENCH_LONGEST_PLAN || sizeof job > TRENCH_LONGEST_JOB)
        return 1;
    if (out[0] != 0x51 || out[7] != 7 || TRENCH_LONGEST_PLAN != 36886)
        return 2;
    if (trench_plan(job, sizeof job - 1, out, sizeof out) != -TRENCH_CUT)
        return 4;
    static const int numbers[] = { TRENCH_SHORT_WORK, TRENCH_SHORT_BUFFER, TRENCH_CUT, TRENCH_UNKNOWN_KIND, TRENCH_OUT_OF_PLACE,
        TRENCH_WRONG_COUNT, TRENCH_RUN_NUMBER, TRENCH_COORDINATE, TRENCH_TOO_MANY_RUNS };
    for (int i = 0; i < 9; i++)
        if (numbers[i] != i + 1)
            return 5;
    if (trench_plan(blank, sizeof blank, out, sizeof out) != 22 || out[5] != 0 || out[17] != 0 || out[19] != 0x5A)
        return 6;
    if (TRENCH_NO_STAR != 11 || TRENCH_NOT_WHOLE != 12 || TRENCH_NO_TURN != 13 || TRENCH_MISCOUNTED != 14)
        return 7;
    if (TRENCH_OTHER_JOB != 15 || TRENCH_UNTRUE != 16 || TRENCH_COINCIDENT != 17)
        return 9;
    if (TRENCH_MOST_RUNS != 32 || TRENCH_MOST_CORNERS != 127 || TRENCH_STACK < 65536)
        return 8;
    int wrong = write_jobs();
    if (wrong == 0)
        wrong = ask_places();
    if (wrong == 0)
        wrong = read_older();
    if (wrong == 0)
        wrong = choose_books();
    if (wrong == 0)
        wrong = forecast();
    return wrong ? wrong : read_back();
}
"#;

fn source(ending: &str) -> PathBuf {
    let path = Path::new(env!("CARGO_TARGET_TMPDIR")).join(format!("header.{ending}"));
    std::fs::write(&path, PROGRAM).expect("a source is written");
    path
}

#[test]
fn as_c99_and_as_cpp() {
    let compilers = [
        (&["cc", "-std=c99"], "c"),
        (&["c++", "-std=c++11"], "cc"),
        (&["clang", "-std=c99"], "c"),
        (&["clang++", "-std=c++20"], "cc"),
    ];
    for (compiler, ending) in compilers {
        if compiler[0].starts_with("clang") && !has(compiler[0]) {
            continue;
        }
        let program = compile(&compiler[..], &[source(ending)], &format!("header-{}", compiler[0]));
        assert_eq!(run(&program, &[], &[]).status.code(), Some(0), "{compiler:?}");
    }
}

/// The names at the front of these lines, behind a word, that belong to the product.
fn names<'a>(lines: impl Iterator<Item = &'a str>) -> BTreeSet<String> {
    let names = lines.filter_map(|line| line.split([' ', '(']).find(|word| word.starts_with("trench_")));
    names.map(str::to_string).collect()
}

#[test]
fn every_function_of_the_archive_is_declared() {
    let header = std::fs::read_to_string(root().join("include/trench.h")).expect("the header");
    let declared = names(header.lines().filter(|line| line.starts_with("int32_t ") || line.starts_with("size_t ")));
    let listed = run(Path::new("nm"), &["--extern-only", "--defined-only", env!("TRENCH_ARCHIVE_COPY")], &[]);
    let listed = text(&listed.stdout);
    assert_eq!(names(listed.lines().filter(|line| line.contains(" T "))), declared);
    assert_eq!(declared.len(), 15);
}
