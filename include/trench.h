/* The trench planner for C, the forecast of what it is to be lent, the writer of its jobs, the reader of its plans, and the choice
 * between two of them. Link crates/trench/out/libtrench.a, which `rt lib` writes in crates/trench.
 *
 * Lengths and coordinates are in decimetres. Fields of both books are little-endian and not aligned; coordinates are 32-bit
 * two's complement. Each record is one byte of kind, then a body:
 *
 *   job book    0x48 head     job number (4)
 *               0x52 run      run number (2), first x, first y, second x, second y (4 each); the two points differ
 *               0x5A end      number of runs (2), from 0 to 32
 *
 *   plan book   0x51 head     job number (4), runs (2), trench (4), saved (4), pits (2), groups (2)
 *               0x4F route    run number, meets, corners, the run number of the group's centre (2 each); one a run, in job order,
 *                             each followed by its corners
 *               0x43 corner   x, y (4 each); from the run's first point to its second, at least these two
 *               0x5A end      total of corners (2)
 *
 * Two runs are in one group when a chain of meetings joins them; the centre of a group meets every other run of it, and no two
 * others meet. Plans written before there were groups have an older head and older routes. They are read, and never written; no
 * book has both:
 *
 *               0x50 head     job number (4), runs (2), trench (4), saved (4), pits (2), centre's run number (2), 0 with no runs
 *               0x4E route    run number, meets, corners (2 each)
 *
 * Pits are the distinct points at which a route ends or turns, or which one route passes along its row and another along its
 * column. Plans written before crossings counted carry the number of ends and turns alone.
 *
 * A function that can refuse gives a number from 0 up, or minus the refusal number; its twin, of the same name with _place, gives
 * the place of that refusal, 0 where there is none. trench_words, trench_bytes, trench_plan and trench_plan_in share one,
 * trench_plan_place. */
#ifndef TRENCH_H
#define TRENCH_H

#include <stddef.h>
#include <stdint.h>

#ifdef __cplusplus
extern "C" {
#endif

/* No forecast has more work words than this. */
#define TRENCH_MOST_WORDS 16384

/* No forecast has more bytes than this, so no plan is longer; nor is any plan book that is read. */
#define TRENCH_LONGEST_PLAN 36886

/* No job that is accepted is longer than this, in bytes; so it is room for every job that trench_job writes. */
#define TRENCH_LONGEST_JOB 616

/* The most runs of a job, and routes of a plan. */
#define TRENCH_MOST_RUNS 32

/* The most corners of a route. */
#define TRENCH_MOST_CORNERS 127

/* The numbers of a run in the list that trench_job is lent. */
#define TRENCH_RUN 5

/* The words that trench_figures, trench_places, trench_route and trench_corner write. */
#define TRENCH_FIGURES 7
#define TRENCH_PLACES 33
#define TRENCH_ROUTE 4
#define TRENCH_CORNER 2

/* A call of any function needs no more stack than this, in bytes; most of it are the work words of trench_plan, and the
 * other functions need far less. This figure is measured by the tests and not proved. */
#define TRENCH_STACK 131072

/* The refusals, of jobs by trench_words, trench_bytes, trench_plan and trench_plan_in, of lists of runs by trench_job, of plan
 * books by trench_read, and of a job and two plan books by trench_choose. Where several apply, the answer is the first:
 *
 *   job         the records front to back, and within a record 4, 3, 5, 9, 7, 8, 17, 6; then 1; then 2; last 11. A job is well
 *               formed where none of 3 to 9 and 17 applies: then the forecast tells none. No call answers -10: a job without runs
 *               is planned.
 *   list        3; 9; then the runs front to back, and within a run 7, 8, 17; last 2.
 *   plan book   the records front to back, and within a record 12, 8, 13; 14 only where nothing else is wrong, in the book's
 *               order: the head's runs, each route's corners, the end's total. Never 17: a stored route may have one corner.
 *   choice      the job's 3 to 9, 17 and 11 in the order above; then the first book's, as of a plan book, then 15, then 16; then
 *               the second's likewise.
 *
 * The place of a job's and of a plan book's refusal is that of the kind byte of the record at fault, from 0. With 3 and 12 it is
 * the length where the bytes end behind a record that is no end; with 5 and 12 it is the byte after the end record where there is
 * one; with 1, 2 and 11 it is 0. The place of a list's refusal is the index of the run at fault, from 0; with 3 it is the list's
 * length, with 9 it is 32, with 2 it is 0. In a choice the job's refusals have the job's places, and a book's has the book: 1 for
 * the first, 2 for the second. */
enum trench_refusal {
    TRENCH_SHORT_WORK = 1,     /* work words fewer than the forecast: told by trench_plan_in alone */
    TRENCH_SHORT_BUFFER = 2,   /* plan buffer shorter than the forecast; job buffer shorter than 8 bytes plus 19 a run */
    TRENCH_CUT = 3,            /* the bytes end inside a record, or before an end record; a list of no whole number of runs */
    TRENCH_UNKNOWN_KIND = 4,   /* unknown kind of record */
    TRENCH_OUT_OF_PLACE = 5,   /* first record no head, a second head, or a byte after the end record */
    TRENCH_WRONG_COUNT = 6,    /* the end's count differs from the runs read */
    TRENCH_RUN_NUMBER = 7,     /* run number 0 or below, above 9,999 or not above the one before */
    TRENCH_COORDINATE = 8,     /* coordinate of a run's point, or of a plan's corner, outside -1,000,000 to 1,000,000 */
    TRENCH_TOO_MANY_RUNS = 9,  /* a 33rd run */
    TRENCH_NO_STAR = 11,       /* well formed, but some group is no star: no run of it meets every other while no two others
                                * meet */
    TRENCH_NOT_WHOLE = 12,     /* no whole records in the order head, routes with their corners, end: a record cut short, of
                                * unknown kind or out of this order, no end, a byte after it, a 33rd route, a 128th corner, a
                                * route of the older kind behind a head of the newer, or the other way round */
    TRENCH_NO_TURN = 13,       /* a corner equal to the one before it in its route, or sharing neither its x nor its y, or on
                                * one row or one column with both of the two before it */
    TRENCH_MISCOUNTED = 14,    /* a head's runs, a route's corners or an end's total that differs from what it counts, or a
                                * route with no corner */
    TRENCH_OTHER_JOB = 15,     /* a book of another job: its job number, its number of runs or its run numbers in order are not
                                * the job's */
    TRENCH_UNTRUE = 16,        /* a book of the older kinds, or not true for the job: a route that is no Manhattan path of its run
                                * on the job's grid, trench, saved or pits that are not those of its routes, or meets, groups
                                * or centres that are not those of the job */
    TRENCH_COINCIDENT = 17     /* a run whose two points coincide */
};

/* ---- the forecast ----
 *
 * What the planner is to be lent, told from the job alone without planning it. Columns are the distinct x of the job's points, rows
 * the distinct y; both together are its lines.
 *
 *   words    4 times columns times rows
 *   bytes    22, and for each run 9 plus 9 times one less than the lines that touch its box
 *
 * A job without runs has 0 words and 22 bytes. Lent the forecast or more, the planner never tells 1 or 2; lent less, it tells one
 * of them for every well-formed job. A plan is never longer than the forecast's bytes, and may be shorter.
 *
 *     int32_t bytes = trench_bytes(job, job_len);
 *     uint8_t *out = bytes < 0 ? NULL : malloc((size_t)bytes);
 *     if (out)
 *         length = trench_plan(job, job_len, out, (size_t)bytes);
 *
 * Both functions are lent the job alone, under the conditions of trench_plan, and refuse one that is not well formed, with the
 * planner's number; never with 1, 2 or 11. */

/* The number of work words, from 0 to 16,384, or minus the refusal number, below 0. */
int32_t trench_words(const uint8_t *job, size_t job_len);

/* The number of bytes of the plan buffer, from 22 to 36,886, or minus the refusal number, below 0. */
int32_t trench_bytes(const uint8_t *job, size_t job_len);

/* ---- the planner ---- */

/* Plans a job, with work words of its own.
 *
 * Gives the plan's length in bytes, above 0, or minus the refusal number, below 0. It never tells 1, and 2 where `out_len` is below
 * the forecast's bytes.
 *
 * Accepted: the plan book fills the first bytes of `out`, as many as the answer says; no later byte is changed. Every route
 * runs from its run's first point to its second along survey lines and is as long as their Manhattan distance; `trench` is
 * the length of the routes' union, and no routes for these runs on the survey lines have a shorter one, all groups together;
 * nor have any paths of whole decimetres off the survey lines that are as long as their runs' Manhattan distances.
 * The two points of a run differ, so every route has two corners or more.
 * A job without runs has no group, and a plan of 22 bytes: a head whose figures are all 0, no route, and an end.
 * Refused: no byte of `out` is changed. The bytes of `job` are never changed.
 *
 * What the caller owes: `job` points to `job_len` bytes and `out` to `out_len` bytes; neither is null, even where its length
 * is 0; the two do not overlap; and `out` is used by nobody else during the call. There is no other condition: any bytes may
 * be given as a job, and any length of either.
 *
 * Both buffers stay the caller's. The function keeps no pointer and no state, allocates nothing, does no input or output, and
 * always returns. It may be called from several threads at once, each with its own plan buffer.
 */
int32_t trench_plan(const uint8_t *job, size_t job_len, uint8_t *out, size_t out_len);

/* Plans a job in work words that are lent: as trench_plan, and besides it tells 1 where `work_len` is below the forecast's words.
 *
 * Accepted: the first words of `work`, as many as the forecast says, are 0; no later word is changed. What the words hold at entry
 * does not matter.
 * Refused: no word of `work` and no byte of `out` is changed.
 *
 * What the caller owes besides: `work` points to `work_len` words, aligned as the machine wants them; it is not null, even where
 * its length is 0; it overlaps neither `job` nor `out`, and is used by nobody else during the call. */
int32_t trench_plan_in(const uint8_t *job, size_t job_len, uint32_t *work, size_t work_len, uint8_t *out, size_t out_len);

/* The place of the refusal that trench_words, trench_bytes, trench_plan and trench_plan_in tell for this job; 0 where it is 1, 2 or
 * 11, and where they tell none. It is lent the job alone, under the conditions of trench_plan, and plans nothing. */
size_t trench_plan_place(const uint8_t *job, size_t job_len);

/* ---- jobs from runs ---- */

/* Writes the job book of a job number and of runs that are lent as a list of numbers, five a run: run number, first x, first y,
 * second x, second y.
 *
 * Gives the book's length in bytes, 8 plus 19 a run, or minus the refusal number, below 0.
 *
 * Accepted: the job book fills the first bytes of `out`, as many as the answer says; no later byte is changed. Read back, it has
 * the job number and the runs that were lent, so trench_plan, lent the forecast, refuses it with 11 or not at all; and every
 * well-formed job, stars or not, is what this function writes for its number and runs. An empty list is a job without runs, of 8
 * bytes.
 * Refused: no byte of `out` is changed. The numbers of `runs` are never changed.
 *
 *     const int32_t runs[] = {1, 0, 0, 40, 30, 2, 0, 10, 40, 10};
 *     uint8_t job[TRENCH_LONGEST_JOB];
 *     int32_t length = trench_job(7, runs, sizeof runs / sizeof *runs, job, sizeof job);
 *
 * What the caller owes: `runs` points to `runs_len` numbers, aligned as the machine wants them, and `out` to `out_len` bytes;
 * neither is null, even where its length is 0; the two do not overlap; and `out` is used by nobody else during the call. There is
 * no other condition: any numbers may be given, and any length of either. For the rest it is as with trench_plan. */
int32_t trench_job(uint32_t number, const int32_t *runs, size_t runs_len, uint8_t *out, size_t out_len);

/* The place of the refusal that trench_job tells for the same arguments; 0 where it tells none. Nothing is written. */
size_t trench_job_place(uint32_t number, const int32_t *runs, size_t runs_len, const uint8_t *out, size_t out_len);

/* ---- stored plans ----
 *
 * The functions below read a plan book. Each is lent the book alone, and some a few words for its answer. Every plan that
 * trench_plan wrote is read. Whose job it is, the store knows: trench, saved, pits, groups, run numbers, meets and centres are
 * given as they stand, and only trench_choose judges them. A route of a stored plan may have one corner: earlier planners wrote
 * that for a run whose two points coincide, which is refused today. Routes and corners are counted from 0.
 *
 *     uint32_t places[TRENCH_PLACES], route[TRENCH_ROUTE];
 *     int32_t corner[TRENCH_CORNER];
 *     trench_places(book, book_len, places, TRENCH_PLACES);
 *     for (size_t i = 0; trench_route(book, book_len, places, TRENCH_PLACES, i, route, TRENCH_ROUTE); i++)
 *         for (size_t j = 0; trench_corner(book, book_len, places, TRENCH_PLACES, i, j, corner, TRENCH_CORNER); j++)
 *             use(route[0], corner[0], corner[1]);
 *
 * What the caller owes: a pointer points to as many bytes or words as its length says, words are aligned as the machine wants
 * them, and no pointer is null, even where its length is 0; the words that are written overlap nothing else that is lent, and
 * are used by nobody else during the call. There is no other condition: any bytes may be given as a book, any words as
 * places, any length and any index.
 *
 * Words behind those that an answer counts are never changed, nor is any byte of the book or any of the places handed in. All
 * that is lent stays the caller's. The functions keep no pointer and no state, allocate nothing, do no input or output, and
 * always return. They may be called from several threads at once, for the same book too, each with words of its own. */

/* Reads a plan book whole. Gives its number of routes, from 0 to 32, or minus the refusal number, below 0. */
int32_t trench_read(const uint8_t *book, size_t book_len);

/* The place of the refusal that trench_read tells; 0 where it tells none. */
size_t trench_read_place(const uint8_t *book, size_t book_len);

/* The figures of a plan's head: job number, runs, trench, saved, pits, groups, and last the head's kind, 0x51; of an older book
 * the centre's run number in place of groups, and 0x50. Writes them as 7 words and gives 7. A book that is refused, and fewer
 * than 7 words, give 0, and nothing is written. */
size_t trench_figures(const uint8_t *book, size_t book_len, uint32_t *figures, size_t figures_len);

/* Where the routes stand in a book: the place of each route's record in order, then that of the end record, then 0 for the
 * rest. Writes 33 words and gives 33; all of them are 0 for a book that is refused. Fewer than 33 words give 0, and nothing is
 * written. The book is read whole, once; with its places in hand the two functions below need not read it again. */
size_t trench_places(const uint8_t *book, size_t book_len, uint32_t *places, size_t places_len);

/* Route `i` of a plan, with the places that trench_places gave for the same book: run number, meets, number of corners, and the
 * run number of the group's centre, 0 in an older book. Writes them as 4 words and gives 4. An index past the last route, a book
 * that was refused, and fewer than 4 words give 0, and nothing is written.
 * Other places are no fault: where place i is below place i + 1, a place past the last being 0, and a whole route record of
 * either kind stands there in the book, its fields are given; else the answer is 0. */
size_t trench_route(const uint8_t *book, size_t book_len, const uint32_t *places, size_t places_len, size_t i, uint32_t *route,
                    size_t route_len);

/* Corner `j` of route `i` of a plan, with the places that trench_places gave for the same book: x, y. Writes them as 2 words and
 * gives 2. An index past the last route or past its last corner, a book that was refused, and fewer than 2 words give 0, and
 * nothing is written.
 * Other places are no fault: where j is below 127, and a whole corner record stands in the book 9 + 9 * j bytes behind place i
 * (7 + 9 * j in a book that does not begin with 0x51) and begins before place i + 1, its two coordinates are given, whatever
 * they are; else the answer is 0. */
size_t trench_corner(const uint8_t *book, size_t book_len, const uint32_t *places, size_t places_len, size_t i, size_t j,
                     int32_t *corner, size_t corner_len);

/* ---- one of two plans ---- */

/* Chooses the plan book to stake from, as where a contractor sends a plan of the same job.
 *
 * Gives the book with less trench, 1 for the first or 2 for the second, and 1 where both have the same; or minus the refusal
 * number, below 0. The book is the one that was lent: nothing is copied, and nothing is written.
 *
 * Chosen: both books are of the newer kinds and carry the job's number, its number of runs and its run numbers in order. Both are
 * true for the job: every route runs from its run's first point to its second along survey lines and is as long as their Manhattan
 * distance; trench, saved and pits are those of the routes; and meets, groups and centres are those of the job. Every plan that
 * trench_plan writes for the job is true for it, and no true book has less trench: lent our plan first, the answer is 1 or a
 * refusal.
 * Refused: neither book is to be staked from.
 *
 *     int32_t chosen = trench_choose(job, job_len, ours, ours_len, theirs, theirs_len);
 *     if (chosen > 0)
 *         stake(chosen == 1 ? ours : theirs, chosen == 1 ? ours_len : theirs_len);
 *     else
 *         tell(-chosen, trench_choose_place(job, job_len, ours, ours_len, theirs, theirs_len));
 *
 * What the caller owes: a pointer points to as many bytes as its length says, and none is null, even where its length is 0. There
 * is no other condition: any bytes may be given as a job and as a book, and any length; the three may overlap, or be the same,
 * since nothing is written.
 *
 * All that is lent stays the caller's. The function keeps no pointer and no state, allocates nothing, does no input or output, and
 * always returns. It may be called from several threads at once, for the same bytes too. */
int32_t trench_choose(const uint8_t *job, size_t job_len, const uint8_t *first, size_t first_len, const uint8_t *second,
                      size_t second_len);

/* The place of the refusal that trench_choose tells for the same arguments; 0 where it tells none. With a job's refusal it is the
 * place in the job; with a book's, which are 12, 8, 13, 14, 15 and 16, it is the book, 1 or 2. A job is refused with 8 too, but not
 * at these places, where no run's record stands. */
size_t trench_choose_place(const uint8_t *job, size_t job_len, const uint8_t *first, size_t first_len, const uint8_t *second,
                           size_t second_len);

#ifdef __cplusplus
}
#endif

#endif
