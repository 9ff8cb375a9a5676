/* A plain C chooser between two plan books: what stands in for the archive's while it is not built. A job's refusal, and its meets,
 * groups and centres, are those of trench_plan. */
#include <stdbool.h>
#include <string.h>

#include "trench.h"

enum { HEAD = 19, ROUTE = 9, OLDER_ROUTE = 7, CORNER = 9, JOB_HEAD = 5, RUN = 19, NEWER = 0x51, LINES = 2 * TRENCH_MOST_RUNS };

static uint32_t field(const uint8_t *p, int bytes)
{
    uint32_t value = 0;
    for (int i = bytes; i-- > 0;)
        value = value << 8 | p[i];
    return value;
}

static int32_t coordinate(const uint8_t *p)
{
    return (int32_t)field(p, 4);
}

/* ---- the job's lines, and what is dug on them ---- */

struct lines {
    int32_t at[LINES];
    int count;
};

struct grid {
    struct lines columns, rows;
    bool right[LINES][LINES], up[LINES][LINES], corner[LINES][LINES];
};

static int line(const struct lines *lines, int32_t value)
{
    for (int i = 0; i < lines->count; i++)
        if (lines->at[i] == value)
            return i;
    return -1;
}

static void add_line(struct lines *lines, int32_t value)
{
    int i = lines->count;
    if (line(lines, value) >= 0)
        return;
    for (; i > 0 && lines->at[i - 1] > value; i--)
        lines->at[i] = lines->at[i - 1];
    lines->at[i] = value;
    lines->count++;
}

static void survey(struct grid *grid, const uint8_t *job, size_t runs)
{
    memset(grid, 0, sizeof *grid);
    for (size_t i = 0; i < 2 * runs; i++) {
        const uint8_t *point = job + JOB_HEAD + RUN * (i / 2) + 3 + 8 * (i % 2);
        add_line(&grid->columns, coordinate(point));
        add_line(&grid->rows, coordinate(point + 4));
    }
}

/* Digs straight from one vertex to another. */
static void dig(struct grid *grid, int x, int y, int to_x, int to_y)
{
    for (int i = x < to_x ? x : to_x; i < (x < to_x ? to_x : x); i++)
        grid->right[i][y] = true;
    for (int i = y < to_y ? y : to_y; i < (y < to_y ? to_y : y); i++)
        grid->up[x][i] = true;
}

/* Lays a route of so many corners; false where it is no Manhattan path of the run on the job's lines. */
static bool lay(struct grid *grid, const uint8_t *run, const uint8_t *corner, uint32_t corners)
{
    int64_t length = 0, dx = (int64_t)coordinate(run + 11) - coordinate(run + 3), dy = (int64_t)coordinate(run + 15) - coordinate(run + 7);
    int x = 0, y = 0;
    if (memcmp(corner + 1, run + 3, 8) != 0 || memcmp(corner + CORNER * (corners - 1) + 1, run + 11, 8) != 0)
        return false;
    for (uint32_t j = 0; j < corners; j++, corner += CORNER) {
        int next_x = line(&grid->columns, coordinate(corner + 1)), next_y = line(&grid->rows, coordinate(corner + 5));
        if (next_x < 0 || next_y < 0)
            return false;
        if (j > 0) {
            int64_t across = (int64_t)grid->columns.at[next_x] - grid->columns.at[x];
            int64_t along = (int64_t)grid->rows.at[next_y] - grid->rows.at[y];
            length += (across < 0 ? -across : across) + (along < 0 ? -along : along);
            dig(grid, x, y, next_x, next_y);
        }
        x = next_x, y = next_y;
        grid->corner[x][y] = true;
    }
    return length == (dx < 0 ? -dx : dx) + (dy < 0 ? -dy : dy);
}

/* The length of what is dug, and the number of pits. Where no route ends or turns, each goes straight on: two edges are a crossing. */
static void measure(const struct grid *grid, uint32_t *trench, uint32_t *pits)
{
    *trench = *pits = 0;
    for (int x = 0; x < grid->columns.count; x++)
        for (int y = 0; y < grid->rows.count; y++) {
            if (grid->right[x][y])
                *trench += (uint32_t)(grid->columns.at[x + 1] - grid->columns.at[x]);
            if (grid->up[x][y])
                *trench += (uint32_t)(grid->rows.at[y + 1] - grid->rows.at[y]);
            *pits += grid->corner[x][y] || (grid->right[x][y] && grid->up[x][y]);
        }
}

/* ---- a book ---- */

static bool matches(const uint8_t *job, size_t runs, const uint8_t *book, size_t routes)
{
    const uint8_t *route = book + HEAD;
    if (runs != routes || memcmp(book + 1, job + 1, 4) != 0)
        return false;
    for (size_t i = 0; i < runs; i++) {
        if (memcmp(route + 1, job + JOB_HEAD + RUN * i + 1, 2) != 0)
            return false;
        route += (book[0] == NEWER ? ROUTE : OLDER_ROUTE) + CORNER * field(route + 5, 2);
    }
    return true;
}

static bool is_true(const uint8_t *job, size_t runs, const uint8_t *plan, const uint8_t *book)
{
    struct grid grid;
    const uint8_t *ours = plan + HEAD, *theirs = book + HEAD;
    uint32_t trench, pits;
    if (book[0] != NEWER || memcmp(book + 17, plan + 17, 2) != 0)
        return false;
    survey(&grid, job, runs);
    for (size_t i = 0; i < runs; i++) {
        uint32_t corners = field(theirs + 5, 2);
        if (memcmp(theirs + 3, ours + 3, 2) != 0 || memcmp(theirs + 7, ours + 7, 2) != 0)
            return false;
        if (!lay(&grid, job + JOB_HEAD + RUN * i, theirs + ROUTE, corners))
            return false;
        theirs += ROUTE + CORNER * corners;
        ours += ROUTE + CORNER * field(ours + 5, 2);
    }
    measure(&grid, &trench, &pits);
    /* Trench and saved of every true plan have the same sum. */
    uint64_t sum = (uint64_t)field(plan + 7, 4) + field(plan + 11, 4);
    return field(book + 7, 4) == trench && trench + (uint64_t)field(book + 11, 4) == sum && field(book + 15, 2) == pits;
}

/* The number of a book's refusal, or 0. */
static int32_t refused(const uint8_t *job, size_t runs, const uint8_t *plan, const uint8_t *book, size_t length)
{
    int32_t routes = trench_read(book, length);
    if (routes < 0)
        return -routes;
    if (!matches(job, runs, book, (size_t)routes))
        return TRENCH_OTHER_JOB;
    return is_true(job, runs, plan, book) ? 0 : TRENCH_UNTRUE;
}

/* The answer, and the place of a refusal. */
static int32_t answer(const uint8_t *job, size_t job_len, const uint8_t *const book[2], const size_t length[2], size_t *place)
{
    static _Thread_local uint32_t work[TRENCH_MOST_WORDS];
    static _Thread_local uint8_t plan[TRENCH_LONGEST_PLAN];
    int32_t planned = trench_plan_in(job, job_len, work, TRENCH_MOST_WORDS, plan, sizeof plan);
    *place = 0;
    if (planned < 0) {
        *place = trench_plan_place(job, job_len);
        return planned;
    }
    for (size_t i = 0; i < 2; i++) {
        int32_t number = refused(job, field(plan + 5, 2), plan, book[i], length[i]);
        if (number) {
            *place = i + 1;
            return -number;
        }
    }
    return field(book[1] + 7, 4) < field(book[0] + 7, 4) ? 2 : 1;
}

int32_t trench_choose(const uint8_t *job, size_t job_len, const uint8_t *first, size_t first_len, const uint8_t *second,
                      size_t second_len)
{
    size_t place;
    return answer(job, job_len, (const uint8_t *const[]){ first, second }, (const size_t[]){ first_len, second_len }, &place);
}

size_t trench_choose_place(const uint8_t *job, size_t job_len, const uint8_t *first, size_t first_len, const uint8_t *second,
                           size_t second_len)
{
    size_t place;
    answer(job, job_len, (const uint8_t *const[]){ first, second }, (const size_t[]){ first_len, second_len }, &place);
    return place;
}
