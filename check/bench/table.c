/* A plain C planner by the table algorithm (a table of best sharing over the centre's box, four words a vertex, for one group after
 * the other) in lent work words, written to be fast and not to be proved: what the proved planner is timed against, and what
 * stands in for it while it is not built.
 * It is compiled twice: plain, and with TUNED defined. Then lines are found by counting, each run's box is made once, and the
 * first row, the first column and the inner vertices of the table are filled apart, as the proved planner does all this. */
#include "table.h"

#include <stdbool.h>
#include <string.h>

enum { MOST_RUNS = 32, MOST_LINES = 64, FAR = 1000000, TOP_NUMBER = 9999, NOBODY = 255 };
enum { MOST_WORDS = 4 * MOST_LINES * MOST_LINES };
enum { PLAN_HEAD_LENGTH = 19, BLANK_PLAN = 22, ROUTE_LENGTH = 9, CORNER_LENGTH = 9 };
enum { JOB_HEAD = 0x48, RUN = 0x52, END = 0x5A, PLAN_HEAD = 0x51, ROUTE = 0x4F, CORNER = 0x43 };

struct run {
    uint32_t number;
    int32_t x[2], y[2];   /* first and second point, in decimetres */
    int column[2], row[2]; /* the same as indexes of grid lines */
};

struct job {
    uint32_t number;
    int count;
    struct run runs[MOST_RUNS];
    int columns, rows;
    int32_t column_at[MOST_LINES], row_at[MOST_LINES];
    uint32_t meets[MOST_RUNS]; /* the set of runs that each run meets */
    int centre_of[MOST_RUNS];  /* the centre of each run's group */
    int groups;
    int centre[MOST_RUNS]; /* of each group; the groups stand in the order of their first runs */
};

/* ---- job book ---- */

static uint32_t half_at(const uint8_t *p)
{
    return (uint32_t)p[0] | (uint32_t)p[1] << 8;
}

static uint32_t word_at(const uint8_t *p)
{
    return half_at(p) | half_at(p + 2) << 16;
}

static size_t record_length(uint8_t kind)
{
    switch (kind) {
    case JOB_HEAD:
        return 5;
    case RUN:
        return 19;
    case END:
        return 3;
    default:
        return 0;
    }
}

static bool outside(int32_t c)
{
    return c < -FAR || c > FAR;
}

/* Adds a run, or gives the refusal number. */
static int read_run(struct job *job, const uint8_t *body)
{
    if (job->count == MOST_RUNS)
        return 9;
    struct run *run = &job->runs[job->count];
    uint32_t before = job->count == 0 ? 0 : job->runs[job->count - 1].number;
    run->number = half_at(body);
    if (run->number <= before || run->number > TOP_NUMBER)
        return 7;
    for (int end = 0; end < 2; end++) {
        run->x[end] = (int32_t)word_at(body + 2 + 8 * end);
        run->y[end] = (int32_t)word_at(body + 6 + 8 * end);
    }
    for (int end = 0; end < 2; end++)
        if (outside(run->x[end]) || outside(run->y[end]))
            return 8;
    if (run->x[0] == run->x[1] && run->y[0] == run->y[1])
        return 17;
    job->count++;
    return 0;
}

/* Reads a whole job book; 0, or the refusal number. */
static int read_job(struct job *job, const uint8_t *bytes, size_t length)
{
    job->count = 0;
    for (size_t place = 0;;) {
        if (place == length)
            return 3;
        size_t whole = record_length(bytes[place]);
        if (whole == 0)
            return 4;
        if (length - place < whole)
            return 3;
        const uint8_t *body = bytes + place + 1;
        if ((bytes[place] == JOB_HEAD) != (place == 0))
            return 5;
        place += whole;
        if (whole == 5) {
            job->number = word_at(body);
        } else if (whole == 19) {
            int refused = read_run(job, body);
            if (refused)
                return refused;
        } else {
            if (half_at(body) != (uint32_t)job->count)
                return 6;
            return place == length ? 0 : 5;
        }
    }
}

/* ---- grid and groups ---- */

#ifdef TUNED

/* How many lines lie below a value: the index of the line at it, where there is one. */
static int find(const int32_t *line, int count, int32_t value)
{
    int at = 0;
    for (int i = 0; i < count; i++)
        at += line[i] < value;
    return at;
}

static int insert(int32_t *line, int count, int32_t value)
{
    int at = find(line, count, value);
    if (at < count && line[at] == value)
        return count;
    memmove(line + at + 1, line + at, (size_t)(count - at) * sizeof *line);
    line[at] = value;
    return count + 1;
}

#else

static int insert(int32_t *line, int count, int32_t value)
{
    int at = count;
    while (at > 0 && line[at - 1] > value)
        at--;
    if (at > 0 && line[at - 1] == value)
        return count;
    memmove(line + at + 1, line + at, (size_t)(count - at) * sizeof *line);
    line[at] = value;
    return count + 1;
}

static int find(const int32_t *line, int count, int32_t value)
{
    int low = 0, high = count - 1;
    while (low < high) {
        int middle = (low + high) / 2;
        if (line[middle] < value)
            low = middle + 1;
        else
            high = middle;
    }
    return low;
}

#endif

static void lay_grid(struct job *job)
{
    job->columns = job->rows = 0;
    for (int i = 0; i < job->count; i++)
        for (int end = 0; end < 2; end++) {
            job->columns = insert(job->column_at, job->columns, job->runs[i].x[end]);
            job->rows = insert(job->row_at, job->rows, job->runs[i].y[end]);
        }
    for (int i = 0; i < job->count; i++)
        for (int end = 0; end < 2; end++) {
            job->runs[i].column[end] = find(job->column_at, job->columns, job->runs[i].x[end]);
            job->runs[i].row[end] = find(job->row_at, job->rows, job->runs[i].y[end]);
        }
}

static int least(int a, int b)
{
    return a < b ? a : b;
}

static int most(int a, int b)
{
    return a < b ? b : a;
}

#ifdef TUNED

/* A run's box, as indexes of grid lines. */
struct box {
    int left, right, bottom, top;
};

static struct box box_of(const struct run *run)
{
    const int *x = run->column, *y = run->row;
    return (struct box){ least(x[0], x[1]), most(x[0], x[1]), least(y[0], y[1]), most(y[0], y[1]) };
}

static void compare(struct job *job)
{
    struct box boxes[MOST_RUNS];
    memset(job->meets, 0, sizeof job->meets);
    for (int i = 0; i < job->count; i++) {
        struct box mine = boxes[i] = box_of(&job->runs[i]);
        uint32_t meets = 0;
        for (int j = 0; j < i; j++) {
            int wide = least(mine.right, boxes[j].right) - most(mine.left, boxes[j].left);
            int high = least(mine.top, boxes[j].top) - most(mine.bottom, boxes[j].bottom);
            if (wide >= 0 && high >= 0 && wide + high > 0) {
                meets |= 1u << j;
                job->meets[j] |= 1u << i;
            }
        }
        job->meets[i] |= meets;
    }
}

#else

/* How many steps two intervals of lines have in common, below 0 where they are apart. */
static int overlap(const int a[2], const int b[2])
{
    return least(most(a[0], a[1]), most(b[0], b[1])) - most(least(a[0], a[1]), least(b[0], b[1]));
}

static void compare(struct job *job)
{
    memset(job->meets, 0, sizeof job->meets);
    for (int i = 0; i < job->count; i++)
        for (int j = 0; j < i; j++) {
            int wide = overlap(job->runs[i].column, job->runs[j].column);
            int high = overlap(job->runs[i].row, job->runs[j].row);
            if (wide >= 0 && high >= 0 && wide + high > 0) {
                job->meets[i] |= 1u << j;
                job->meets[j] |= 1u << i;
            }
        }
}

#endif

/* Whether run c meets nobody that meets another. */
static bool is_centre(const struct job *job, int c)
{
    for (uint32_t rest = job->meets[c]; rest; rest &= rest - 1)
        if (job->meets[__builtin_ctz(rest)] != 1u << c)
            return false;
    return true;
}

/* Finds the centre of each run's group. The first run of a star is its centre, or meets the centre alone. */
static bool find_centres(struct job *job)
{
    uint32_t seen = 0;
    compare(job);
    job->groups = 0;
    for (int i = 0; i < job->count; i++) {
        if (seen >> i & 1)
            continue;
        int c = is_centre(job, i) ? i : __builtin_ctz(job->meets[i]);
        if (c != i && !is_centre(job, c))
            return false;
        uint32_t group = job->meets[c] | 1u << c;
        for (uint32_t rest = group; rest; rest &= rest - 1)
            job->centre_of[__builtin_ctz(rest)] = c;
        job->centre[job->groups++] = c;
        seen |= group;
    }
    return true;
}

/* ---- table ---- */

/* The centre's box in its own frame: it goes from (0,0) right and up to (w-1, h-1), whatever its slope. */
struct frame {
    int w, h;
    int column, row, right, up;                             /* the start, and 1 or -1 a step */
    uint32_t step_right[MOST_LINES], step_up[MOST_LINES];   /* edge lengths */
    uint32_t on_column[MOST_LINES], over_column[MOST_LINES]; /* leaves whose box has column a; has columns a and a+1 */
    uint32_t on_row[MOST_LINES], over_row[MOST_LINES];
    uint32_t cross; /* leaves of the other slope */
};

struct steps {
    int count;
    uint8_t up[2 * MOST_LINES], leaf[2 * MOST_LINES];
};

static uint32_t span(int32_t a, int32_t b)
{
    return (uint32_t)(a < b ? b - a : a - b);
}

/* Enters a leaf's box into the sets of one axis: lines from low to high in the frame, those in it from 0 to n-1. */
static void enter(uint32_t bit, int p, int q, int n, uint32_t *on, uint32_t *over)
{
    int low = most(least(p, q), 0), high = least(most(p, q), n - 1);
    for (int at = low; at <= high; at++)
        on[at] |= bit;
    for (int at = low; at < high; at++)
        over[at] |= bit;
}

/* The frame of a centre, with the leaves of its group. */
static void make_frame(const struct job *job, int centre, struct frame *f)
{
    const struct run *c = &job->runs[centre];
    memset(f, 0, sizeof *f);
    f->column = c->column[0];
    f->row = c->row[0];
    f->right = c->column[1] < c->column[0] ? -1 : 1;
    f->up = c->row[1] < c->row[0] ? -1 : 1;
    f->w = (c->column[1] - c->column[0]) * f->right + 1;
    f->h = (c->row[1] - c->row[0]) * f->up + 1;
    for (int a = 0; a + 1 < f->w; a++)
        f->step_right[a] = span(job->column_at[f->column + a * f->right], job->column_at[f->column + (a + 1) * f->right]);
    for (int b = 0; b + 1 < f->h; b++)
        f->step_up[b] = span(job->row_at[f->row + b * f->up], job->row_at[f->row + (b + 1) * f->up]);
    for (uint32_t rest = job->meets[centre]; rest; rest &= rest - 1) {
        int i = __builtin_ctz(rest);
        const struct run *leaf = &job->runs[i];
        int a0 = (leaf->column[0] - f->column) * f->right, a1 = (leaf->column[1] - f->column) * f->right;
        int b0 = (leaf->row[0] - f->row) * f->up, b1 = (leaf->row[1] - f->row) * f->up;
        enter(1u << i, a0, a1, f->w, f->on_column, f->over_column);
        enter(1u << i, b0, b1, f->h, f->on_row, f->over_row);
        if ((a0 < a1 && b1 < b0) || (a1 < a0 && b0 < b1))
            f->cross |= 1u << i;
    }
}

/* The owner of the edge by which (a,b) is entered from the left (up = 0) or from below (up = 1), as a set of at most one. */
static uint32_t owner(const struct frame *f, int a, int b, int up)
{
    return up ? f->on_column[a] & f->over_row[b - 1] : f->on_row[b] & f->over_column[a - 1];
}

static uint32_t *cell(const struct frame *f, uint32_t *table, int a, int b)
{
    return table + (b * f->w + a) * 4;
}

static uint32_t larger(uint32_t a, uint32_t b)
{
    return a < b ? b : a;
}

/* The best of a walk that ends in (a,b), by any edge but those that `but` owns; a word is the shared length plus 1, or 0. */
static uint32_t best_at(const struct frame *f, uint32_t *table, int a, int b, uint32_t but)
{
    uint32_t *at = cell(f, table, a, b);
    uint32_t best = a == 0 && b == 0;
    if (a > 0 && (but == 0 || owner(f, a, b, 0) != but))
        best = larger(best, at[0]);
    if (b > 0 && (but == 0 || owner(f, a, b, 1) != but))
        best = larger(best, at[2]);
    return best;
}

#ifdef TUNED

/* The two words of an edge: of any walk that ends with it, and of one where it belongs to a first straight piece. */
struct pair {
    uint32_t any, run;
};

/* The words of an edge that `who` owns, from the edges along and across that end where it begins, and their owners.
 * `start` is 1 where the walk starts there. Some walk ends there, so that `all` is not 0. */
static struct pair rule(struct pair along, uint32_t along_of, uint32_t across, uint32_t across_of, uint32_t start,
                        uint32_t who, uint32_t length, uint32_t cross)
{
    uint32_t all = larger(larger(along.any, across), start);
    if (who == 0)
        return (struct pair){ all, 0 };
    if ((who & cross) == 0)
        return (struct pair){ all + length, 0 };
    uint32_t entered = larger(larger(along_of == who ? 0 : along.any, across_of == who ? 0 : across), start);
    uint32_t before = larger(entered, along_of == who ? along.run : 0);
    uint32_t run = before ? before + length : 0;
    return (struct pair){ larger(all, run), run };
}

static void put_cell(uint32_t *to, struct pair row, struct pair column)
{
    to[0] = row.any;
    to[1] = row.run;
    to[2] = column.any;
    to[3] = column.run;
}

/* The words of the edge along the column that ends at a cell. */
static struct pair column_pair(const uint32_t *at)
{
    return (struct pair){ at[2], at[3] };
}

/* Does the first row, the first column and the inner vertices apart, and hands on the edges into the last vertex: x
 * along its row, y along its column. */
static uint32_t fill(const struct frame *restrict f, uint32_t *restrict table)
{
    const struct pair none = { 0, 0 };
    struct pair x = none, y = none;
    uint32_t *to = table, cross = f->cross;
    int w = f->w, h = f->h;
    put_cell(to, none, none);
    to += 4;
    for (int a = 1; a < w; a++, to += 4) {
        uint32_t who_before = a > 1 ? owner(f, a - 1, 0, 0) : 0;
        x = rule(x, who_before, 0, 0, a == 1, owner(f, a, 0, 0), f->step_right[a - 1], cross);
        put_cell(to, x, none);
    }
    for (int b = 1; b < h; b++) {
        uint32_t on = f->on_row[b], on_below = f->on_row[b - 1], length = f->step_up[b - 1];
        uint32_t over = f->over_row[b - 1], over_below = b > 1 ? f->over_row[b - 2] : 0;
        uint32_t on_column = f->on_column[0], over_before = 0;
        const uint32_t *below = to - 4 * w;
        x = none;
        y = rule(column_pair(below), on_column & over_below, 0, 0, b == 1, on_column & over, length, cross);
        put_cell(to, x, y);
        to += 4;
        for (int a = 1; a < w; a++, to += 4) {
            uint32_t over_column = f->over_column[a - 1];
            below = to - 4 * w;
            x = rule(x, on & over_before, y.any, on_column & over, 0, on & over_column, f->step_right[a - 1], cross);
            on_column = f->on_column[a];
            over_before = over_column;
            y = rule(column_pair(below), on_column & over_below, below[0], on_below & over_column, 0,
                     on_column & over, length, cross);
            put_cell(to, x, y);
        }
    }
    return larger(x.any, y.any);
}

#else

/* The two words of the edge by which (a,b) is entered: `any`, and `run` where it belongs to a first straight piece. */
static void fill_edge(const struct frame *f, uint32_t *table, int a, int b, int up)
{
    int ua = a - !up, ub = b - up;
    uint32_t length = up ? f->step_up[ub] : f->step_right[ua];
    uint32_t who = owner(f, a, b, up);
    uint32_t all = best_at(f, table, ua, ub, 0), run = 0;
    uint32_t *to = cell(f, table, a, b) + 2 * up;
    if (who == 0) {
        to[0] = all;
    } else if ((who & f->cross) == 0) {
        to[0] = all + length;
    } else {
        uint32_t entered = best_at(f, table, ua, ub, who);
        if (entered)
            run = entered + length;
        bool goes_on = up ? ub > 0 : ua > 0;
        if (goes_on && owner(f, ua, ub, up) == who) {
            uint32_t before = cell(f, table, ua, ub)[2 * up + 1];
            if (before)
                run = larger(run, before + length);
        }
        to[0] = larger(all, run);
    }
    to[1] = run;
}

static uint32_t fill(const struct frame *restrict f, uint32_t *restrict table)
{
    for (int b = 0; b < f->h; b++)
        for (int a = 0; a < f->w; a++) {
            if (a > 0)
                fill_edge(f, table, a, b, 0);
            if (b > 0)
                fill_edge(f, table, a, b, 1);
        }
    return best_at(f, table, f->w - 1, f->h - 1, 0);
}

#endif

/* Which edge into (a,b) gave this value, not counting those that `but` owns. */
static int entered_by(const struct frame *f, uint32_t *table, int a, int b, uint32_t but, uint32_t value)
{
    uint32_t *at = cell(f, table, a, b);
    bool by_row = a > 0 && (but == 0 || owner(f, a, b, 0) != but) && at[0] == value;
    return !by_row;
}

/* The steps of a best walk, from the end back to the start, with the leaf that shares each. */
static void trace(const struct frame *restrict f, uint32_t *restrict table, struct steps *restrict steps)
{
    int a = f->w - 1, b = f->h - 1;
    steps->count = a + b;
    uint32_t value = best_at(f, table, a, b, 0), but = 0;
    bool in_run = false;
    int up = 0;
    while (a + b > 0) {
        if (!in_run)
            up = entered_by(f, table, a, b, but, value);
        int ua = a - !up, ub = b - up;
        uint32_t length = up ? f->step_up[ub] : f->step_right[ua];
        uint32_t who = owner(f, a, b, up), all = best_at(f, table, ua, ub, 0);
        bool shared = who != 0;
        but = 0;
        if (who & f->cross) {
            shared = in_run || value != all;
            in_run = false;
            if (shared) {
                uint32_t entered = best_at(f, table, ua, ub, who);
                value -= length;
                but = who;
                in_run = entered != value || entered == 0;
            } else {
                value = all;
            }
        } else {
            value = all;
        }
        steps->up[ua + ub] = (uint8_t)up;
        steps->leaf[ua + ub] = (uint8_t)(shared ? __builtin_ctz(who) : NOBODY);
        a = ua;
        b = ub;
    }
}

/* ---- routes and plan book ---- */

struct path {
    int count;
    uint8_t column[2 * MOST_LINES], row[2 * MOST_LINES];
};

struct sink {
    uint8_t *bytes;
    size_t length;
    const struct job *job;
    uint32_t corners;
    /* A bit a row, a word a column: where some route ends or turns, passes along the row, passes along the column. */
    uint64_t corner[MOST_LINES], along_row[MOST_LINES], along_column[MOST_LINES];
};

static void put_half(struct sink *s, uint32_t value)
{
    s->bytes[s->length++] = (uint8_t)value;
    s->bytes[s->length++] = (uint8_t)(value >> 8);
}

static void put_word(struct sink *s, uint32_t value)
{
    put_half(s, value & 0xFFFF);
    put_half(s, value >> 16);
}

static void visit(struct path *p, int column, int row)
{
    p->column[p->count] = (uint8_t)column;
    p->row[p->count] = (uint8_t)row;
    p->count++;
}

/* Goes on along the row, then along the column, to a vertex. */
static void go(struct path *p, int column, int row)
{
    int c = p->column[p->count - 1], r = p->row[p->count - 1];
    while (c != column) {
        c += c < column ? 1 : -1;
        visit(p, c, r);
    }
    while (r != row) {
        r += r < row ? 1 : -1;
        visit(p, c, r);
    }
}

static void put_corner(struct sink *s, int column, int row)
{
    s->bytes[s->length++] = CORNER;
    put_word(s, (uint32_t)s->job->column_at[column]);
    put_word(s, (uint32_t)s->job->row_at[row]);
    s->corner[column] |= (uint64_t)1 << row;
    s->corners++;
}

static void put_route(struct sink *s, int i, const struct path *p)
{
    s->bytes[s->length++] = ROUTE;
    put_half(s, s->job->runs[i].number);
    put_half(s, (uint32_t)__builtin_popcount(s->job->meets[i]));
    size_t count_at = s->length;
    uint32_t before = s->corners;
    put_half(s, 0);
    put_half(s, s->job->runs[s->job->centre_of[i]].number);
    put_corner(s, p->column[0], p->row[0]);
    for (int k = 1; k + 1 < p->count; k++) {
        int column = p->column[k], row = p->row[k];
        bool from_column = p->column[k - 1] == column, to_column = p->column[k + 1] == column;
        if (from_column != to_column)
            put_corner(s, column, row);
        else
            (to_column ? s->along_column : s->along_row)[column] |= (uint64_t)1 << row;
    }
    put_corner(s, p->column[p->count - 1], p->row[p->count - 1]);
    uint32_t count = s->corners - before;
    s->bytes[count_at] = (uint8_t)count;
    s->bytes[count_at + 1] = (uint8_t)(count >> 8);
}

/* The vertices at which a route ends or turns, or two cross. No route passes a vertex twice: where one passes along the row and one
 * along the column, they are two. */
static uint32_t count_pits(const struct sink *s)
{
    uint32_t pits = 0;
    for (int column = 0; column < s->job->columns; column++)
        pits += (uint32_t)__builtin_popcountll(s->corner[column] | (s->along_row[column] & s->along_column[column]));
    return pits;
}

/* Where the steps that each leaf shares begin and end, as vertices of the centre's route. */
struct stretch {
    int first, last;
};

static void leaf_path(const struct job *job, int i, const struct path *centre, const struct stretch *shared, struct path *p)
{
    const struct run *leaf = &job->runs[i];
    p->count = 0;
    visit(p, leaf->column[0], leaf->row[0]);
    if (shared[i].first >= 0) {
        int from = shared[i].first, to = shared[i].last, step = 1;
        uint32_t near = span(leaf->column[0], centre->column[from]) + span(leaf->row[0], centre->row[from]);
        uint32_t far = span(leaf->column[0], centre->column[to]) + span(leaf->row[0], centre->row[to]);
        if (far < near) {
            from = shared[i].last;
            to = shared[i].first;
            step = -1;
        }
        for (int k = from;; k += step) {
            go(p, centre->column[k], centre->row[k]);
            if (k == to)
                break;
        }
    }
    go(p, leaf->column[1], leaf->row[1]);
}

/* How a job is laid: each centre's route, and what of it each leaf shares. */
struct layout {
    struct path centre[MOST_RUNS]; /* by the centre's index */
    struct stretch shared[MOST_RUNS];
};

/* Lays the route of a centre by the steps of its walk. */
static void lay_centre(struct layout *layout, int c, const struct frame *f, const struct steps *steps)
{
    struct path *centre = &layout->centre[c];
    centre->count = 0;
    visit(centre, f->column, f->row);
    for (int k = 0; k < steps->count; k++) {
        int up = steps->up[k];
        visit(centre, centre->column[k] + (up ? 0 : f->right), centre->row[k] + (up ? f->up : 0));
        if (steps->leaf[k] != NOBODY) {
            struct stretch *of = &layout->shared[steps->leaf[k]];
            if (of->first < 0)
                of->first = k;
            of->last = k + 1;
        }
    }
}

/* Lays all groups, one after the other in the same words. Gives what is saved. */
static uint32_t lay_groups(const struct job *job, uint32_t *table, struct layout *layout)
{
    struct frame frame;
    struct steps steps;
    uint32_t saved = 0;
    for (int i = 0; i < job->count; i++)
        layout->shared[i] = (struct stretch){ -1, -1 };
    for (int g = 0; g < job->groups; g++) {
        make_frame(job, job->centre[g], &frame);
        saved += fill(&frame, table) - 1;
        trace(&frame, table, &steps);
        lay_centre(layout, job->centre[g], &frame, &steps);
    }
    return saved;
}

static size_t write_plan(const struct job *job, const struct layout *layout, uint32_t saved, uint8_t *out)
{
    struct sink s = { .bytes = out, .length = PLAN_HEAD_LENGTH, .job = job };
    struct path p;
    uint32_t total = 0;
    for (int i = 0; i < job->count; i++) {
        const struct run *run = &job->runs[i];
        const struct path *centre = &layout->centre[job->centre_of[i]];
        total += span(run->x[0], run->x[1]) + span(run->y[0], run->y[1]);
        if (i != job->centre_of[i])
            leaf_path(job, i, centre, layout->shared, &p);
        put_route(&s, i, i == job->centre_of[i] ? centre : &p);
    }
    s.bytes[s.length++] = END;
    put_half(&s, s.corners);
    size_t length = s.length;
    s.length = 0;
    s.bytes[s.length++] = PLAN_HEAD;
    put_word(&s, job->number);
    put_half(&s, (uint32_t)job->count);
    put_word(&s, total - saved);
    put_word(&s, saved);
    put_half(&s, count_pits(&s));
    put_half(&s, (uint32_t)job->groups);
    return length;
}

/* The plan of a job without runs: a head whose figures are 0, and an end. */
static size_t write_blank(const struct job *job, uint8_t *out)
{
    struct sink s = { .bytes = out, .length = 0 };
    memset(out, 0, BLANK_PLAN);
    s.bytes[s.length++] = PLAN_HEAD;
    put_word(&s, job->number);
    s.bytes[PLAN_HEAD_LENGTH] = END;
    return BLANK_PLAN;
}

/* The forecast of a job whose grid is laid. */
static size_t words_of(const struct job *job)
{
    return (size_t)(4 * job->columns * job->rows);
}

/* A route passes one vertex less than there are lines that touch its box, and every corner is one of them. */
static size_t bytes_of(const struct job *job)
{
    size_t bytes = BLANK_PLAN;
    for (int i = 0; i < job->count; i++) {
        const struct run *run = &job->runs[i];
        size_t lines = span(run->column[0], run->column[1]) + 1 + span(run->row[0], run->row[1]) + 1;
        bytes += ROUTE_LENGTH + CORNER_LENGTH * (lines - 1);
    }
    return bytes;
}

/* Reads a job book, tests what is lent for it and finds its groups; 0, or the refusal number. */
static int survey(struct job *job, const uint8_t *bytes, size_t length, size_t work_len, size_t out_len)
{
    int refused = read_job(job, bytes, length);
    if (refused)
        return refused;
    lay_grid(job);
    if (work_len < words_of(job))
        return 1;
    if (out_len < bytes_of(job))
        return 2;
    return find_centres(job) ? 0 : 11;
}

int32_t table_plan_in(const uint8_t *bytes, size_t length, uint32_t *work, size_t work_len, uint8_t *out, size_t out_len)
{
    struct job job;
    struct layout layout;
    int refused = survey(&job, bytes, length, work_len, out_len);
    if (refused)
        return -refused;
    if (job.count == 0)
        return (int32_t)write_blank(&job, out);
    uint32_t saved = lay_groups(&job, work, &layout);
    memset(work, 0, words_of(&job) * sizeof *work);
    return (int32_t)write_plan(&job, &layout, saved, out);
}

/* ---- the table alone ---- */

static void put_lines(struct sink *s, const uint32_t *on, const uint32_t *over, const uint32_t *step)
{
    for (int i = 0; i < MOST_LINES; i++) {
        put_word(s, on[i]);
        put_word(s, i == 0 ? 0 : over[i - 1]);
        put_word(s, i == 0 ? 0 : step[i - 1]);
    }
}

/* Makes the frame of a group; whether the job has it. */
static bool frame_of(const uint8_t *bytes, size_t length, uint32_t group, struct frame *f)
{
    struct job job;
    if (survey(&job, bytes, length, SIZE_MAX, SIZE_MAX) || group >= (uint32_t)job.groups)
        return false;
    make_frame(&job, job.centre[group], f);
    return true;
}

size_t table_frame(const uint8_t *job, size_t job_len, uint32_t group, uint32_t rounds, uint8_t out[TABLE_FRAME])
{
    struct frame f;
    struct sink s = { .bytes = out, .length = 0 };
    if (!frame_of(job, job_len, group, &f))
        return 0;
    put_word(&s, rounds);
    s.bytes[s.length++] = (uint8_t)(f.w - 1);
    s.bytes[s.length++] = (uint8_t)(f.h - 1);
    put_word(&s, f.cross);
    put_lines(&s, f.on_column, f.over_column, f.step_right);
    put_lines(&s, f.on_row, f.over_row, f.step_up);
    return s.length;
}

uint32_t table_rounds(const uint8_t *job, size_t job_len, uint32_t group, uint32_t rounds, uint32_t *sum)
{
    struct frame f;
    struct steps steps = { .count = 0 };
    uint32_t table[MOST_WORDS], best = 1, all = 0;
    if (frame_of(job, job_len, group, &f))
        for (uint32_t i = 0; i < rounds; i++) {
            best = fill(&f, table);
            trace(&f, table, &steps);
            all = (all + steps.leaf[0] + 64u * steps.up[0]) % 65536;
        }
    *sum = all;
    return best - 1;
}
