/* The map screen in little: reads a job book, has it planned, and draws the plan as SVG; or draws a stored plan book, or the one
 * of two plan books of a job that is to be staked from; or makes a job book of points that were clicked, and draws its plan.
 *
 *   map JOB > plan.svg                                    a file, or - for standard input
 *   map --plan BOOK > plan.svg                            the same
 *   map --choose JOB FIRST SECOND > plan.svg              the same; at most one of them is -
 *   map --clicks NUMBER BOOK [X,Y X,Y].. > plan.svg       the job of this number goes to the file BOOK; without points on the
 *                                                         command line they are read from standard input
 *
 * Exit status 0: drawn. 1: the job, its runs or a plan book was refused, and the refusal is told on standard error. 2:
 * something could not be read or written.
 */
#include <ctype.h>
#include <inttypes.h>
#include <stdbool.h>
#include <stdio.h>
#include <stdlib.h>
#include <string.h>

#include "trench.h"

enum { JOB_ROOM = 640, REFUSED = 1, FAILED = 2, NEWER_HEAD = 0x51 };

struct point {
    int32_t x, y;
};

struct route {
    unsigned run, meets, corners;
    unsigned group; /* its group's index */
    bool centre;    /* whether it is the centre */
    struct point corner[TRENCH_MOST_CORNERS];
};

/* The runs that name one centre. */
struct group {
    unsigned centre, runs;
};

/* In a plan of the older kinds there is one centre, which the head names, and nothing is said of groups. */
struct plan {
    uint32_t job, trench, saved;
    unsigned runs, pits;
    bool older;
    unsigned last; /* the head's last figure: its number of groups; of an older plan the centre's run number */
    struct route route[TRENCH_MOST_RUNS];
    unsigned groups;
    struct group group[TRENCH_MOST_RUNS]; /* in the order of their first routes */
};

static void fail(const char *name, const char *what)
{
    fprintf(stderr, "map: %s: %s\n", name, what);
    exit(FAILED);
}

/* ---- files, and refusals in words ---- */

/* Reads up to so many bytes. More cannot change the answer where there is room for the longest book and a byte after it. */
static size_t read_file(const char *name, uint8_t *bytes, size_t room)
{
    bool standard = strcmp(name, "-") == 0;
    FILE *file = standard ? stdin : fopen(name, "rb");
    if (!file)
        fail(name, "cannot be opened");
    size_t length = fread(bytes, 1, room, file);
    if (ferror(file))
        fail(name, "cannot be read");
    if (!standard)
        fclose(file);
    return length;
}

static const char *words(int32_t number)
{
    static const char *const meaning[] = {
        [TRENCH_SHORT_WORK] = "work words fewer than the forecast",
        [TRENCH_SHORT_BUFFER] = "plan buffer shorter than the forecast",
        [TRENCH_CUT] = "the bytes end inside a record, or before an end record",
        [TRENCH_UNKNOWN_KIND] = "unknown kind of record",
        [TRENCH_OUT_OF_PLACE] = "first record no head, a second head, or a byte after the end record",
        [TRENCH_WRONG_COUNT] = "the end's count differs from the runs read",
        [TRENCH_RUN_NUMBER] = "run number 0, above 9,999 or not above the one before",
        [TRENCH_COORDINATE] = "coordinate outside -1,000,000 to 1,000,000",
        [TRENCH_TOO_MANY_RUNS] = "a 33rd run",
        [TRENCH_NO_STAR] = "well formed, but some group is no star",
        [TRENCH_NOT_WHOLE] = "the bytes are not whole records of a plan in order",
        [TRENCH_NO_TURN] = "a corner that stands twice, is not straight from the one before, or is no turn",
        [TRENCH_MISCOUNTED] = "a count that differs from what it counts, or a route with no corner",
        [TRENCH_OTHER_JOB] = "a plan of another job, or of other runs",
        [TRENCH_UNTRUE] = "a plan of the older kinds, or one that is not true for the job",
        [TRENCH_COINCIDENT] = "a run whose two points coincide",
    };
    bool known = number >= 0 && (size_t)number < sizeof meaning / sizeof *meaning && meaning[number];
    return known ? meaning[number] : "a refusal that this program does not know";
}

static void refuse(const char *name, int32_t number, size_t place)
{
    fprintf(stderr, "map: %s: refused %" PRId32 " at %zu: %s\n", name, number, place, words(number));
    exit(REFUSED);
}

/* ---- plan books ---- */

/* A plan book, and the name under which it came. */
struct book {
    const char *name;
    uint8_t *bytes;
    size_t length;
};

static void make_room(struct book *book, size_t room)
{
    book->bytes = malloc(room);
    if (!book->bytes)
        fail(book->name, "is more than this machine has memory for");
}

static void read_book(const char *name, struct book *book)
{
    book->name = name;
    make_room(book, TRENCH_LONGEST_PLAN + 1);
    book->length = read_file(name, book->bytes, TRENCH_LONGEST_PLAN + 1);
}

/* ---- the job ---- */

/* The answer for a job; a refusal ends the program. */
static size_t accepted(const char *name, const uint8_t *job, size_t length, int32_t answer)
{
    if (answer < 0)
        refuse(name, -answer, trench_plan_place(job, length));
    return (size_t)answer;
}

/* Has a job planned into a book of just the bytes that the forecast asks for. */
static void plan_job(const char *name, const uint8_t *job, size_t length, struct book *book)
{
    size_t room = accepted(name, job, length, trench_bytes(job, length));
    book->name = name;
    make_room(book, room);
    book->length = accepted(name, job, length, trench_plan(job, length, book->bytes, room));
}

/* Reads a job and has it planned. */
static void plan_file(const char *name, struct book *book)
{
    uint8_t job[JOB_ROOM];
    plan_job(name, job, read_file(name, job, sizeof job), book);
}

/* ---- the job of clicked points ---- */

/* Runs as trench_job is lent them, in memory that grows. */
struct runs {
    int32_t *list;
    size_t length, room;
};

static void grow(struct runs *runs)
{
    runs->room = 2 * runs->room + TRENCH_MOST_RUNS * TRENCH_RUN;
    runs->list = realloc(runs->list, runs->room * sizeof *runs->list);
    if (!runs->list)
        fail("the points", "are more than this machine has memory for");
}

static void add_number(struct runs *runs, int32_t number)
{
    if (runs->length == runs->room)
        grow(runs);
    runs->list[runs->length++] = number;
}

/* Takes a whole number off the front of a text: digits, with a minus before them or none. Whether it is there and in range. */
static bool take_number(const char **text, int64_t low, int64_t high, int64_t *number)
{
    const char *at = *text;
    bool minus = *at == '-';
    at += minus;
    if (*at < '0' || *at > '9')
        return false;
    for (*number = 0; *at >= '0' && *at <= '9' && *number <= UINT32_MAX; at++)
        *number = 10 * *number + (*at - '0');
    if (minus)
        *number = -*number;
    *text = at;
    return low <= *number && *number <= high;
}

static uint32_t read_job_number(const char *text)
{
    const char *at = text;
    int64_t number = 0;
    if (!take_number(&at, 0, UINT32_MAX, &number) || *at)
        fail(text, "is no job number: one from 0 to 4294967295 is wanted");
    return (uint32_t)number;
}

/* Adds a point, and before the first of a run the run's number: 1, 2, 3 in their order. */
static void add_point(struct runs *runs, const char *text)
{
    const char *at = text;
    int64_t x = 0, y = 0;
    if (!take_number(&at, INT32_MIN, INT32_MAX, &x) || *at++ != ',' || !take_number(&at, INT32_MIN, INT32_MAX, &y) || *at)
        fail(text, "is no point: two whole numbers of 32 bits with a comma between are wanted, as in 40,-30");
    if (runs->length % TRENCH_RUN == 0)
        add_number(runs, (int32_t)(runs->length / TRENCH_RUN + 1));
    add_number(runs, (int32_t)x);
    add_number(runs, (int32_t)y);
}

/* The next word of standard input, cut where there is no room; a byte 0 in it becomes a question mark. Whether there is one. */
static bool next_word(char *word, size_t room)
{
    size_t length = 0;
    int c = getchar();
    while (isspace(c))
        c = getchar();
    for (; c != EOF && !isspace(c); c = getchar())
        if (length + 1 < room)
            word[length++] = c ? (char)c : '?';
    word[length] = '\0';
    return length > 0;
}

/* Adds the points of standard input. A word that has no room is longer than any point without needless zeros. */
static void add_typed_points(struct runs *runs)
{
    char word[64];
    while (next_word(word, sizeof word)) {
        if (strlen(word) == sizeof word - 1)
            fail(word, "is too long for a point");
        add_point(runs, word);
    }
    if (ferror(stdin))
        fail("standard input", "cannot be read");
}

static void refuse_last_point(const struct runs *runs)
{
    char text[24];
    const int32_t *last = runs->list + runs->length - 2;
    snprintf(text, sizeof text, "%" PRId32 ",%" PRId32, last[0], last[1]);
    fail(text, "is a point without its second");
}

/* Tells the refusal of a list. Where its place is a run's index, the run is named too: that of index 0 is run 1. */
static void refuse_runs(const char *name, int32_t number, size_t place)
{
    bool of_run = number == TRENCH_RUN_NUMBER || number == TRENCH_COORDINATE || number == TRENCH_TOO_MANY_RUNS ||
                  number == TRENCH_COINCIDENT;
    if (!of_run)
        refuse(name, number, place);
    fprintf(stderr, "map: %s: refused %" PRId32 " at %zu: run %zu: %s\n", name, number, place, place + 1, words(number));
    exit(REFUSED);
}

static void write_file(const char *name, const uint8_t *bytes, size_t length)
{
    FILE *file = fopen(name, "wb");
    if (!file || fwrite(bytes, 1, length, file) != length || fclose(file) != 0)
        fail(name, "cannot be written");
}

/* Makes the job of this number and these points, or those of standard input where there are none, stores it under a name, and has
 * it planned. What runs a job may have is for trench_job to say. */
static void plan_clicks(const char *number, const char *name, char **points, struct book *book)
{
    static struct runs runs;
    uint8_t job[TRENCH_LONGEST_JOB];
    uint32_t job_number = read_job_number(number);
    grow(&runs); /* a list of no runs has an address too */
    if (!*points)
        add_typed_points(&runs);
    for (; *points; points++)
        add_point(&runs, *points);
    if (runs.length % TRENCH_RUN)
        refuse_last_point(&runs);
    int32_t length = trench_job(job_number, runs.list, runs.length, job, sizeof job);
    if (length < 0)
        refuse_runs(name, -length, trench_job_place(job_number, runs.list, runs.length, job, sizeof job));
    write_file(name, job, (size_t)length);
    plan_job(name, job, (size_t)length, book);
}

/* ---- one of two plan books ---- */

/* Tells the refusal of a job and two plan books: of a book, where it is one that a book has and its place is 1 or 2, else of the
 * job. No run's record stands at these places of a job, so that 8 there is a book's. */
static void refuse_choice(const char *name, const struct book *books, int32_t number, size_t place)
{
    bool has_it = number == TRENCH_COORDINATE || (number >= TRENCH_NOT_WHOLE && number <= TRENCH_UNTRUE);
    bool of_book = has_it && (place == 1 || place == 2);
    if (!of_book)
        refuse(name, number, place);
    fprintf(stderr, "map: %s: refused %" PRId32 " at %zu: the %s book: %s\n", books[place - 1].name, number, place,
            place == 1 ? "first" : "second", words(number));
    exit(REFUSED);
}

/* The one of two plan books to stake from, for the job in a file. */
static const struct book *choose(const char *name, const struct book *books)
{
    const struct book *one = &books[0], *two = &books[1];
    uint8_t job[JOB_ROOM];
    size_t length = read_file(name, job, sizeof job);
    int32_t chosen = trench_choose(job, length, one->bytes, one->length, two->bytes, two->length);
    if (chosen < 0)
        refuse_choice(name, books, -chosen, trench_choose_place(job, length, one->bytes, one->length, two->bytes, two->length));
    return chosen == 1 ? one : two;
}

/* ---- the plan ---- */

/* Enters a route into the group of the centre that it names, and gives that group's index. */
static unsigned enter_group(struct plan *plan, unsigned centre)
{
    unsigned g = 0;
    while (g < plan->groups && plan->group[g].centre != centre)
        g++;
    if (g == plan->groups)
        plan->group[plan->groups++].centre = centre;
    plan->group[g].runs++;
    return g;
}

/* Takes over what the archive reads in a plan book. No route and no corner is given past the last. */
static void read_plan(const char *name, const uint8_t *book, size_t length, struct plan *plan)
{
    uint32_t figures[TRENCH_FIGURES], places[TRENCH_PLACES], fields[TRENCH_ROUTE];
    int32_t corner[TRENCH_CORNER];
    int32_t routes = trench_read(book, length);
    if (routes < 0)
        refuse(name, -routes, trench_read_place(book, length));
    if (!trench_figures(book, length, figures, TRENCH_FIGURES) || !trench_places(book, length, places, TRENCH_PLACES))
        fail(name, "cannot be read as a plan");
    plan->job = figures[0];
    plan->trench = figures[2];
    plan->saved = figures[3];
    plan->pits = figures[4];
    plan->last = figures[5];
    plan->older = figures[6] != NEWER_HEAD;
    for (unsigned i = 0; trench_route(book, length, places, TRENCH_PLACES, i, fields, TRENCH_ROUTE); i++) {
        struct route *route = &plan->route[i];
        plan->runs = i + 1;
        route->run = fields[0];
        route->meets = fields[1];
        route->group = plan->older ? 0 : enter_group(plan, fields[3]);
        route->centre = route->run == (plan->older ? plan->last : fields[3]);
        for (unsigned k = 0; trench_corner(book, length, places, TRENCH_PLACES, i, k, corner, TRENCH_CORNER); k++) {
            route->corners = k + 1;
            route->corner[k].x = corner[0];
            route->corner[k].y = corner[1];
        }
    }
}

static struct point first(const struct route *route)
{
    return route->corner[0];
}

static struct point last(const struct route *route)
{
    return route->corner[route->corners - 1];
}

static bool same(struct point p, struct point q)
{
    return p.x == q.x && p.y == q.y;
}

/* ---- lines, and the cables in each piece of them ---- */

/* No more columns or rows than corners. */
enum { MOST_LINES = TRENCH_MOST_RUNS * TRENCH_MOST_CORNERS };

/* The columns or the rows of a map, rising. */
struct lines {
    int count;
    int32_t at[MOST_LINES];
};

struct grid {
    struct lines columns, rows;
};

/* How many lines lie below a value: the index of the line at it, where there is one. */
static int below(const struct lines *lines, int32_t value)
{
    int low = 0, high = lines->count;
    while (low < high) {
        int middle = (low + high) / 2;
        if (lines->at[middle] < value)
            low = middle + 1;
        else
            high = middle;
    }
    return low;
}

static void add_line(struct lines *lines, int32_t value)
{
    int at = below(lines, value);
    if (at < lines->count && lines->at[at] == value)
        return;
    memmove(lines->at + at + 1, lines->at + at, (size_t)(lines->count - at) * sizeof *lines->at);
    lines->at[at] = value;
    lines->count++;
}

/* The first and the last of some lines. A plan without routes has none: 0 then. */
static int32_t first_line(const struct lines *lines)
{
    return lines->count ? lines->at[0] : 0;
}

static int32_t last_line(const struct lines *lines)
{
    return lines->count ? lines->at[lines->count - 1] : 0;
}

static void add_lines(struct grid *grid, struct point p)
{
    add_line(&grid->columns, p.x);
    add_line(&grid->rows, p.y);
}

/* The survey lines run through the first and the last corner of every route, which are the runs' points. */
static void lay_survey(const struct plan *plan, struct grid *grid)
{
    for (unsigned i = 0; i < plan->runs; i++) {
        add_lines(grid, first(&plan->route[i]));
        add_lines(grid, last(&plan->route[i]));
    }
}

/* The lines through all corners. In a plan of the planner's these are the survey lines; in a stored one they need not be. */
static void lay_grid(const struct plan *plan, struct grid *grid)
{
    for (unsigned i = 0; i < plan->runs; i++)
        for (unsigned k = 0; k < plan->route[i].corners; k++)
            add_lines(grid, plan->route[i].corner[k]);
}

/* A bit a route: 32 routes at most. */
typedef uint32_t cables;

static void mark(cables *edges, int from, int to, cables who)
{
    for (int at = from < to ? from : to; at < (from < to ? to : from); at++)
        edges[at] |= who;
}

/* The cables along one row or column: edge n lies between the crossing lines n and n + 1. */
static void lay_cables(const struct plan *plan, const struct grid *grid, bool row, int line, cables *edges)
{
    const struct lines *crossing = row ? &grid->columns : &grid->rows;
    int32_t at = row ? grid->rows.at[line] : grid->columns.at[line];
    memset(edges, 0, (size_t)crossing->count * sizeof *edges);
    for (unsigned i = 0; i < plan->runs; i++)
        for (unsigned k = 1; k < plan->route[i].corners; k++) {
            struct point p = plan->route[i].corner[k - 1], q = plan->route[i].corner[k];
            if (row && p.y == at && q.y == at)
                mark(edges, below(crossing, p.x), below(crossing, q.x), (cables)1 << i);
            if (!row && p.x == at && q.x == at)
                mark(edges, below(crossing, p.y), below(crossing, q.y), (cables)1 << i);
        }
}

/* ---- drawing ---- */

/* Pixels. No decimetre is drawn wider than WIDEST. */
enum { MARGIN = 70, MAP_WIDTH = 860, MAP_HEIGHT = 560, LEAST_WIDTH = 400, WIDEST = 100, FOOT = 134, REACH = 22 };

/* A group in the foot of the sheet. */
enum { GROUP_WIDTH = 190, GROUP_HEIGHT = 22 };

/* The colours of groups, which take turns. */
static const char *const colours[] = { "#0b3f91", "#1b7340", "#b3202c", "#6a2c91", "#00727a", "#b0137a" };
enum { COLOURS = sizeof colours / sizeof *colours };

/* Where the map stands on the sheet: decimetres to pixels, north up. The foot begins below it, with so many groups in a row. */
struct view {
    double scale, left, top, width, height, foot;
    int32_t west, north;
    unsigned abreast;
};

static double across(const struct view *v, int32_t x)
{
    return v->left + ((double)x - v->west) * v->scale;
}

static double down(const struct view *v, int32_t y)
{
    return v->top + ((double)v->north - y) * v->scale;
}

static struct view fit(const struct plan *plan, const struct grid *grid)
{
    double wide = (double)last_line(&grid->columns) - first_line(&grid->columns);
    double high = (double)last_line(&grid->rows) - first_line(&grid->rows);
    struct view v = { .scale = WIDEST };
    if (wide * v.scale > MAP_WIDTH)
        v.scale = MAP_WIDTH / wide;
    if (high * v.scale > MAP_HEIGHT)
        v.scale = MAP_HEIGHT / high;
    double drawn = wide * v.scale;
    v.width = (drawn < LEAST_WIDTH ? LEAST_WIDTH : drawn) + 2 * MARGIN;
    v.abreast = (unsigned)(v.width - 2 * MARGIN) / GROUP_WIDTH;
    v.foot = high * v.scale + 2 * MARGIN;
    v.height = v.foot + FOOT + (plan->groups + v.abreast - 1) / v.abreast * GROUP_HEIGHT;
    v.left = (v.width - drawn) / 2;
    v.top = MARGIN;
    v.west = first_line(&grid->columns);
    v.north = last_line(&grid->rows);
    return v;
}

/* How centres are drawn: in an older plan the one, else each in its group's colour and stronger than the other routes. */
static void draw_centre_style(bool older)
{
    puts(older ? ".centre { fill: none; stroke: #0b3f91; stroke-width: 2; stroke-linejoin: round }"
               : ".route { fill: none; stroke: #222; stroke-width: 1.5; stroke-linejoin: round }\n"
                 ".centre { fill: none; stroke: #222; stroke-width: 3.5; stroke-linejoin: round }");
}

static void draw_group_styles(void)
{
    for (unsigned k = 0; k < COLOURS; k++)
        printf(".route.g%u, .centre.g%u { stroke: %s }\n.end.g%u, .label.g%u { fill: %s }\n", k, k, colours[k], k, k, colours[k]);
}

static void draw_style(bool older)
{
    puts("<style>\n"
         "text { font: 14px sans-serif; fill: #222 }\n"
         ".survey { stroke: #d9dde2; stroke-width: 1 }\n"
         ".trench, .key { stroke-linecap: round }\n"
         ".one { stroke: #e6c79c; stroke-width: 6 }\n"
         ".two { stroke: #d07f35; stroke-width: 10 }\n"
         ".more { stroke: #8c4a12; stroke-width: 14 }");
    draw_centre_style(older);
    puts(".pit, .crossing { fill: #fff; stroke: #222; stroke-width: 1.5 }\n"
         ".end { fill: #222 }");
    if (older)
        puts(".end.of-centre { fill: #0b3f91 }");
    puts(".label { font-weight: bold }");
    puts(older ? ".label.of-centre { fill: #0b3f91 }" : ".label.of-centre { text-decoration: underline }");
    if (!older)
        draw_group_styles();
    puts(".scale { fill: none; stroke: #222; stroke-width: 1.5 }\n"
         "</style>");
}

/* The survey lines, across the whole map. */
static void draw_survey_lines(const struct grid *survey, const struct grid *grid, const struct view *v)
{
    double west = across(v, first_line(&grid->columns)) - REACH, east = across(v, last_line(&grid->columns)) + REACH;
    double north = down(v, last_line(&grid->rows)) - REACH, south = down(v, first_line(&grid->rows)) + REACH;
    for (int a = 0; a < survey->columns.count; a++) {
        double x = across(v, survey->columns.at[a]);
        printf("<line class=\"survey\" x1=\"%.3f\" y1=\"%.3f\" x2=\"%.3f\" y2=\"%.3f\"/>\n", x, north, x, south);
    }
    for (int b = 0; b < survey->rows.count; b++) {
        double y = down(v, survey->rows.at[b]);
        printf("<line class=\"survey\" x1=\"%.3f\" y1=\"%.3f\" x2=\"%.3f\" y2=\"%.3f\"/>\n", west, y, east, y);
    }
}

static int count(cables who)
{
    int ones = 0;
    for (; who; who &= who - 1)
        ones++;
    return ones;
}

/* One trench from p to q, with the runs whose cables lie in it. */
static void draw_trench(const struct plan *plan, const struct view *v, struct point p, struct point q, cables who)
{
    int carried = count(who);
    printf("<line class=\"trench %s\" x1=\"%.3f\" y1=\"%.3f\" x2=\"%.3f\" y2=\"%.3f\"><title>%" PRId32 ",%" PRId32 " to %" PRId32
           ",%" PRId32 ": run",
           carried == 1 ? "one" : carried == 2 ? "two" : "more", across(v, p.x), down(v, p.y), across(v, q.x), down(v, q.y), p.x,
           p.y, q.x, q.y);
    for (unsigned i = 0; i < plan->runs; i++)
        if (who >> i & 1)
            printf(" %u", plan->route[i].run);
    puts("</title></line>");
}

/* The trenches along one row or column: a piece for each stretch in which the same cables lie. */
static void draw_line_of_trenches(const struct plan *plan, const struct grid *grid, const struct view *v, bool row, int line)
{
    static cables edges[MOST_LINES];
    const int32_t *column = grid->columns.at, *level = grid->rows.at;
    int edge_count = (row ? grid->columns.count : grid->rows.count) - 1;
    lay_cables(plan, grid, row, line, edges);
    for (int from = 0, to; from < edge_count; from = to) {
        for (to = from + 1; to < edge_count && edges[to] == edges[from]; to++)
            ;
        struct point p = { column[row ? from : line], level[row ? line : from] };
        struct point q = { column[row ? to : line], level[row ? line : to] };
        if (edges[from])
            draw_trench(plan, v, p, q, edges[from]);
    }
}

static void draw_trenches(const struct plan *plan, const struct grid *grid, const struct view *v)
{
    for (int b = 0; b < grid->rows.count; b++)
        draw_line_of_trenches(plan, grid, v, true, b);
    for (int a = 0; a < grid->columns.count; a++)
        draw_line_of_trenches(plan, grid, v, false, a);
}

static void draw_corners(const struct route *route, const struct view *v)
{
    for (unsigned k = 0; k < route->corners; k++)
        printf("%s%.3f,%.3f", k ? " " : "", across(v, route->corner[k].x), down(v, route->corner[k].y));
}

/* The centre of an older plan. */
static void draw_centre(const struct plan *plan, const struct view *v)
{
    for (unsigned i = 0; i < plan->runs; i++)
        if (plan->route[i].centre) {
            printf("<polyline class=\"centre\" points=\"");
            draw_corners(&plan->route[i], v);
            puts("\"/>");
        }
}

/* The routes of a plan's groups that are centres, or the others, each in its group's colour. */
static void draw_routes(const struct plan *plan, const struct view *v, bool centres)
{
    for (unsigned i = 0; i < plan->runs; i++) {
        const struct route *route = &plan->route[i];
        if (route->centre != centres)
            continue;
        printf("<polyline class=\"%s g%u\" points=\"", centres ? "centre" : "route", route->group % COLOURS);
        draw_corners(route, v);
        printf("\"><title>run %u, %s %u</title></polyline>\n", route->run, centres ? "centre of group" : "group",
               plan->group[route->group].centre);
    }
}

/* Whether this corner stands in no route before it. */
static bool is_new(const struct plan *plan, unsigned i, unsigned k)
{
    for (unsigned j = 0; j <= i; j++)
        for (unsigned m = 0; m < (j < i ? plan->route[j].corners : k); m++)
            if (same(plan->route[j].corner[m], plan->route[i].corner[k]))
                return false;
    return true;
}

/* The pits where cables end or turn. */
static void draw_pits(const struct plan *plan, const struct view *v)
{
    for (unsigned i = 0; i < plan->runs; i++)
        for (unsigned k = 0; k < plan->route[i].corners; k++) {
            struct point p = plan->route[i].corner[k];
            if (is_new(plan, i, k))
                printf("<circle class=\"pit\" cx=\"%.3f\" cy=\"%.3f\" r=\"5\"><title>%" PRId32 ",%" PRId32 "</title></circle>\n",
                       across(v, p.x), down(v, p.y), p.x, p.y);
        }
}

/* What lies at each column of one row. */
struct level {
    cables along[MOST_LINES]; /* the cables along the row, from this column to the next */
    cables over[MOST_LINES];  /* the cables that go straight on over the row, along the column */
    bool corner[MOST_LINES];  /* whether a cable ends or turns there */
};

static bool between(int32_t a, int32_t b, int32_t at)
{
    return (a < at && at < b) || (b < at && at < a);
}

static void lay_level(const struct plan *plan, const struct grid *grid, int line, struct level *level)
{
    int32_t at = grid->rows.at[line];
    memset(level, 0, sizeof *level);
    lay_cables(plan, grid, true, line, level->along);
    for (unsigned i = 0; i < plan->runs; i++)
        for (unsigned k = 0; k < plan->route[i].corners; k++) {
            struct point p = plan->route[i].corner[k ? k - 1 : 0], q = plan->route[i].corner[k];
            if (between(p.y, q.y, at))
                level->over[below(&grid->columns, q.x)] |= (cables)1 << i;
            if (q.y == at)
                level->corner[below(&grid->columns, q.x)] = true;
        }
}

/* Whether one cable goes straight on along the row and another along the column, and none ends or turns there. */
static bool is_crossing(const struct level *level, int column)
{
    cables along = column ? level->along[column - 1] & level->along[column] : 0, over = level->over[column];
    return along && over && count(along | over) > 1 && !level->corner[column];
}

/* A square with a cross in it, and its title, if any. */
static void draw_square(const char *class, double x, double y, const char *title)
{
    printf("<path class=\"%s\" d=\"M%.3f %.3f m-5 -5 h10 v10 h-10 z l10 10 m0 -10 l-10 10\">%s</path>\n", class, x, y, title);
}

/* The pits where cables cross and none ends or turns. */
static void draw_crossings(const struct plan *plan, const struct grid *grid, const struct view *v)
{
    static struct level level;
    for (int b = 0; b < grid->rows.count; b++) {
        lay_level(plan, grid, b, &level);
        for (int a = 0; a < grid->columns.count; a++)
            if (is_crossing(&level, a)) {
                struct point p = { grid->columns.at[a], grid->rows.at[b] };
                char title[48];
                snprintf(title, sizeof title, "<title>%" PRId32 ",%" PRId32 "</title>", p.x, p.y);
                draw_square("crossing", across(v, p.x), down(v, p.y), title);
            }
    }
}

/* ---- the runs' points and their numbers ---- */

struct area {
    double left, top, right, bottom;
};

static bool apart(struct area a, struct area b)
{
    return a.right < b.left || b.right < a.left || a.bottom < b.top || b.bottom < a.top;
}

/* The part of the sheet that a straight piece of a route covers, with its pits. */
static struct area piece(const struct view *v, struct point p, struct point q)
{
    double x = across(v, p.x), y = down(v, p.y), w = across(v, q.x), z = down(v, q.y);
    struct area a = { (x < w ? x : w) - 6, (y < z ? y : z) - 6, (x < w ? w : x) + 6, (y < z ? z : y) + 6 };
    return a;
}

struct labels {
    int count;
    struct area taken[2 * TRENCH_MOST_RUNS];
};

static bool is_free(const struct plan *plan, const struct view *v, const struct labels *labels, struct area a)
{
    for (int n = 0; n < labels->count; n++)
        if (!apart(a, labels->taken[n]))
            return false;
    for (unsigned i = 0; i < plan->runs; i++)
        for (unsigned k = 0; k < plan->route[i].corners; k++)
            if (!apart(a, piece(v, plan->route[i].corner[k ? k - 1 : 0], plan->route[i].corner[k])))
                return false;
    return true;
}

/* Where a label of this many characters stands near p: the first free of the four corners around it, or the upper right. */
static struct area label_at(const struct plan *plan, const struct view *v, struct labels *labels, struct point p, int characters)
{
    double width = 9.0 * characters, height = 11, x = across(v, p.x), y = down(v, p.y);
    struct area around[4] = {
        { x + 8, y - 8 - height, x + 8 + width, y - 8 },
        { x - 8 - width, y - 8 - height, x - 8, y - 8 },
        { x + 8, y + 8, x + 8 + width, y + 8 + height },
        { x - 8 - width, y + 8, x - 8, y + 8 + height },
    };
    int chosen = 0;
    for (int i = 3; i >= 0; i--)
        if (is_free(plan, v, labels, around[i]))
            chosen = i;
    labels->taken[labels->count++] = around[chosen];
    return around[chosen];
}

static struct point end_of(const struct plan *plan, unsigned n)
{
    return n % 2 ? last(&plan->route[n / 2]) : first(&plan->route[n / 2]);
}

/* The numbers of all runs that start or end at p, as text; and the classes that tell the group of all of them, if it is one, and
 * whether a centre is among them. */
static void name_end(const struct plan *plan, struct point p, char *text, size_t room, char *classes, size_t classes_room)
{
    bool centre = false, alike = !plan->older;
    size_t length = 0;
    unsigned group = 0;
    for (unsigned i = 0; i < plan->runs; i++)
        if (same(p, first(&plan->route[i])) || same(p, last(&plan->route[i]))) {
            alike = alike && (length == 0 || plan->route[i].group == group);
            group = plan->route[i].group;
            length += (size_t)snprintf(text + length, room - length, "%s%u", length ? "," : "", plan->route[i].run);
            centre = centre || plan->route[i].centre;
        }
    if (alike)
        snprintf(classes, classes_room, "%s g%u", centre ? " of-centre" : "", group % COLOURS);
    else
        snprintf(classes, classes_room, "%s", centre ? " of-centre" : "");
}

/* The runs' points, each with the numbers of all runs that start or end there. */
static void draw_ends(const struct plan *plan, const struct view *v)
{
    struct labels labels = { .count = 0 };
    for (unsigned n = 0; n < 2 * plan->runs; n++) {
        struct point p = end_of(plan, n);
        bool seen = false;
        for (unsigned m = 0; m < n; m++)
            seen = seen || same(p, end_of(plan, m));
        if (seen)
            continue;
        char text[6 * TRENCH_MOST_RUNS + 1], who[32];
        name_end(plan, p, text, sizeof text, who, sizeof who);
        struct area at = label_at(plan, v, &labels, p, (int)strlen(text));
        printf("<circle class=\"end%s\" cx=\"%.3f\" cy=\"%.3f\" r=\"3\"><title>%" PRId32 ",%" PRId32 "</title></circle>\n", who,
               across(v, p.x), down(v, p.y), p.x, p.y);
        printf("<text class=\"label%s\" x=\"%.3f\" y=\"%.3f\">%s</text>\n", who, at.left, at.bottom, text);
    }
}

/* ---- the foot of the sheet ---- */

/* A round length that is drawn 60 to 150 pixels wide, in decimetres. */
static double round_length(const struct view *v)
{
    double length = 1;
    for (int i = 0; length * v->scale < 60; i++)
        length *= i % 3 == 1 ? 2.5 : 2;
    return length;
}

static void draw_text(double x, double y, const char *text)
{
    printf("<text x=\"%.1f\" y=\"%.1f\">%s</text>\n", x, y + 5, text);
}

static void draw_scale(const struct view *v, double y)
{
    char text[40];
    double length = round_length(v), pixels = length * v->scale;
    printf("<path class=\"scale\" d=\"M%d %.1f v8 h%.3f v-8\"/>\n", MARGIN, y - 4, pixels);
    if (length < 10)
        snprintf(text, sizeof text, "%.0f dm", length);
    else
        snprintf(text, sizeof text, "%.0f m", length / 10);
    draw_text(MARGIN + pixels + 8, y, text);
}

static void draw_sample(const char *class, double x, double y)
{
    printf("<line class=\"%s\" x1=\"%.1f\" y1=\"%.1f\" x2=\"%.1f\" y2=\"%.1f\"/>\n", class, x, y, x + 24, y);
}

static void draw_key(bool older, double x, double y)
{
    draw_sample("key one", x, y);
    draw_text(x + 34, y, "one cable");
    draw_sample("key two", x + 120, y);
    draw_text(x + 154, y, "two cables");
    draw_sample(older ? "centre" : "key centre", x + 248, y);
    draw_text(x + 280, y, older ? "centre" : "a group's centre");
    printf("<circle class=\"key pit\" cx=\"%.1f\" cy=\"%.1f\" r=\"5\"/>\n", x + 12, y + 24);
    draw_text(x + 34, y + 24, "pit at an end or a turn");
    draw_square("key crossing", x + 260, y + 24, "");
    draw_text(x + 280, y + 24, "pit where cables cross");
}

/* The groups, each with its colour, its centre and how many runs it has. */
static void draw_groups(const struct plan *plan, const struct view *v, double y)
{
    for (unsigned g = 0; g < plan->groups; g++) {
        char class[24], text[48];
        double x = MARGIN + g % v->abreast * GROUP_WIDTH, row = y + g / v->abreast * GROUP_HEIGHT;
        snprintf(class, sizeof class, "key centre g%u", g % COLOURS);
        snprintf(text, sizeof text, "centre %u: %u run%s", plan->group[g].centre, plan->group[g].runs,
                 plan->group[g].runs == 1 ? "" : "s");
        draw_sample(class, x, row);
        draw_text(x + 34, row, text);
    }
}

/* The job, its runs, and the centre or the groups as the plan's head has them. */
static void draw_head(const struct plan *plan, double y)
{
    printf("<text x=\"%d\" y=\"%.1f\">job %" PRIu32 ": ", MARGIN, y, plan->job);
    if (!plan->runs)
        printf("no runs");
    else if (plan->older)
        printf("%u run%s, centre %u", plan->runs, plan->runs == 1 ? "" : "s", plan->last);
    else
        printf("%u run%s, %u group%s", plan->runs, plan->runs == 1 ? "" : "s", plan->last, plan->last == 1 ? "" : "s");
    puts("</text>");
}

static void draw_foot(const struct plan *plan, const struct view *v)
{
    double y = v->foot;
    draw_head(plan, y);
    printf("<text x=\"%d\" y=\"%.1f\">trench %" PRIu32 " dm, saved %" PRIu32 " dm, pits %u</text>\n", MARGIN, y + 22, plan->trench,
           plan->saved, plan->pits);
    draw_key(plan->older, MARGIN, y + 46);
    if (plan->runs)
        draw_scale(v, y + 98);
    draw_groups(plan, v, y + 122);
}

static void draw(const struct plan *plan)
{
    static struct grid survey, grid;
    lay_survey(plan, &survey);
    lay_grid(plan, &grid);
    struct view v = fit(plan, &grid);
    printf("<svg xmlns=\"http://www.w3.org/2000/svg\" viewBox=\"0 0 %.0f %.0f\" width=\"%.0f\" height=\"%.0f\">\n", v.width, v.height,
           v.width, v.height);
    printf("<title>Trenches of job %" PRIu32 "</title>\n", plan->job);
    draw_style(plan->older);
    puts("<rect width=\"100%\" height=\"100%\" fill=\"#fff\"/>");
    draw_survey_lines(&survey, &grid, &v);
    draw_trenches(plan, &grid, &v);
    if (plan->older) {
        draw_centre(plan, &v);
    } else {
        draw_routes(plan, &v, false);
        draw_routes(plan, &v, true);
    }
    draw_pits(plan, &v);
    draw_crossings(plan, &grid, &v);
    draw_ends(plan, &v);
    draw_foot(plan, &v);
    puts("</svg>");
}

int main(int argc, char **argv)
{
    static struct book books[2];
    static struct plan plan;
    bool stored = argc == 3 && strcmp(argv[1], "--plan") == 0, clicked = argc > 3 && strcmp(argv[1], "--clicks") == 0;
    bool chosen = argc == 5 && strcmp(argv[1], "--choose") == 0;
    if (argc != 2 && !stored && !clicked && !chosen) {
        fprintf(stderr, "usage: map JOB > plan.svg            a job book, or - for standard input\n"
                        "       map --plan BOOK > plan.svg    a stored plan book, or - for standard input\n"
                        "       map --choose JOB FIRST SECOND > plan.svg\n"
                        "                                     the one of two plan books of a job that is to be staked from\n"
                        "       map --clicks NUMBER BOOK [X,Y X,Y].. > plan.svg\n"
                        "                                     a job of these runs, or of points on standard input; it goes to BOOK\n");
        return FAILED;
    }
    const struct book *book = &books[0];
    if (chosen) {
        read_book(argv[3], &books[0]);
        read_book(argv[4], &books[1]);
        book = choose(argv[2], books);
    } else if (stored) {
        read_book(argv[2], &books[0]);
    } else if (clicked) {
        plan_clicks(argv[2], argv[3], argv + 4, &books[0]);
    } else {
        plan_file(argv[1], &books[0]);
    }
    read_plan(book->name, book->bytes, book->length, &plan);
    draw(&plan);
    if (fflush(stdout) != 0 || ferror(stdout))
        fail("standard output", "cannot be written");
    return 0;
}
