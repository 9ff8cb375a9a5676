/* A plain C writer of job books, the forecast, the places of a job's refusals, and the planner with work words of its own: what stands
 * in for those of the archive while it is not built. */
#include <stdbool.h>
#include <string.h>

#include "trench.h"

enum { HEAD = 0x48, RUN = 0x52, END = 0x5A };
enum { HEAD_LENGTH = 5, RUN_LENGTH = 19, END_LENGTH = 3 };
enum { TOP_NUMBER = 9999, FAR = 1000000 };

struct refusal {
    int32_t number; /* 0 for none */
    size_t place;
};

static bool outside(int32_t c)
{
    return c < -FAR || c > FAR;
}

/* ---- the writer ---- */

/* The first refusal of a list that applies. */
static struct refusal judge(const int32_t *runs, size_t runs_len, size_t out_len)
{
    size_t count = runs_len / TRENCH_RUN;
    int32_t before = 0;
    if (runs_len % TRENCH_RUN)
        return (struct refusal){ TRENCH_CUT, runs_len };
    if (count > TRENCH_MOST_RUNS)
        return (struct refusal){ TRENCH_TOO_MANY_RUNS, TRENCH_MOST_RUNS };
    for (size_t i = 0; i < count; i++) {
        const int32_t *run = runs + TRENCH_RUN * i;
        if (run[0] <= before || run[0] > TOP_NUMBER)
            return (struct refusal){ TRENCH_RUN_NUMBER, i };
        for (int k = 1; k < TRENCH_RUN; k++)
            if (outside(run[k]))
                return (struct refusal){ TRENCH_COORDINATE, i };
        if (run[1] == run[3] && run[2] == run[4])
            return (struct refusal){ TRENCH_COINCIDENT, i };
        before = run[0];
    }
    if (out_len < HEAD_LENGTH + RUN_LENGTH * count + END_LENGTH)
        return (struct refusal){ TRENCH_SHORT_BUFFER, 0 };
    return (struct refusal){ 0, 0 };
}

static uint8_t *put(uint8_t *to, uint32_t value, int bytes)
{
    for (int i = 0; i < bytes; i++)
        *to++ = (uint8_t)(value >> 8 * i);
    return to;
}

int32_t trench_job(uint32_t number, const int32_t *runs, size_t runs_len, uint8_t *out, size_t out_len)
{
    struct refusal refused = judge(runs, runs_len, out_len);
    if (refused.number)
        return -refused.number;
    uint8_t *to = put(put(out, HEAD, 1), number, 4);
    for (size_t at = 0; at < runs_len; at += TRENCH_RUN) {
        to = put(put(to, RUN, 1), (uint32_t)runs[at], 2);
        for (int k = 1; k < TRENCH_RUN; k++)
            to = put(to, (uint32_t)runs[at + (size_t)k], 4);
    }
    to = put(put(to, END, 1), (uint32_t)(runs_len / TRENCH_RUN), 2);
    return (int32_t)(to - out);
}

size_t trench_job_place(uint32_t number, const int32_t *runs, size_t runs_len, const uint8_t *out, size_t out_len)
{
    (void)number, (void)out;
    return judge(runs, runs_len, out_len).place;
}

/* ---- the planner with words of its own ---- */

int32_t trench_plan(const uint8_t *job, size_t job_len, uint8_t *out, size_t out_len)
{
    uint32_t work[TRENCH_MOST_WORDS];
    return trench_plan_in(job, job_len, work, TRENCH_MOST_WORDS, out, out_len);
}

/* ---- the refusals of a job that is not well formed ---- */

static uint32_t half_at(const uint8_t *p)
{
    return (uint32_t)p[0] | (uint32_t)p[1] << 8;
}

static int32_t word_at(const uint8_t *p)
{
    return (int32_t)(half_at(p) | half_at(p + 2) << 16);
}

static size_t record_length(uint8_t kind)
{
    return kind == HEAD ? HEAD_LENGTH : kind == RUN ? RUN_LENGTH : kind == END ? END_LENGTH : 0;
}

/* The number with which a run is refused behind one of this number, from 0 on; 0 for none. */
static int32_t wrong_run(const uint8_t *run, uint32_t before)
{
    if (half_at(run + 1) <= before || half_at(run + 1) > TOP_NUMBER)
        return TRENCH_RUN_NUMBER;
    for (int k = 0; k < 4; k++)
        if (outside(word_at(run + 3 + 4 * k)))
            return TRENCH_COORDINATE;
    return memcmp(run + 3, run + 11, 8) == 0 ? TRENCH_COINCIDENT : 0;
}

/* The first of the refusals 3 to 9 and 17 that applies, and the number of runs where none does. */
static struct refusal read_job(const uint8_t *job, size_t job_len, size_t *runs)
{
    uint32_t before = 0;
    *runs = 0;
    for (size_t at = 0;;) {
        size_t length = at < job_len ? record_length(job[at]) : 0;
        int32_t wrong = at == job_len ? TRENCH_CUT : length == 0 ? TRENCH_UNKNOWN_KIND : job_len - at < length ? TRENCH_CUT : 0;
        if (!wrong && (job[at] == HEAD) != (at == 0))
            wrong = TRENCH_OUT_OF_PLACE;
        if (!wrong && job[at] == RUN)
            wrong = *runs == TRENCH_MOST_RUNS ? TRENCH_TOO_MANY_RUNS : wrong_run(job + at, before);
        if (!wrong && job[at] == END && half_at(job + at + 1) != *runs)
            wrong = TRENCH_WRONG_COUNT;
        if (wrong)
            return (struct refusal){ wrong, at };
        at += length;
        if (length == END_LENGTH)
            return at < job_len ? (struct refusal){ TRENCH_OUT_OF_PLACE, at } : (struct refusal){ 0, 0 };
        if (length == RUN_LENGTH) {
            before = half_at(job + at - RUN_LENGTH + 1);
            ++*runs;
        }
    }
}

/* 1, 2 and 11 have place 0: neither what is lent nor whether the groups are stars need be asked. */
size_t trench_plan_place(const uint8_t *job, size_t job_len)
{
    size_t runs;
    return read_job(job, job_len, &runs).place;
}

/* ---- the forecast ---- */

/* How many different coordinates of one axis, 0 for x and 1 for y, the points of a job have from low to high. */
static int32_t lines(const uint8_t *job, size_t runs, int axis, int32_t low, int32_t high)
{
    int32_t seen[2 * TRENCH_MOST_RUNS], count = 0;
    for (size_t i = 0; i < 2 * runs; i++) {
        int32_t at = word_at(job + HEAD_LENGTH + RUN_LENGTH * (i / 2) + 3 + 8 * (i % 2) + 4 * (size_t)axis), k = 0;
        while (k < count && seen[k] != at)
            k++;
        if (k == count && low <= at && at <= high)
            seen[count++] = at;
    }
    return count;
}

/* The lines of one axis that touch a run's box. */
static int32_t touching(const uint8_t *job, size_t runs, const uint8_t *run, int axis)
{
    int32_t p = word_at(run + 3 + 4 * axis), q = word_at(run + 11 + 4 * axis);
    return lines(job, runs, axis, p < q ? p : q, p < q ? q : p);
}

int32_t trench_words(const uint8_t *job, size_t job_len)
{
    size_t runs;
    int32_t refused = read_job(job, job_len, &runs).number;
    return refused ? -refused : 4 * lines(job, runs, 0, -FAR, FAR) * lines(job, runs, 1, -FAR, FAR);
}

int32_t trench_bytes(const uint8_t *job, size_t job_len)
{
    size_t runs;
    int32_t refused = read_job(job, job_len, &runs).number, bytes = 22;
    for (size_t i = 0; !refused && i < runs; i++) {
        const uint8_t *run = job + HEAD_LENGTH + RUN_LENGTH * i;
        bytes += 9 + 9 * (touching(job, runs, run, 0) + touching(job, runs, run, 1) - 1);
    }
    return refused ? -refused : bytes;
}
