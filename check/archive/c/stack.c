/* How much stack the archive's functions need: runs them on a stack of its own that was painted before, and looks how far it was
 * used.
 *
 *   stack JOB..            prints the greatest need in bytes of all that follow
 *   stack --plan JOB..     of planning the jobs in the planner's own words
 *   stack --in JOB..       of planning them in lent words
 *   stack --ask JOB..      of their forecasts, and of the places of refusals
 *   stack --read JOB..     of reading the jobs' plans, the longest book, and the jobs' bytes, which are no plan
 *   stack --write JOB..    of writing jobs from lists
 *   stack --choose JOB..   of choosing between two plans of a job, which are the planner's, and of the longest book
 *
 * Exit status 1 where the need is above TRENCH_STACK, 2 where something went wrong.
 */
#define _XOPEN_SOURCE 700
#include <pthread.h>
#include <stdbool.h>
#include <stdio.h>
#include <stdlib.h>
#include <string.h>

#include "trench.h"

enum { ROOM = 1 << 21, PAINT = 0x5C };

struct call {
    uint8_t job[4096], book[TRENCH_LONGEST_PLAN];
    uint32_t work[TRENCH_MOST_WORDS];
    size_t length, book_length, numbers;
    int32_t answer, words, bytes, corner[TRENCH_CORNER], list[(TRENCH_MOST_RUNS + 1) * TRENCH_RUN];
    uint32_t figures[TRENCH_FIGURES], places[TRENCH_PLACES], route[TRENCH_ROUTE];
    size_t place, corners;
};

static void *nothing(void *call)
{
    return call;
}

static void *planned(void *given)
{
    struct call *call = given;
    call->answer = trench_plan(call->job, call->length, call->book, sizeof call->book);
    return given;
}

static void *planned_in(void *given)
{
    struct call *call = given;
    call->answer = trench_plan_in(call->job, call->length, call->work, TRENCH_MOST_WORDS, call->book, sizeof call->book);
    return given;
}

/* Asks all that is asked of a job alone. */
static void *asked(void *given)
{
    struct call *call = given;
    call->place = trench_plan_place(call->job, call->length);
    call->words = trench_words(call->job, call->length);
    call->bytes = trench_bytes(call->job, call->length);
    return given;
}

/* Writes the job of a list and asks for the place of its refusal. */
static void *written(void *given)
{
    struct call *call = given;
    call->answer = trench_job(7, call->list, call->numbers, call->book, sizeof call->book);
    call->place = trench_job_place(7, call->list, call->numbers, call->book, sizeof call->book);
    return given;
}

/* Chooses between a book and itself, and asks for the place of the refusal. */
static void *chosen(void *given)
{
    struct call *call = given;
    const uint8_t *book = call->book;
    size_t length = call->book_length;
    call->answer = trench_choose(call->job, call->length, book, length, book, length);
    call->place = trench_choose_place(call->job, call->length, book, length, book, length);
    return given;
}

/* Calls every function of the reader, and asks for every corner. */
static void *read_back(void *given)
{
    struct call *call = given;
    const uint8_t *book = call->book;
    size_t length = call->book_length;
    call->answer = trench_read(book, length);
    call->place = trench_read_place(book, length);
    call->corners = 0;
    trench_figures(book, length, call->figures, TRENCH_FIGURES);
    trench_places(book, length, call->places, TRENCH_PLACES);
    for (size_t i = 0; trench_route(book, length, call->places, TRENCH_PLACES, i, call->route, TRENCH_ROUTE); i++)
        for (size_t j = 0; trench_corner(book, length, call->places, TRENCH_PLACES, i, j, call->corner, TRENCH_CORNER); j++)
            call->corners++;
    return given;
}

/* The bytes of a painted stack that a thread changed, counted from the deepest. */
static size_t used(void *(*body)(void *), struct call *call)
{
    uint8_t *stack = NULL;
    pthread_attr_t attributes;
    pthread_t thread;
    if (posix_memalign((void **)&stack, 4096, ROOM) != 0)
        exit(2);
    memset(stack, PAINT, ROOM);
    if (pthread_attr_init(&attributes) || pthread_attr_setstack(&attributes, stack, ROOM) ||
        pthread_create(&thread, &attributes, body, call) || pthread_join(thread, NULL))
        exit(2);
    pthread_attr_destroy(&attributes);
    size_t deepest = 0;
    while (deepest < ROOM && stack[deepest] == PAINT)
        deepest++;
    free(stack);
    return ROOM - deepest;
}

/* What a body needs beyond the thread itself. */
static size_t need(void *(*body)(void *), struct call *call)
{
    static size_t alone = 0;
    if (alone == 0)
        alone = used(nothing, call);
    size_t all = used(body, call);
    return all > alone ? all - alone : 0;
}

static uint8_t *put(uint8_t *to, uint32_t value, int bytes)
{
    for (int i = 0; i < bytes; i++)
        *to++ = (uint8_t)(value >> 8 * i);
    return to;
}

/* The longest book that is read: 32 routes of 127 corners, each a stair. Gives its length. */
static size_t longest_book(uint8_t *book)
{
    uint8_t *to = put(put(put(book, 0x51, 1), 7, 4), TRENCH_MOST_RUNS, 2);
    to = put(put(put(to, 0, 4), 0, 4), 0, 4);
    for (uint32_t i = 0; i < TRENCH_MOST_RUNS; i++) {
        to = put(put(put(put(put(to, 0x4F, 1), i + 1, 2), 0, 2), TRENCH_MOST_CORNERS, 2), i + 1, 2);
        for (uint32_t j = 0; j < TRENCH_MOST_CORNERS; j++)
            to = put(put(put(to, 0x43, 1), (j + 1) / 2, 4), j / 2, 4);
    }
    to = put(put(to, 0x5A, 1), TRENCH_MOST_RUNS * TRENCH_MOST_CORNERS, 2);
    return (size_t)(to - book);
}

static size_t most(size_t a, size_t b)
{
    return a < b ? b : a;
}

/* The need of reading the book of a call, which has to be accepted with so many corners, or refused. */
static size_t reading(struct call *call, size_t length, bool accepted, size_t corners)
{
    call->book_length = length;
    size_t bytes = need(read_back, call);
    if ((call->answer >= 0) != accepted || call->corners < corners)
        exit(2);
    return bytes;
}

/* The need of choosing between the book of a call and itself, which has to be handed back, or refused as the first. */
static size_t choosing(struct call *call, size_t length, bool accepted)
{
    call->book_length = length;
    size_t bytes = need(chosen, call);
    if (accepted ? call->answer != 1 || call->place != 0 : call->answer > 0 || call->place != 1)
        exit(2);
    return bytes;
}

/* The need of writing the job of so many runs, which has to be accepted, or refused with its place. */
static size_t writing(struct call *call, size_t runs)
{
    call->numbers = runs * TRENCH_RUN;
    for (size_t i = 0; i < call->numbers; i++)
        call->list[i] = (int32_t)(i / TRENCH_RUN + i % TRENCH_RUN / 3 + 1); /* run n goes from n,n to n+1,n+1 */
    size_t bytes = need(written, call);
    if (runs > TRENCH_MOST_RUNS ? call->place != TRENCH_MOST_RUNS : call->answer != (int32_t)(8 + 19 * runs))
        exit(2);
    return bytes;
}

/* What is measured, and the word that asks for it alone. */
enum need { PLANNING, PLANNING_IN, ASKING, READING, WRITING, CHOOSING, NEEDS };
static const char *const word[NEEDS] = { "--plan", "--in", "--ask", "--read", "--write", "--choose" };

/* The needs of one job; its plan is read and chosen. */
static void measure(struct call *call, size_t needs[NEEDS])
{
    needs[ASKING] = most(needs[ASKING], need(asked, call));
    needs[PLANNING_IN] = most(needs[PLANNING_IN], need(planned_in, call));
    needs[PLANNING] = most(needs[PLANNING], need(planned, call));
    if (call->answer > 0) {
        size_t length = (size_t)call->answer;
        needs[READING] = most(needs[READING], reading(call, length, true, 0));
        needs[CHOOSING] = most(needs[CHOOSING], choosing(call, length, true));
        needs[CHOOSING] = most(needs[CHOOSING], choosing(call, longest_book(call->book), false));
    }
    memcpy(call->book, call->job, call->length);
    needs[READING] = most(needs[READING], reading(call, call->length, false, 0));
}

int main(int argc, char **argv)
{
    static struct call call;
    size_t needs[NEEDS] = { 0 }, bytes = 0, alone = 0;
    static const size_t runs[] = { 0, 1, TRENCH_MOST_RUNS, TRENCH_MOST_RUNS + 1 };
    for (size_t i = 0; i < sizeof runs / sizeof *runs; i++)
        needs[WRITING] = most(needs[WRITING], writing(&call, runs[i]));
    while (alone < NEEDS && (argc < 2 || strcmp(argv[1], word[alone]) != 0))
        alone++;
    for (int i = alone < NEEDS ? 2 : 1; i < argc; i++) {
        FILE *file = fopen(argv[i], "rb");
        if (!file)
            return 2;
        call.length = fread(call.job, 1, sizeof call.job, file);
        fclose(file);
        measure(&call, needs);
    }
    size_t longest = reading(&call, longest_book(call.book), true, TRENCH_MOST_RUNS * TRENCH_MOST_CORNERS);
    needs[READING] = most(needs[READING], longest);
    for (size_t i = 0; i < NEEDS; i++)
        bytes = alone == NEEDS || alone == i ? most(bytes, needs[i]) : bytes;
    printf("%zu\n", bytes);
    return bytes <= TRENCH_STACK ? 0 : 1;
}
