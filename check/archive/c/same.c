/* Whether the plain C reader answers as the archive's does, for the plan books on standard input: each its length, 4 bytes, least
 * first, and then its bytes.
 *
 *   same        prints how many books it tried
 *
 * Exit status 1 at the first book that is answered otherwise, 2 where nothing could be read.
 */
#include <stdbool.h>
#include <stdio.h>
#include <stdlib.h>
#include <string.h>

#include "../../bench/read.h"
#include "trench.h"

/* Indexes past every route and every corner are asked for too. */
enum { ROUTES = TRENCH_MOST_RUNS + 2, CORNERS = TRENCH_MOST_CORNERS + 2, WORDS = TRENCH_PLACES + 1 };

/* The words that two functions are lent, equal before. */
static uint32_t left[WORDS], right[WORDS];
static int32_t left_corner[WORDS], right_corner[WORDS];

static bool agree(size_t answer, size_t other)
{
    bool words = memcmp(left, right, sizeof left) == 0 && memcmp(left_corner, right_corner, sizeof left_corner) == 0;
    return answer == other && words;
}

/* Whether both read the book alike. */
static bool same_whole(const uint8_t *book, size_t length)
{
    bool same = trench_read(book, length) == plain_read(book, length);
    same = same && trench_read_place(book, length) == plain_read_place(book, length);
    for (size_t room = 0; same && room <= WORDS; room++) {
        same = agree(trench_figures(book, length, left, room), plain_figures(book, length, right, room));
        same = same && agree(trench_places(book, length, left, room), plain_places(book, length, right, room));
    }
    return same;
}

/* Whether both give the same routes and corners by these places. */
static bool same_parts(const uint8_t *book, size_t length, const uint32_t *places, size_t count)
{
    bool same = true;
    for (size_t n = 0; same && n <= ROUTES; n++) {
        size_t i = n < ROUTES ? n : SIZE_MAX, room = n % 3 ? TRENCH_ROUTE : TRENCH_ROUTE - 1;
        same = agree(trench_route(book, length, places, count, i, left, room),
                     plain_route(book, length, places, count, i, right, room));
        for (size_t m = 0; same && m <= CORNERS; m++) {
            size_t j = m < CORNERS ? m : SIZE_MAX, space = m % 9 ? TRENCH_CORNER : TRENCH_CORNER - 1;
            same = agree(trench_corner(book, length, places, count, i, j, left_corner, space),
                         plain_corner(book, length, places, count, i, j, right_corner, space));
        }
    }
    return same;
}

/* Asks by the book's own places, by those of the book before, and by places that are near records of the book. */
static bool same_answers(const uint8_t *book, size_t length)
{
    static uint32_t before[TRENCH_PLACES];
    uint32_t places[TRENCH_PLACES], near[TRENCH_PLACES];
    trench_places(book, length, places, TRENCH_PLACES);
    for (int k = 0; k < TRENCH_PLACES; k++)
        near[k] = k % 4 == 3 ? (uint32_t)length + 9 : places[k] + 9 * (uint32_t)(k % 3);
    bool same = same_whole(book, length) && same_parts(book, length, places, TRENCH_PLACES) &&
                same_parts(book, length, places, 2) && same_parts(book, length, before, TRENCH_PLACES) &&
                same_parts(book, length, near, TRENCH_PLACES);
    memcpy(before, places, sizeof before);
    return same;
}

int main(void)
{
    uint8_t head[4];
    unsigned books = 0;
    for (; fread(head, 1, sizeof head, stdin) == sizeof head; books++) {
        size_t length = head[0] | (size_t)head[1] << 8 | (size_t)head[2] << 16 | (size_t)head[3] << 24;
        uint8_t *book = malloc(length ? length : 1);
        if (!book || fread(book, 1, length, stdin) != length)
            return 2;
        bool same = same_answers(book, length);
        free(book);
        if (!same) {
            printf("book %u is answered otherwise\n", books);
            return 1;
        }
    }
    printf("%u\n", books);
    return 0;
}
