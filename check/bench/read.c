/* A plain C reader of plan books of either set of kinds, written to be fast and not to be proved: what the proved reader is timed
 * against, and what stands in for it while it is not built. One pass front to back, then the counts; queries go by the places of
 * the routes. */
#include "read.h"

#include <stdbool.h>
#include <string.h>

enum { HEAD = 0x51, ROUTE = 0x4F, OLDER_HEAD = 0x50, OLDER_ROUTE = 0x4E, CORNER = 0x43, END = 0x5A };
enum { HEAD_LENGTH = 19, ROUTE_LENGTH = 9, OLDER_ROUTE_LENGTH = 7, CORNER_LENGTH = 9, END_LENGTH = 3 };
enum { MOST_ROUTES = 32, MOST_CORNERS = 127, FAR = 1000000 };
enum { FIGURES = 7, PLACES = MOST_ROUTES + 1, ROUTE_WORDS = 4, OLDER_FIELDS = 3, CORNER_WORDS = 2 };
enum { COORDINATE = 8, NOT_WHOLE = 12, NO_TURN = 13, MISCOUNTED = 14 };

struct reading {
    int refused;  /* the refusal's number, or 0 */
    size_t place; /* the refusal's place, or 0 */
    uint32_t routes;
    uint32_t places[PLACES]; /* of each route's record, and behind the last that of the end record; 0 then */
};

static uint32_t half_at(const uint8_t *p)
{
    return (uint32_t)p[0] | (uint32_t)p[1] << 8;
}

static uint32_t word_at(const uint8_t *p)
{
    return half_at(p) | half_at(p + 2) << 16;
}

static bool outside(int32_t c)
{
    return c < -FAR || c > FAR;
}

/* The length of a route record in a book that begins with this byte. */
static size_t route_length(uint8_t head)
{
    return head == HEAD ? ROUTE_LENGTH : OLDER_ROUTE_LENGTH;
}

static void refuse(struct reading *r, int number, size_t place)
{
    memset(r, 0, sizeof *r);
    r->refused = number;
    r->place = place;
}

/* Reads the records front to back; a count is not looked at. */
static void read_records(struct reading *r, const uint8_t *book, size_t length)
{
    uint32_t corners = 0; /* of the last route */
    int32_t last_x = 0, last_y = 0;
    bool upright = false; /* whether the last two corners share their x */
    memset(r, 0, sizeof *r);
    if (length < HEAD_LENGTH || (book[0] != HEAD && book[0] != OLDER_HEAD)) {
        refuse(r, NOT_WHOLE, 0);
        return;
    }
    uint8_t route = book[0] == HEAD ? ROUTE : OLDER_ROUTE;
    size_t of_route = route_length(book[0]);
    for (size_t at = HEAD_LENGTH; at < length;) {
        const uint8_t *body = book + at + 1;
        size_t left = length - at;
        if (book[at] == CORNER && left >= CORNER_LENGTH && r->routes > 0 && corners < MOST_CORNERS) {
            int32_t x = (int32_t)word_at(body), y = (int32_t)word_at(body + 4);
            bool same_x = x == last_x, same_y = y == last_y;
            if (outside(x) || outside(y)) {
                refuse(r, COORDINATE, at);
                return;
            }
            if (corners > 0 && (same_x == same_y || (corners > 1 && same_x == upright))) {
                refuse(r, NO_TURN, at);
                return;
            }
            upright = same_x;
            last_x = x;
            last_y = y;
            corners++;
            at += CORNER_LENGTH;
        } else if (book[at] == route && left >= of_route && r->routes < MOST_ROUTES) {
            r->places[r->routes++] = (uint32_t)at;
            corners = 0;
            at += of_route;
        } else if (book[at] == END && left == END_LENGTH) {
            r->places[r->routes] = (uint32_t)at;
            return;
        } else {
            refuse(r, NOT_WHOLE, book[at] == END && left > END_LENGTH ? at + END_LENGTH : at);
            return;
        }
    }
    refuse(r, NOT_WHOLE, length);
}

/* Compares the counts of a book whose records are in order. */
static void compare_counts(struct reading *r, const uint8_t *book)
{
    uint32_t total = 0, end = r->places[r->routes];
    if (half_at(book + 5) != r->routes) {
        refuse(r, MISCOUNTED, 0);
        return;
    }
    for (uint32_t i = 0; i < r->routes; i++) {
        uint32_t at = r->places[i], corners = (r->places[i + 1] - at - (uint32_t)route_length(book[0])) / CORNER_LENGTH;
        if (corners == 0 || half_at(book + at + 5) != corners) {
            refuse(r, MISCOUNTED, at);
            return;
        }
        total += corners;
    }
    if (half_at(book + end + 1) != total)
        refuse(r, MISCOUNTED, end);
}

static struct reading read_book(const uint8_t *book, size_t length)
{
    struct reading r;
    read_records(&r, book, length);
    if (!r.refused)
        compare_counts(&r, book);
    return r;
}

int32_t plain_read(const uint8_t *book, size_t book_len)
{
    struct reading r = read_book(book, book_len);
    return r.refused ? -r.refused : (int32_t)r.routes;
}

size_t plain_read_place(const uint8_t *book, size_t book_len)
{
    return read_book(book, book_len).place;
}

size_t plain_figures(const uint8_t *book, size_t book_len, uint32_t *figures, size_t figures_len)
{
    if (figures_len < FIGURES || read_book(book, book_len).refused)
        return 0;
    figures[0] = word_at(book + 1);
    figures[1] = half_at(book + 5);
    figures[2] = word_at(book + 7);
    figures[3] = word_at(book + 11);
    figures[4] = half_at(book + 15);
    figures[5] = half_at(book + 17);
    figures[6] = book[0];
    return FIGURES;
}

size_t plain_places(const uint8_t *book, size_t book_len, uint32_t *places, size_t places_len)
{
    if (places_len < PLACES)
        return 0;
    struct reading r = read_book(book, book_len);
    memcpy(places, r.places, sizeof r.places);
    return PLACES;
}

/* Whether a whole record of this kind stands at a place. */
static bool stands(const uint8_t *book, size_t book_len, uint64_t at, uint8_t kind, size_t length)
{
    return book_len >= length && at <= book_len - length && book[at] == kind;
}

size_t plain_route(const uint8_t *book, size_t book_len, const uint32_t *places, size_t places_len, size_t i, uint32_t *route,
                   size_t route_len)
{
    if (route_len < ROUTE_WORDS || i >= places_len || i + 1 >= places_len || places[i] >= places[i + 1])
        return 0;
    bool newer = stands(book, book_len, places[i], ROUTE, ROUTE_LENGTH);
    if (!newer && !stands(book, book_len, places[i], OLDER_ROUTE, OLDER_ROUTE_LENGTH))
        return 0;
    for (int k = 0; k < OLDER_FIELDS; k++)
        route[k] = half_at(book + places[i] + 1 + 2 * k);
    route[OLDER_FIELDS] = newer ? half_at(book + places[i] + 1 + 2 * OLDER_FIELDS) : 0;
    return ROUTE_WORDS;
}

size_t plain_corner(const uint8_t *book, size_t book_len, const uint32_t *places, size_t places_len, size_t i, size_t j,
                    int32_t *corner, size_t corner_len)
{
    if (corner_len < CORNER_WORDS || j >= MOST_CORNERS || i >= places_len || i + 1 >= places_len || book_len == 0)
        return 0;
    uint64_t at = (uint64_t)places[i] + route_length(book[0]) + CORNER_LENGTH * (uint64_t)j;
    if (at >= places[i + 1] || !stands(book, book_len, at, CORNER, CORNER_LENGTH))
        return 0;
    corner[0] = (int32_t)word_at(book + at + 1);
    corner[1] = (int32_t)word_at(book + at + 5);
    return CORNER_WORDS;
}
