/* Reading one plan book many times over. This file is compiled twice: for the plain reader, and with the names of the archive's
 * functions for those of the plain one. */
#include "ask.h"

#include "read.h"

enum { PLACES = 33, ROUTE = 4, CORNER = 2 };

uint32_t plain_read_rounds(const uint8_t *book, size_t book_len, uint32_t rounds)
{
    uint32_t sum = 0;
    for (uint32_t n = 0; n < rounds; n++)
        sum += (uint32_t)plain_read(book, book_len);
    return sum;
}

uint32_t plain_ask_rounds(const uint8_t *book, size_t book_len, uint32_t rounds)
{
    uint32_t sum = 0, places[PLACES], route[ROUTE];
    int32_t corner[CORNER];
    for (uint32_t n = 0; n < rounds; n++) {
        plain_places(book, book_len, places, PLACES);
        for (size_t i = 0; plain_route(book, book_len, places, PLACES, i, route, ROUTE); i++) {
            sum += route[0] + route[1] + route[2] + route[3];
            for (size_t j = 0; plain_corner(book, book_len, places, PLACES, i, j, corner, CORNER); j++)
                sum += (uint32_t)corner[0] + 3 * (uint32_t)corner[1];
        }
    }
    return sum;
}
