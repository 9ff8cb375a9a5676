/* A plain C reader of plan books, with the interface of trench_read and its queries: what the proved reader is timed against. */
#ifndef READ_H
#define READ_H

#include <stddef.h>
#include <stdint.h>

int32_t plain_read(const uint8_t *book, size_t book_len);
size_t plain_read_place(const uint8_t *book, size_t book_len);
size_t plain_figures(const uint8_t *book, size_t book_len, uint32_t *figures, size_t figures_len);
size_t plain_places(const uint8_t *book, size_t book_len, uint32_t *places, size_t places_len);
size_t plain_route(const uint8_t *book, size_t book_len, const uint32_t *places, size_t places_len, size_t i, uint32_t *route,
                   size_t route_len);
size_t plain_corner(const uint8_t *book, size_t book_len, const uint32_t *places, size_t places_len, size_t i, size_t j,
                    int32_t *corner, size_t corner_len);

#endif
