/* Reading one plan book many times over, as a caller of the reader does: what the benchmark times. */
#ifndef ASK_H
#define ASK_H

#include <stddef.h>
#include <stdint.h>

/* Reads a book so many times. Gives a number that needs every reading. */
uint32_t plain_read_rounds(const uint8_t *book, size_t book_len, uint32_t rounds);

/* The same, and asks for every route and every corner each time. */
uint32_t plain_ask_rounds(const uint8_t *book, size_t book_len, uint32_t rounds);

#endif
