/* Checks of answers. A wrong answer is printed, and the program ends with status 1. */
#ifndef CHECK_H
#define CHECK_H

#include <stdbool.h>
#include <stddef.h>
#include <stdint.h>

/* Checks that a call is accepted. */
void accepted(const char *what, uint32_t answer);

/* Checks that a condition holds. */
void expect(const char *what, bool so);

/* Checks that the bytes are the same. */
void same(const char *what, const uint8_t *a, const uint8_t *b, size_t length);

/* Allocates length bytes, or one byte if length is 0. */
uint8_t *allocate(size_t length);

#endif
