#include "check.h"

#include <gbasave.h>
#include <stdio.h>
#include <stdlib.h>
#include <string.h>

void accepted(const char *what, uint32_t answer)
{
    if (answer != GBASAVE_ACCEPTED) {
        fprintf(stderr, "host: %s: refused, %u: %s\n", what, (unsigned)answer, gbasave_refusal_text(answer));
        exit(1);
    }
}

void expect(const char *what, bool so)
{
    if (!so) {
        fprintf(stderr, "host: check failed: %s\n", what);
        exit(1);
    }
}

void same(const char *what, const uint8_t *a, const uint8_t *b, size_t length)
{
    expect(what, memcmp(a, b, length) == 0);
}

uint8_t *allocate(size_t length)
{
    uint8_t *bytes = malloc(length > 0 ? length : 1);
    expect("there is memory", bytes != NULL);
    return bytes;
}
