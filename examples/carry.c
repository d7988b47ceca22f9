/*
 * A shelf of version 1 carried over into version 2, or back:
 *
 *     carry <OLD >NEW
 *     carry back <NEW >OLD
 *
 * reads a shelf from standard input and writes it to standard output in its other version. The exit status is
 * 1 where that is refused, and nothing is written; and 2 where standard input or output fails.
 *
 *     cc -std=c99 -Wall -Wextra -Wpedantic -Iinclude -o carry examples/carry.c target/lib/libhverolda.a
 */
#include <stdio.h>

#define HVEROLDA_CALLER 2
#include "hverolda.h"

/* One byte more than the most that is allowed, so that a longer file is refused. */
static uint8_t shelf[HVEROLDA_LARGEST_SHELF + 1];

int main(int count, char **words)
{
    size_t length = fread(shelf, 1, sizeof shelf, stdin);
    hverolda_started s;

    (void)words;
    if (ferror(stdin)) {
        perror("carry: standard input");
        return 2;
    }
    s = count < 2 ? hverolda_shelf_carry(shelf, length) : hverolda_shelf_carry_back(shelf, length);
    if (s.number != HVEROLDA_NOT_REFUSED) {
        fprintf(stderr, "carry: refused, %u at %zu: %s\n", (unsigned)s.number, s.place, hverolda_refusal_text(s.number));
        return 1;
    }
    if (fwrite(shelf, 1, length, stdout) != length || fclose(stdout) != 0) {
        perror("carry: standard output");
        return 2;
    }
    return 0;
}
