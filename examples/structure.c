/*
 * An interchange judged by a table of message structures:
 *
 *     structure TABLE <INTERCHANGE
 *
 * reads the table's bytes from the file TABLE and an interchange from standard input, and says whether the
 * interchange is by the rules and each message has the structure that the table tells. The exit status is 0
 * where that is so, 1 where it is refused, and 2 where it cannot be said.
 *
 *     cc -std=c99 -Wall -Wextra -Wpedantic -Iinclude -o structure examples/structure.c target/lib/libhverolda.a
 */
#include <stdio.h>

#define HVEROLDA_CALLER 2
#include "hverolda.h"

/* An entry more and a byte more than the most that is allowed, so that what is longer is refused. */
static uint8_t table[8 * (HVEROLDA_MOST_ENTRIES + 1)];
static uint8_t input[HVEROLDA_LONGEST + 1];

int main(int count, char **words)
{
    FILE *file = count == 2 ? fopen(words[1], "rb") : NULL;
    size_t table_length, input_length;
    hverolda_verdict v;

    if (file == NULL) {
        fprintf(stderr, "structure: one file is named, a table that can be read\n");
        return 2;
    }
    table_length = fread(table, 1, sizeof table, file);
    input_length = fread(input, 1, sizeof input, stdin);
    if (ferror(file) || ferror(stdin)) {
        perror("structure: the table or standard input");
        return 2;
    }
    fclose(file);
    v = hverolda_judge_by_table(table, table_length, input, input_length);
    if (v.number == HVEROLDA_NOT_REFUSED)
        printf("accepted, segments %u, messages %u\n", (unsigned)v.segments, (unsigned)v.messages);
    else if (v.number == HVEROLDA_UNSOUND_TABLE)
        printf("refused, %u at entry %zu: %s\n", (unsigned)v.number, v.place, hverolda_refusal_text(v.number));
    else
        printf("refused, %u at %zu: %s\n", (unsigned)v.number, v.place, hverolda_refusal_text(v.number));
    if (fclose(stdout) != 0) {
        perror("structure: standard output");
        return 2;
    }
    return v.number != HVEROLDA_NOT_REFUSED;
}
