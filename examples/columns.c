/*
 * An interchange in columns for a spreadsheet, and back:
 *
 *     columns <INTERCHANGE >COLUMNS
 *     columns back <COLUMNS >INTERCHANGE
 *
 * The first prints the values of the interchange, one a line, each with its four numbers. The second takes
 * such lines and prints the interchange, under the service characters of the standard; one of version 4
 * needs a repetition separator, which `columns back4` gives it. The exit status is 0 where that is done, 1
 * where it is refused, and 2 where it cannot be said.
 *
 *     cc -std=c99 -Wall -Wextra -Wpedantic -Iinclude -o columns examples/columns.c target/lib/libhverolda.a
 */
#include <stdio.h>
#include <stdlib.h>
#include <string.h>

#define HVEROLDA_CALLER 2
#include "hverolda.h"

/* So much of a text is read: more lines than an interchange can have do not fit. */
#define MOST 4000000

static uint8_t input[MOST];
static uint8_t output[HVEROLDA_LONGEST];

/* The text, which is measured first: a buffer of no bytes is refused by 14 with the bytes needed. */
static hverolda_written export(size_t length, uint8_t **text)
{
    hverolda_written w = hverolda_export(NULL, 0, input, length);

    if (w.number != HVEROLDA_BUFFER_SHORT)
        return w;
    *text = calloc(w.place, 1);
    return *text == NULL ? w : hverolda_export(*text, w.place, input, length);
}

int main(int count, char **words)
{
    const char *how = count == 2 ? words[1] : "";
    const char *service = strcmp(how, "back4") == 0 ? ":+.?*'" : ":+.? '";
    uint8_t *text = output;
    size_t length;
    hverolda_written w;

    if (count > 2 || (count == 2 && strcmp(how, "back") != 0 && strcmp(how, "back4") != 0)) {
        fprintf(stderr, "columns: nothing, back or back4 is asked for\n");
        return 2;
    }
    length = fread(input, 1, sizeof input, stdin);
    if (ferror(stdin)) {
        perror("columns: standard input");
        return 2;
    }
    if (count == 1)
        w = export(length, &text);
    else
        w = hverolda_import((const uint8_t *)service, 6, input, length, output, sizeof output);
    if (w.number == HVEROLDA_NOT_REFUSED)
        fwrite(text, 1, w.length, stdout);
    else
        fprintf(stderr, "refused, %u at %zu: %s\n", (unsigned)w.number, w.place, hverolda_refusal_text(w.number));
    if (fclose(stdout) != 0) {
        perror("columns: standard output");
        return 2;
    }
    return w.number != HVEROLDA_NOT_REFUSED;
}
