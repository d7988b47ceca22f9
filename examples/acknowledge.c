/*
 * An interchange acknowledged:
 *
 *     acknowledge DATE TIME REFERENCE VERSION RELEASE <INTERCHANGE
 *
 * reads an interchange from standard input and prints the syntax report CONTRL for it, under the control
 * reference that is given. VERSION and RELEASE are those of CONTRL that the sender takes: 2 2 or D 3 where
 * the interchange has syntax version 1 or 2, and 4 1 where it has version 4. The exit status is 0 where there is one,
 * 1 where it is refused, and 2 where it cannot be said.
 *
 *     cc -std=c99 -Wall -Wextra -Wpedantic -Iinclude -o acknowledge examples/acknowledge.c target/lib/libhverolda.a
 */
#include <stdio.h>
#include <string.h>

#define HVEROLDA_CALLER 2
#include "hverolda.h"

/* A byte more than the most that is allowed, so that what is longer is refused. */
static uint8_t input[HVEROLDA_LONGEST + 1];
static uint8_t output[HVEROLDA_LONGEST];

/* A value list of one element: its components end to end, and three numbers for each. */
struct element {
    uint8_t bytes[1024];
    size_t length;
    uint32_t table[12];
    size_t numbers;
};

/* Adds a component: the first has kind 0, the others 2. What has no room is left out, and 0 is returned. */
static int add(struct element *element, const char *value)
{
    size_t length = strlen(value);

    if (sizeof element->bytes - element->length < length || element->numbers + 3 > 12)
        return 0;
    memcpy(element->bytes + element->length, value, length);
    element->table[element->numbers] = element->numbers == 0 ? 0 : 2;
    element->table[element->numbers + 1] = (uint32_t)element->length;
    element->table[element->numbers + 2] = (uint32_t)length;
    element->length += length;
    element->numbers += 3;
    return 1;
}

int main(int count, char **words)
{
    static struct element date, reference, message;
    size_t input_length;
    hverolda_written w;

    if (count != 6 || !add(&date, words[1]) || !add(&date, words[2]) || !add(&reference, words[3]) ||
        !add(&message, "CONTRL") || !add(&message, words[4]) || !add(&message, words[5]) || !add(&message, "UN")) {
        fprintf(stderr, "acknowledge: a date, a time, a reference, and CONTRL's version and release are asked for\n");
        return 2;
    }
    input_length = fread(input, 1, sizeof input, stdin);
    if (ferror(stdin)) {
        perror("acknowledge: standard input");
        return 2;
    }
    w = hverolda_acknowledge(input, input_length, date.bytes, date.length, date.table, date.numbers,
                             reference.bytes, reference.length, reference.table, reference.numbers,
                             message.bytes, message.length, message.table, message.numbers,
                             output, sizeof output);
    if (w.number == HVEROLDA_NOT_REFUSED)
        fwrite(output, 1, w.length, stdout);
    else
        fprintf(stderr, "refused, %u at %zu: %s\n", (unsigned)w.number, w.place, hverolda_refusal_text(w.number));
    if (fclose(stdout) != 0) {
        perror("acknowledge: standard output");
        return 2;
    }
    return w.number != HVEROLDA_NOT_REFUSED;
}
