/*
 * A mailbox that keeps each interchange once:
 *
 *     mailbox FILE..
 *
 * puts the interchange of each file on a shelf and says whether it is new or the copy of one that is
 * there, perhaps spelled otherwise; then says how many are kept, in how many bytes, and how many
 * duplicates were found, and delivers what is kept: prints each text and takes it away. The exit status
 * is 0 where all are new, 1 where one is a copy or refused, and 2 where that cannot be said: no file is
 * named, one cannot be read, or standard output cannot be written.
 *
 *     cc -std=c99 -Wall -Wextra -Wpedantic -Iinclude -o mailbox examples/shelf.c target/lib/libhverolda.a
 */
#include <stdbool.h>
#include <stdio.h>

#define HVEROLDA_CALLER 2
#include "hverolda.h"

/* The shelf, and a file's bytes: one more than the most that is allowed, so that a longer file is refused. */
static uint8_t shelf[HVEROLDA_LARGEST_SHELF];
static uint8_t bytes[HVEROLDA_LONGEST + 1];

/* Reads a file whole, or says why not. */
static bool load(const char *name, size_t *length)
{
    FILE *file = fopen(name, "rb");
    bool whole;

    if (file == NULL) {
        perror(name);
        return false;
    }
    *length = fread(bytes, 1, sizeof bytes, file);
    whole = !ferror(file);
    if (!whole)
        perror(name);
    fclose(file);
    return whole;
}

/* Puts an interchange on the shelf and says what became of it; is it new? */
static bool put(const char *name, size_t length)
{
    hverolda_shelving s = hverolda_shelf_put(shelf, sizeof shelf, bytes, length);

    if (s.number != HVEROLDA_NOT_REFUSED)
        printf("%s: refused, %u at %zu: %s\n", name, (unsigned)s.number, s.place, hverolda_refusal_text(s.number));
    else if (s.added)
        printf("%s: new, in slot %zu\n", name, s.slot);
    else
        printf("%s: a copy of slot %zu\n", name, s.slot);
    return s.number == HVEROLDA_NOT_REFUSED && s.added;
}

/* Says what is kept and what was found, prints each text and takes it from the shelf. */
static void deliver(void)
{
    hverolda_sum_numbers sums = hverolda_shelf_sums(shelf, sizeof shelf);
    size_t slot;

    printf("%zu kept in %u bytes; duplicates found: %u\n",
           hverolda_shelf_slots(shelf, sizeof shelf).occupied,
           (unsigned)sums.held, (unsigned)sums.duplicates);
    for (slot = 0; slot < HVEROLDA_SLOTS; slot++) {
        hverolda_got g = hverolda_shelf_get(shelf, sizeof shelf, slot);

        if (g.number != HVEROLDA_NOT_REFUSED)
            continue;
        fwrite(shelf + g.offset, 1, g.length, stdout);
        putchar('\n');
        hverolda_shelf_remove(shelf, sizeof shelf, slot);
    }
}

/* Was all that was said written? */
static bool written(void)
{
    bool whole = !ferror(stdout);

    whole = fclose(stdout) == 0 && whole;
    if (!whole)
        fprintf(stderr, "mailbox: standard output could not be written\n");
    return whole;
}

int main(int count, char **names)
{
    bool all_new = true;
    int i;

    if (count < 2) {
        fprintf(stderr, "usage: mailbox FILE..\n");
        return 2;
    }
    if (hverolda_rules() != HVEROLDA_RULES) {
        fprintf(stderr, "mailbox: the archive does not follow the header's rules\n");
        return 2;
    }
    hverolda_shelf_start(shelf, sizeof shelf);
    for (i = 1; i < count; i++) {
        size_t length;

        if (!load(names[i], &length))
            return 2;
        all_new = put(names[i], length) && all_new;
    }
    deliver();
    if (!written())
        return 2;
    return all_new ? 0 : 1;
}
