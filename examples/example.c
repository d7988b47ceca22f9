/*
 * A mailbox in small: has this interchange come already, perhaps spelled otherwise?
 *
 *     mailbox FIRST SECOND
 *
 * judges the interchanges in two files, says from whom each one is and whether they are the same,
 * which of the two to keep, and prints the normal form that they share. The exit status is 0 where
 * they are the same, 1 where they differ or one is refused, and 2 where that cannot be said: other
 * than two files are named, one cannot be read, or standard output cannot be written.
 *
 *     cc -std=c99 -Wall -Wextra -Wpedantic -Iinclude -o mailbox examples/example.c target/lib/libhverolda.a
 */
#include <stdbool.h>
#include <stdio.h>

#define HVEROLDA_CALLER 2
#include "hverolda.h"

/* A file's bytes. One more than the most that is allowed is read, so that a longer file is refused. */
struct message {
    const char *name;
    size_t length;
    uint8_t bytes[HVEROLDA_LONGEST + 1];
};

static struct message first, second;
static uint8_t normal[HVEROLDA_LONGEST];

/* Reads a file whole, or says why not. */
static bool load(struct message *m, const char *name)
{
    FILE *file = fopen(name, "rb");
    bool whole;

    m->name = name;
    if (file == NULL) {
        perror(name);
        return false;
    }
    m->length = fread(m->bytes, 1, sizeof m->bytes, file);
    whole = !ferror(file);
    if (!whole)
        perror(name);
    fclose(file);
    return whole;
}

/* Says what Judge says of it, and who sent it: UNB is segment 0, and its element 2 is the sender. */
static bool judge(const struct message *m)
{
    hverolda_verdict v = hverolda_judge(m->bytes, m->length);
    hverolda_part_found sender;

    if (v.number != HVEROLDA_NOT_REFUSED) {
        printf("%s: refused, %u at %zu: %s\n", m->name, (unsigned)v.number, v.place, hverolda_refusal_text(v.number));
        return false;
    }
    sender = hverolda_value_part(m->bytes, m->length, 0, 2, 0, 0);
    printf("%s: accepted, %u segments, %u messages, %u groups, from ", m->name,
           (unsigned)v.segments, (unsigned)v.messages, (unsigned)v.groups);
    fwrite(m->bytes + sender.offset, 1, sender.length, stdout);
    putchar('\n');
    return true;
}

/* Says which of two that are the same to keep, and prints the normal form that they share. */
static void keep(void)
{
    hverolda_kept k = hverolda_keep(first.bytes, first.length, second.bytes, second.length);
    hverolda_written w = hverolda_normalise(normal, sizeof normal, first.bytes, first.length);

    printf("same; keep %s\n", k.input == 1 ? first.name : second.name);
    fwrite(normal, 1, w.length, stdout);
    putchar('\n');
}

/* Says all that is to be said of the two; are they the same? */
static bool check(void)
{
    bool accepted;
    hverolda_comparison c;

    accepted = judge(&first);
    accepted = judge(&second) && accepted;
    if (!accepted)
        return false;
    c = hverolda_compare(first.bytes, first.length, second.bytes, second.length);
    if (c.same)
        keep();
    else
        puts("different");
    return c.same;
}

/* Was all that was said written? */
static bool written(void)
{
    bool whole = !ferror(stdout);

    whole = fclose(stdout) == 0 && whole;
    if (!whole)
        fprintf(stderr, "mailbox: standard output could not be written\n");
    return whole;
}

int main(int count, char **names)
{
    bool same;

    if (count != 3) {
        fprintf(stderr, "usage: mailbox FIRST SECOND\n");
        return 2;
    }
    if (hverolda_rules() != HVEROLDA_RULES) {
        fprintf(stderr, "mailbox: the archive does not follow the header's rules\n");
        return 2;
    }
    if (!load(&first, names[1]) || !load(&second, names[2]))
        return 2;
    same = check();
    if (!written())
        return 2;
    return same ? 0 : 1;
}
