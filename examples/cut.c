/*
 * A mailbox file, cut into its interchanges:
 *
 *     cut FILE
 *
 * prints a line for each piece: its offset, its length, and what Judge says of it, with sender, recipient
 * and control reference where it is accepted. Where a fault stopped the cutting, or the file ended before
 * a UNZ, the last line says so, with the place in the file. The file may have any length. The exit status
 * is 0 where all pieces are accepted, 1 where one is refused, and 2 where that cannot be said: other than
 * one file is named, it cannot be read, or standard output cannot be written.
 *
 *     cc -std=c99 -Wall -Wextra -Wpedantic -Iinclude -o cut examples/cut.c target/lib/libhverolda.a
 */
#include <stdbool.h>
#include <stdio.h>
#include <stdlib.h>

#define HVEROLDA_CALLER 2
#include "hverolda.h"

/* Reads a file whole, or says why not. */
static uint8_t *load(const char *name, size_t *length)
{
    FILE *file = fopen(name, "rb");
    uint8_t *bytes = NULL;
    size_t room = 0, got = 1;

    *length = 0;
    while (file != NULL && got > 0) {
        if (*length == room) {
            uint8_t *more = realloc(bytes, room = 2 * room + 65536);
            if (more == NULL)
                break;
            bytes = more;
        }
        got = fread(bytes + *length, 1, room - *length, file);
        *length += got;
    }
    if (file == NULL || got > 0 || ferror(file)) {
        perror(name);
        free(bytes);
        bytes = NULL;
    }
    if (file != NULL)
        fclose(file);
    return bytes;
}

static void print_part(const uint8_t *piece, hverolda_part_found part)
{
    putchar(' ');
    fwrite(piece + part.offset, 1, part.length, stdout);
}

/* Says what a piece is; is it accepted? */
static bool say(const uint8_t *piece, size_t offset, size_t length)
{
    hverolda_parties_found p = hverolda_parties(piece, length);

    printf("%zu %zu ", offset, length);
    if (p.number != HVEROLDA_NOT_REFUSED) {
        printf("refused %u %zu\n", (unsigned)p.number, p.place);
        return false;
    }
    printf("accepted");
    print_part(piece, p.sender);
    print_part(piece, p.recipient);
    print_part(piece, p.reference);
    putchar('\n');
    return true;
}

/* Goes through a file piece by piece; are all accepted? */
static bool cut(const uint8_t *file, size_t length)
{
    bool all = true;
    size_t at = 0;

    while (at < length) {
        hverolda_piece_end piece = hverolda_piece(file + at, length - at);

        all = say(file + at, at, piece.end) && all;
        if (piece.number != HVEROLDA_NOT_REFUSED)
            printf("stopped by %u at %zu\n", (unsigned)piece.number, at + piece.place);
        else if (!piece.ended)
            printf("ended before a UNZ\n");
        at += piece.end;
    }
    return all;
}

int main(int count, char **names)
{
    uint8_t *file;
    size_t length;
    bool all;

    if (hverolda_rules() != HVEROLDA_RULES) {
        fprintf(stderr, "the archive is not this header's\n");
        return 2;
    }
    if (count != 2) {
        fprintf(stderr, "usage: cut FILE\n");
        return 2;
    }
    file = load(names[1], &length);
    if (file == NULL)
        return 2;
    all = cut(file, length);
    free(file);
    if (fflush(stdout) != 0 || ferror(stdout)) {
        perror("standard output");
        return 2;
    }
    return all ? 0 : 1;
}
