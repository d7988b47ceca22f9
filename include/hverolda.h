/*
 * Hverolda for C: judges an EDIFACT interchange (ISO 9735, syntax versions 1, 2 and 4), reads its
 * values, writes interchanges, makes a normal form, says whether two interchanges are the same, keeps
 * each one once on a shelf, counts those of a mailbox file, holds messages to a table of their
 * structure, acknowledges interchanges, and puts them into columns for a spreadsheet and back.
 *
 * The library is libhverolda, for x86-64 and aarch64 Linux. Of the C library it needs nothing but
 * memcpy, memmove and memset. Where it is installed, and where `tools/library` proved it and wrote it to
 * target/lib in the sources:
 *
 *     cc -std=c99 -o mailbox example.c $(pkg-config --cflags --libs hverolda)
 *     cc -std=c99 -Iinclude -o mailbox examples/example.c target/lib/libhverolda.a
 *
 * What is proved. For any bytes and any numbers, each function's answer and every byte and number of
 * each buffer at exit are what the definitions in crates/surface/specs, crates/operations/specs,
 * crates/shelves/specs, crates/mailbox_files/specs, crates/message_tables/specs,
 * crates/message_structures/specs, crates/acknowledgements/specs and crates/columns/specs say; no
 * function reads or writes outside what it is lent, and each one ends. This header and the size of the
 * stack are not part of the proof.
 *
 * What the caller owes. A slice is a pointer and, right after it, the number of its elements.
 *   - The pointer is valid for that many elements for the whole call, and they take fewer than 2^63
 *     bytes. The pointer to a table of Read, Write or Acknowledge is aligned for uint32_t.
 *   - All of them hold values: a buffer that is to be written to is initialised first, too.
 *   - A buffer that is written to overlaps no other argument. Inputs that are only read may overlap,
 *     or be the same. So what is put on a shelf is no part of that shelf.
 *   - Nobody else writes to an input, or uses a buffer, during the call.
 *   - Where the number is 0, nothing is read or written through the pointer, and it may be null.
 *     Where it is not 0, the pointer may not be null.
 * Nothing is asked of what the bytes and numbers are.
 *
 * Threads. The functions have no state: no globals, no heap, no errno, no input or output. Calls may
 * run at the same time as long as each keeps to what is owed above.
 *
 * Stack. The most bytes that a call takes, as they are measured on x86-64 (the gate holds them to this):
 *     hverolda_compare, hverolda_keep                66,400
 *     hverolda_shelf_put                             34,300
 *     hverolda_write, hverolda_acknowledge            9,000
 *     hverolda_judge_by_table                         2,700
 *     all others                                      2,300
 * Compare and Keep hold two arrays of 32,000 bytes, or shorter ones where neither input has more than
 * 4,091 bytes; Put holds one of 32,000; Write and Acknowledge have room for one of 8,192, which is used
 * where there is no release character. Judge by a table calls itself for groups within groups, which are
 * at most eight deep. There is no other recursion.
 *
 * Cost. What a function does with an input is a few steps a byte, and of an input over 32,000 bytes
 * none. Write costs a few steps for each record of its table and for each byte of the text, and stops
 * where the text is over 32,000 bytes. Without a release character it first looks for service
 * characters in all values (refusal 16), which may be of any length and overlap: some 1 ns for each
 * byte lent, 10 ms for 10,000,000, and a few times that for a list that was made to be slow.
 * Each function of a shelf but Start judges all texts that the shelf keeps, so that a call costs what
 * Judge costs over them, some 330 us for a full shelf of 64 orders, and some 15 us more; for one that
 * was made to be slow some 90 us more. Report goes once over the file, which may have 65,536 bytes,
 * and judges each piece: some 680 us for 65,536 bytes of orders, some 1,900 us for the smallest
 * interchanges that there are. These times of shelf and Report were taken before Judge became faster
 * (request 2026-09). Judge by a table costs what Judge costs, a pass over the table, which stops at
 * 999 entries, and a few steps for each segment and each entry that has its turn: some 80 us more for
 * 32,000 bytes of orders under a table of 68 entries. At most all entries have their turn at each
 * segment: for 999 entries and a body of 8,000 segments that is made so, some 40 ms.
 * Acknowledge costs what Judge costs over the received input and the text, a few steps for each
 * record of the lent tables, which have at most 96,000 numbers each, and a few for each byte of the
 * text. It stops behind the value with which the text is over 32,000 bytes.
 * Export costs a few steps for each byte of the input and of the text. Import costs a few steps for each
 * byte of the text, which may have any length, and no more for one that was made to be slow.
 *
 * Limits. An input, a written text and a normal form have at most 32,000 bytes. So a normal form or a
 * written text fits 32,000 bytes, and what Read stores fits 32,000 bytes and 96,000 numbers, since
 * each value in the input is followed by a separator or a terminator. The table that Write is given has
 * at most 96,000 numbers, and so has each table that Acknowledge is given. A table of message
 * structures, which is another thing, has at most 999 entries, 7,992 bytes; a longer one is refused by
 * 21. What is longer may be given, and is refused. A buffer that is written to may have any length,
 * Read's table with it. A shelf has 533 to 65,536 bytes; one of another size may be given, and is
 * refused. A mailbox file has at most 65,536 bytes; a longer one may be given, and is refused.
 * What Export stores fits 800,039 bytes; lent none, it says by 14 how many it needs.
 *
 * Line breaks. Carriage returns and line feeds (bytes 13 and 10) directly after a segment's
 * terminator, or directly after the advice, are passed over, however many; anywhere else they are
 * bytes like any other, and outside every level. They count in the 32,000 bytes of an input, in the
 * lengths that Keep compares, and in offsets. Contents and normal form hold none.
 *
 * Structs. What a struct has between its fields and behind them is not specified: compare fields,
 * not memory.
 */
#ifndef HVEROLDA_H
#define HVEROLDA_H

#include <stddef.h>
#include <stdint.h>

#ifdef __cplusplus
extern "C" {
#endif

/*
 * The number of this header. It rises with each change after which a program for an older one would
 * misread an answer or call a function otherwise than it is. A program says which number it was
 * written for before it includes this header; one that says none, or another, does not compile:
 *
 *     #define HVEROLDA_CALLER 2
 *     #include "hverolda.h"
 *
 * What changed with 2, which came with version 4 of the syntax (change request 2026-10):
 *   - Locate and Part take a repeat number between element and component, 0 in versions 1 and 2; they are
 *     hverolda_locate_value and hverolda_value_part now, so that an older object does not link either.
 *   - A value list has a kind more, 3: a next repeat's first value. Read stores it, Write takes it.
 *   - The fifth service byte is the repetition separator, `repetition` in a verdict where it was
 *     `reserved`; a space is none. A fifth byte that is usable and no space is no longer refused by 2: it
 *     is by 7 where the version is not 4. What 6, 7, 15 and 16 say besides stands at each.
 */
#define HVEROLDA_HEADER 2
#if !defined(HVEROLDA_CALLER) || HVEROLDA_CALLER + 0 != HVEROLDA_HEADER
#error "this is number 2 of hverolda.h: see what changed, then #define HVEROLDA_CALLER 2"
#endif

/* The most bytes of an input, a text and a normal form; the most numbers of Write's table. */
#define HVEROLDA_LONGEST 32000
#define HVEROLDA_LONGEST_TABLE 96000

/* The most entries of a table of message structures, eight bytes each. */
#define HVEROLDA_MOST_ENTRIES 999

/* The slots of a shelf, its fewest and most bytes, and the most duplicates that it tells. */
#define HVEROLDA_SLOTS 64
#define HVEROLDA_SMALLEST_SHELF 533
#define HVEROLDA_LARGEST_SHELF 65536
#define HVEROLDA_MOST_DUPLICATES 4294967295

/* The most bytes of a mailbox file. One more than the highest number under which Judge refuses, 13. */
#define HVEROLDA_LONGEST_FILE 65536
#define HVEROLDA_JUDGED_NUMBERS 14

/*
 * The number of the rules that this header is for. It rises with each change of an answer, so that
 * whoever stores verdicts, normal forms or shelves, and this number beside them, sees when they are
 * old. hverolda_rules tells the archive's: where the two differ, the archive is not this header's. A
 * program calls nothing else then.
 */
#define HVEROLDA_RULES 5

/* The version of the product that this header came with (docs/VERSIONS.md). hverolda_version tells the library's. */
#define HVEROLDA_VERSION "1.0.0"

/*
 * Refusals by number, and the place that goes with each. 0 is no refusal.
 *
 * A place is an offset in the input (for Write, in the text that it would have written), unless the
 * line says otherwise. "Start" is that of a segment, after the line breaks before it.
 */
enum hverolda_refusal {
    HVEROLDA_NOT_REFUSED = 0,
    /* Input or text over 32,000 bytes; a mailbox file over 65,536. Place: 0. */
    HVEROLDA_TOO_LONG = 1,
    /* Unusable advice, or shorter than its 9 bytes; Write: not six usable bytes. Place: 0. */
    HVEROLDA_UNUSABLE_ADVICE = 2,
    /* The body doesn't begin `UNB` and the element separator. Place: where the body starts, which is
       0, or after an advice 9 and as many as there are line breaks behind it. An advice is `UNA` and
       six bytes, and the body is what follows it and the breaks. Without one the body is the whole
       input, in front of which no break may stand, and begins `UNB+` (then `:` separates components
       and `+` elements, the mark is `.`, the release character `?`, the terminator `'`, and where it
       begins `UNB+UNOA:4` or `UNB+UNOB:4` `*` separates repeats) or `UNB` and byte 29 (then byte 31
       separates components and 29 elements, the mark is `.`, there is no release character and no
       repetition separator, and the terminator is byte 28). */
    HVEROLDA_NO_OPENING = 3,
    /* Release followed by no service character, or by the end. Place: the release character. */
    HVEROLDA_STRAY_RELEASE = 4,
    /* The body ends inside a segment. Place: the input's length. */
    HVEROLDA_UNENDED_SEGMENT = 5,
    /* Tag rule broken, in a finished segment; also where a repetition separator is spelled in a tag
       element, whatever follows it. Place: the segment's start. */
    HVEROLDA_BROKEN_TAG = 6,
    /* Level or version not ours (UNOA or UNOB; 4, or 1 or 2 where there is no repetition separator),
       or UNB's first element has a second repeat that trimming leaves. Place: UNB's start. */
    HVEROLDA_FOREIGN_LEVEL = 7,
    /* Byte outside the level. Place: that byte. */
    HVEROLDA_OUTSIDE_LEVEL = 8,
    /* Segment not allowed there, or a UNS that breaks the rule of sections: its first element is a
       single component `D` or `S`, each at most once in a message, D before S if both stand (place:
       the segment's start); or the end before UNZ (place: the input's length). */
    HVEROLDA_MISPLACED_SEGMENT = 9,
    /* Control element (count or reference) of a service segment malformed. In the trimmed contents
       it has one repeat, and in that a reference is one component of 1 to 14 bytes, a count one of 1
       to 6 digits. Place: the segment's start. */
    HVEROLDA_BAD_CONTROL = 10,
    /* Trailer's reference differs from its header's. Place: the trailer's start. */
    HVEROLDA_REFERENCE_DIFFERS = 11,
    /* Trailer's count wrong. Place: the trailer's start. */
    HVEROLDA_COUNT_WRONG = 12,
    /* Normal form over 32,000 bytes. Place: the length that it would have. */
    HVEROLDA_NORMAL_TOO_LONG = 13,
    /* Lent buffer too short. Place: the bytes, or the numbers of Read's table, needed. */
    HVEROLDA_BUFFER_SHORT = 14,
    /* Value list: table over 96,000 numbers or not a multiple of 3, or first kind not 0 (place: 0);
       kind above 3, or start plus length above the number of bytes, or a value of kind 0 whose first
       byte is a line break (place: the lowest such record's number, from 0). */
    HVEROLDA_BAD_LIST = 15,
    /* A value holds a service character and there is no release, or is of kind 3 and there is no
       repetition separator. Place: the lowest such record's number, from 0. */
    HVEROLDA_NEEDS_RELEASE = 16,
    /* No slot of the shelf is free, and the text is not there. Place: 64. */
    HVEROLDA_NO_FREE_SLOT = 17,
    /* The shelf has fewer free bytes than the text needs, and it is not there. Place: the bytes that
       it needs. Carry: fewer than the 8 bytes of the two sums. Place: 8. */
    HVEROLDA_NO_ROOM = 18,
    /* No sound shelf of version 2; Carry: none of version 1; Start: fewer than 533 or more than 65,536
       bytes. Place: 0. */
    HVEROLDA_UNSOUND_SHELF = 19,
    /* The slot is free, or above 63. Place: the slot. */
    HVEROLDA_FREE_SLOT = 20,
    /* Unsound table of message structures; the rules stand at hverolda_judge_by_table. Place: the number
       of the lowest entry at fault, from 0. At fault is the entry that breaks a rule: a group's own for
       its depth or its number, a trigger itself, a last entry that is not whole, and entry 999 where
       there are more than 999. */
    HVEROLDA_UNSOUND_TABLE = 21,
    /* Body doesn't match the table. Place: start of the segment, perhaps UNT, before which the walk
       stopped, in the first message that doesn't match. */
    HVEROLDA_UNMATCHED_BODY = 22,
    /* The received interchange cannot be acknowledged: it is refused by another number than 10, 11 and
       12, or UNB's reference is malformed by 10, or its sender or recipient is, trimmed, one empty value.
       Place: 0. */
    HVEROLDA_NO_ACKNOWLEDGEMENT = 23,
    /* The text is none that Export gives for a trimmed list of values without tab, carriage return and
       line feed. Place: 0. */
    HVEROLDA_NO_COLUMNS = 24
};

/*
 * What Judge says. Accepted: `number` and `place` are 0, and the rest is told: how many segments,
 * messages and groups there are, the length of the normal form, and the six service bytes in the
 * advice's order (a release character or a repetition separator that is a space means "none").
 * Refused: `number` and `place`, and all else is 0.
 */
typedef struct hverolda_verdict {
    uint32_t number;
    uint32_t segments;
    uint32_t messages;
    uint32_t groups;
    size_t place;
    size_t length;
    uint8_t component;
    uint8_t element;
    uint8_t mark;
    uint8_t release;
    uint8_t repetition;
    uint8_t terminator;
} hverolda_verdict;

/*
 * What Normalise, Write, Acknowledge, Export and Import say: `length` bytes were stored; what a shelf's
 * Remove says: so many were taken away; or `number` and `place`. All else is 0.
 */
typedef struct hverolda_written {
    uint32_t number;
    size_t place;
    size_t length;
} hverolda_written;

/*
 * What Compare says. Both accepted: `same` is 1 or 0, and the rest is 0. Refused: `number` and
 * `place`, `input` is 1 or 2 for the one that is refused, and `same` is 0.
 */
typedef struct hverolda_comparison {
    uint32_t number;
    uint32_t input;
    uint32_t same;
    size_t place;
} hverolda_comparison;

/* What Keep hands back: `length` bytes from `offset` on, of input 1 or 2. */
typedef struct hverolda_kept {
    uint32_t input;
    size_t offset;
    size_t length;
} hverolda_kept;

/*
 * What Locate says. Found: `present` is 1, with the offset and the spelled length. Absent: all is 0.
 * Refused: `number` and `place`, and the rest is 0.
 */
typedef struct hverolda_location {
    uint32_t number;
    uint32_t present;
    size_t place;
    size_t offset;
    size_t length;
} hverolda_location;

/* What Part hands back: `length` bytes of the input from `offset` on. */
typedef struct hverolda_part_found {
    size_t offset;
    size_t length;
} hverolda_part_found;

/*
 * What Parties says: which parts of the input spell the sender, the recipient and the interchange
 * control reference; or `number` and `place`. All else is 0.
 */
typedef struct hverolda_parties_found {
    uint32_t number;
    size_t place;
    hverolda_part_found sender;
    hverolda_part_found recipient;
    hverolda_part_found reference;
} hverolda_parties_found;

/*
 * What Read says: how many bytes and table numbers were stored; or `number` and `place`. All else
 * is 0.
 */
typedef struct hverolda_listing {
    uint32_t number;
    size_t place;
    size_t bytes;
    size_t numbers;
} hverolda_listing;

/* What a shelf's Start says, and Carry and Carry back: all is 0; or `number` and `place`. */
typedef struct hverolda_started {
    uint32_t number;
    size_t place;
} hverolda_started;

/*
 * What a shelf's Put says: `slot` is where the text is, and `added` is 1 where it is new there, or 0
 * where it was there already; or `number` and `place`. All else is 0.
 */
typedef struct hverolda_shelving {
    uint32_t number;
    uint32_t added;
    size_t place;
    size_t slot;
} hverolda_shelving;

/*
 * What a shelf's Get says and hands back: `length` bytes of the shelf from `offset` on; or `number` and
 * `place`, and 0 bytes from 0. All else is 0.
 */
typedef struct hverolda_got {
    uint32_t number;
    size_t place;
    size_t offset;
    size_t length;
} hverolda_got;

/*
 * What is read off a shelf's map: how many slots are occupied and the lowest free one, 64 where none
 * is; or `number` and `place`. All else is 0.
 */
typedef struct hverolda_slot_numbers {
    uint32_t number;
    size_t place;
    size_t occupied;
    size_t lowest;
} hverolda_slot_numbers;

/*
 * A shelf's two sums: how many bytes its texts have together, and how many duplicates were found; or
 * `number` and `place`. All else is 0.
 */
typedef struct hverolda_sum_numbers {
    uint32_t number;
    uint32_t held;
    uint32_t duplicates;
    size_t place;
} hverolda_sum_numbers;

/*
 * The morning figures of a mailbox file: how many of its interchanges are accepted; how many are
 * refused under each number, which is the index, 1 to 13 (the one at 0 is 0); and of the accepted ones
 * segments, messages, the total length of their normal forms and the longest of these lengths, 0 where
 * none is accepted. Or `number` and `place`, and all else is 0.
 */
typedef struct hverolda_morning {
    uint32_t number;
    uint32_t accepted;
    uint32_t refused[HVEROLDA_JUDGED_NUMBERS];
    uint32_t segments;
    uint32_t messages;
    size_t place;
    size_t total;
    size_t longest;
} hverolda_morning;

/*
 * How the first piece of a mailbox file ends. `end` is its length: the piece is the file's first `end`
 * bytes, and what is left begins there. `ended` is 1 where a UNZ ends it; then `number` and `place` are
 * 0. Where `ended` is 0 the piece is all of the file, `end` is the file's length, and either a fault
 * stopped the cutting, which `number` (2 to 6) and `place` tell, or the file ended before a UNZ, and both
 * are 0.
 */
typedef struct hverolda_piece_end {
    uint32_t number;
    uint32_t ended;
    size_t place;
    size_t end;
} hverolda_piece_end;

/* Which rules the archive follows: HVEROLDA_RULES where it is this header's. Nothing is refused. */
uint32_t hverolda_rules(void);

/*
 * What the library is, as one line that ends in a zero byte and stays as long as the library does: its version, its rules, the commit
 * that it was made from, and the toolchain that proved and compiled it. Nothing is proved of this function.
 *
 *     hverolda 1.0.0, rules 5, commit .., toolchain ..
 */
const char *hverolda_version(void);

/*
 * What a refusal's number means, as the end of a sentence in English that ends in a zero byte and stays as long as the library does;
 * an empty one where there is no such number. The words may change with any version. Nothing is proved of this function.
 */
const char *hverolda_refusal_text(uint32_t number);

/*
 * Judge: is this an interchange by the rules?
 *
 * Refusals, in the order in which they are asked: 1, 2, 3, (4 5 6), 7, 8, 9, (10 11 12), 13. The
 * first of these stages that fails answers; within a stage, bracketed or single, the lowest place
 * does, then the lowest number. An interchange is accepted when none is met. These are "Judge's
 * refusals" below.
 */
hverolda_verdict hverolda_judge(const uint8_t *input, size_t input_length);

/*
 * Judge by a table: is this an interchange by the rules, and does each message have the structure that
 * the table tells?
 *
 * A table has 0 to 999 entries of eight bytes; numbers are big-endian:
 *   - three bytes: the tag of a segment, each of A to Z or 0 to 9, and of those that begin `UN` only
 *     UNS; or three zeros for a group's own entry;
 *   - one byte: `M` mandatory or `C` conditional;
 *   - two bytes: the largest number of repeats, 1 to 999;
 *   - two bytes: how many entries stand under it, at any depth: 1 or more for a group, which are those
 *     right behind it, and 0 for a segment.
 * A group's first entry is its trigger: a segment, mandatory and once. Groups stand within groups at
 * most eight deep, an outermost one being one deep, and end within the group or table that holds them.
 * A table of no entries allows only messages with nothing between UNH and UNT.
 *
 * The segments between UNH and UNT are taken from left to right, in each message from the table's
 * beginning. They are matched by their tag alone, UNS like any other. Each entry takes as many segments,
 * or repeats of its group, as it can before the next entry has its turn; where a group's trigger stands,
 * a repeat of it is begun, and nothing that was taken is given back. The walk stops at a mandatory
 * entry that can't be met, or at a segment left over after the last entry.
 *
 * Refusals: 21 where the table is unsound, before all else; then Judge's up to 12; then 22 at the
 * lowest place at which a message's walk stops; then 13. Where none is met it answers as Judge does.
 * Any bytes may be lent as a table, any number of them. What it costs stands at "Cost" and "Stack".
 */
hverolda_verdict hverolda_judge_by_table(const uint8_t *table, size_t table_length,
                                         const uint8_t *input, size_t input_length);

/*
 * Normalise: stores the normal form, which is the same for all spellings of the same contents under
 * the same decimal mark.
 *
 * Refusals: Judge's, then 14 where `buffer` is too short, with the bytes needed.
 * Afterwards `buffer` holds the normal form in front and keeps its values beyond; where anything is
 * refused it keeps all of them.
 */
hverolda_written hverolda_normalise(uint8_t *buffer, size_t buffer_length,
                                    const uint8_t *input, size_t input_length);

/*
 * Compare: are the two the same, that is, both accepted and their normal forms equal?
 *
 * Refusals: Judge's for the first input, then Judge's for the second.
 */
hverolda_comparison hverolda_compare(const uint8_t *first, size_t first_length,
                                     const uint8_t *second, size_t second_length);

/*
 * Keep: which of two interchanges that are the same to keep: the shorter one, whole; the first where
 * they are equally long. Where they are not the same, or one is refused: the first, 0 bytes from 0.
 *
 * Nothing is refused. Two that are the same are never empty, so `length` is 0 exactly where they are
 * not the same.
 */
hverolda_kept hverolda_keep(const uint8_t *first, size_t first_length,
                            const uint8_t *second, size_t second_length);

/*
 * Locate: where is a value spelled in the input? Segments, elements, repeats and components are
 * numbered from 0 in the contents, where empty components, repeats and elements at the end are gone;
 * element 0 is the tag, and in versions 1 and 2 an element has repeat 0 alone. The spelled length
 * counts the release characters in the value.
 *
 * Refusals: Judge's.
 */
hverolda_location hverolda_locate_value(const uint8_t *input, size_t input_length, size_t segment,
                                  size_t element, size_t repeat, size_t component);

/*
 * Part: the part of the input that Locate finds, as it is spelled there; 0 bytes from 0 where the
 * value is absent or the input refused.
 *
 * Nothing is refused.
 */
hverolda_part_found hverolda_value_part(const uint8_t *input, size_t input_length, size_t segment,
                                  size_t element, size_t repeat, size_t component);

/*
 * Parties: who sent the interchange, to whom, and its control reference, in one call: the first
 * components of UNB's elements 2 (S002, interchange sender), 3 (S003, interchange recipient) and 5
 * (0020, interchange control reference). Each is what Part hands back for segment 0, that element,
 * repeat 0 and component 0, as it is spelled there, for every input, refused or not; the three together
 * cost one Judge and one pass over UNB.
 *
 * Refusals: Judge's.
 */
hverolda_parties_found hverolda_parties(const uint8_t *input, size_t input_length);

/*
 * Read: stores the contents as a value list. `bytes` gets the values, without release characters and
 * end to end; `table` gets three numbers a value: its kind (0 new segment, 1 new element, 3 next repeat
 * of the element, 2 next component of the repeat), its start in `bytes`, and its length.
 *
 * Refusals: Judge's, then 14 where `bytes` is too short, with the bytes needed, then 14 where `table`
 * is too short, with the numbers needed (three a value). The answer does not say which of the two is
 * short; see "Limits" for sizes that are enough.
 * Afterwards each buffer holds its part of the list in front and keeps its values beyond; where
 * anything is refused both keep all of them.
 */
hverolda_listing hverolda_read(uint8_t *bytes, size_t bytes_length,
                               uint32_t *table, size_t table_length,
                               const uint8_t *input, size_t input_length);

/*
 * Write: the interchange that a value list says, under six service bytes: component separator,
 * element separator, decimal mark, release character (a space: none), repetition separator (a space:
 * none), terminator. The text is always an advice and the trimmed list. Values in `bytes` may stand in
 * any order and overlap.
 *
 * Refusals, in the order in which they are asked: 15, 2, 16, 1, 14 (the bytes needed), then 3 to 13
 * as Judge would answer for the text: 3, (4 5 6), 7, 8, 9, (10 11 12), 13.
 * Afterwards `output` holds the text in front and keeps its values beyond. A refused Write leaves
 * all of `output` zero, so that no half text is sent.
 */
hverolda_written hverolda_write(const uint8_t *service, size_t service_length,
                                const uint8_t *bytes, size_t bytes_length,
                                const uint32_t *table, size_t table_length,
                                uint8_t *output, size_t output_length);

/*
 * Acknowledge: the syntax report CONTRL (ISO 9735-4) for a received interchange. The caller lends three
 * value lists, each as Write's is and of one element: its first record has kind 0, all others 2 or 3.
 * They are the date and time, the new control reference and the message identification.
 *
 * The text is an interchange with the received one's level, version and mark, spelled as a normal form is.
 * UNB has sender and recipient exchanged, then the date and time and the new control reference. Its one
 * message has the reference `1`: UNH with the message identification; UCI with the received control
 * reference, sender, recipient and an action code, `7` where the received one is accepted and `4` where
 * it is refused by 10, 11 or 12; UNT with the count 3. Judge accepts the text, and Read gives back these
 * values, trimmed. Of tests/cases/01-x.edi, in one line:
 *
 *     UNA:+.? 'UNB+UNOA:1+BB+AA+261115:0842+A1'UNH+1+CONTRL:2:2:UN'
 *     UCI+R1+AA+BB+7'UNT+3+1'UNZ+1+A1'
 *
 * Refusals: 23; then 15 at 0 where a lent list is empty, is malformed by 15, or has kind 0 or 1 after its
 * first record; then Write's for the list put together, whose records are numbered in the order of the
 * text: 15 at 0 where there are more than 32,000, 16 for a kind 3 where the received version is not 4, 1,
 * 14 (the bytes needed), 8 for a lent byte outside the level, 10 at 9 for a new control reference that
 * is not one value of 1 to 14 bytes.
 * Afterwards `output` holds the text in front and keeps its values beyond. A refused Acknowledge leaves
 * all of `output` zero.
 */
hverolda_written hverolda_acknowledge(const uint8_t *received, size_t received_length,
                                      const uint8_t *date, size_t date_length,
                                      const uint32_t *date_table, size_t date_table_length,
                                      const uint8_t *reference, size_t reference_length,
                                      const uint32_t *reference_table, size_t reference_table_length,
                                      const uint8_t *message, size_t message_length,
                                      const uint32_t *message_table, size_t message_table_length,
                                      uint8_t *output, size_t output_length);

/*
 * Export: stores the contents in columns, for a spreadsheet. A heading line, then one line for each
 * value of the trimmed contents:
 *
 *     segment<TAB>element<TAB>repeat<TAB>component<TAB>value<LF>
 *     0<TAB>0<TAB>0<TAB>0<TAB>UNB<LF>
 *     0<TAB>1<TAB>0<TAB>0<TAB>UNOA<LF>
 *
 * Numbers count from 0 in decimal, without leading zeros. Values are without release characters.
 *
 * Refusals: Judge's, then 14 where `buffer` is too short, with the bytes needed.
 * Afterwards `buffer` holds the text in front and keeps its values beyond; where anything is refused it
 * keeps all of them.
 */
hverolda_written hverolda_export(uint8_t *buffer, size_t buffer_length,
                                 const uint8_t *input, size_t input_length);

/*
 * Import: the interchange that a text in columns tells, under six service bytes as Write's.
 *
 * It takes exactly the texts that Export gives for some trimmed list of values which hold no tab,
 * carriage return or line feed: every line as above, each with the numbers that come next, no empty
 * value at an end, and a line feed after the last. The list need be no interchange: that Write refuses.
 *
 * Refusals: 24 for any other text, whatever the service bytes are; then Write's for that list, whose
 * records are the lines after the heading, from 0: 15 at 0 where there are more than 32,000, 2, 16, 1,
 * 14 (the bytes needed), then 3 to 13.
 * Afterwards `output` holds the interchange in front and keeps its values beyond. A refused Import
 * leaves all of `output` zero.
 */
hverolda_written hverolda_import(const uint8_t *service, size_t service_length,
                                 const uint8_t *columns, size_t columns_length,
                                 uint8_t *output, size_t output_length);

/*
 * A shelf is a buffer that keeps up to 64 normal forms, each once and in a slot of its own, and two
 * sums:
 *
 *     from byte 0    `EDS`
 *     from byte 3    the version, 2                      16 bits
 *     from byte 5    the map of occupied slots           64 bits, slot k is the bit worth 2^k
 *     from byte 13   the text bytes held                 32 bits
 *     from byte 17   the duplicates found                32 bits
 *     from byte 21   64 pairs of start and length        32 bits each
 *     from byte 533  the texts
 *
 * Numbers are big-endian, starts count from the buffer's beginning, and no pointer is in it: a shelf
 * may be copied, stored in a file and mapped.
 *
 * It is sound when the occupied texts are normal forms by the rules of the archive, all different,
 * disjoint and together fill the room from byte 533 without gaps, free pairs and free bytes are zero,
 * and the bytes held are the sum of the lengths; the duplicates found may be any number. Every function
 * but Start and Carry asks this first, of any bytes: a shelf that comes from a file or a stranger may be
 * lent as it is. What they leave is sound, unless they refuse by 19; Carry back leaves a sound shelf of
 * version 1.
 *
 * A shelf of version 1 had no sums, its pairs from byte 13 on and its texts from byte 525 on, and at
 * least 525 bytes. Carry asks first whether it is sound so, and makes it one of version 2. Start writes
 * over it, as over any bytes, and all other functions refuse it by 19. The byte at place 4 is the version.
 *
 * The duplicates found are the puts that found their copy, since Start or Carry. They stay at
 * 4,294,967,295, and nothing else but Start and Carry alters them.
 *
 * Whatever is refused, the shelf keeps all of its bytes.
 */

/*
 * Start: writes an empty shelf over `shelf`, whatever was there.
 *
 * Refusals: 19 where it has fewer than 533 bytes or more than 65,536.
 * Afterwards `shelf` holds `EDS`, the version and zeros.
 */
hverolda_started hverolda_shelf_start(uint8_t *shelf, size_t shelf_length);

/*
 * Put: keeps the normal form of an interchange, unless it is there already, under whatever spelling it
 * came. A new text goes behind the last one, and into the lowest free slot.
 *
 * Refusals: 19, then Judge's; then, where the text is not there, 17, then 18.
 * Afterwards `shelf` holds the text, its pair and its bit in the map, and the bytes held are more by its
 * length; all else is as it was. Where the text was there already, the duplicates found are one more,
 * unless they are 4,294,967,295, and all else is as it was.
 */
hverolda_shelving hverolda_shelf_put(uint8_t *shelf, size_t shelf_length,
                                     const uint8_t *input, size_t input_length);

/*
 * Get: the part of the shelf that a slot keeps. A part that was handed back may move with the next
 * Remove or Carry back.
 *
 * Refusals: 19, then 20.
 */
hverolda_got hverolda_shelf_get(const uint8_t *shelf, size_t shelf_length, size_t slot);

/*
 * Remove: takes away the text that a slot keeps, and says how long it was. The texts behind it move
 * down, and keep their slots; the slot and the bytes are free again.
 *
 * Refusals: 19, then 20.
 * Afterwards the texts behind it, and their starts, are lower by its length, and so are the bytes held;
 * its bit in the map, its pair and as many bytes behind the last text are zero; all else is as it was,
 * the duplicates found with it.
 */
hverolda_written hverolda_shelf_remove(uint8_t *shelf, size_t shelf_length, size_t slot);

/*
 * Slots: how many slots are occupied, and the lowest free one, into which the next new text goes.
 *
 * Refusals: 19.
 */
hverolda_slot_numbers hverolda_shelf_slots(const uint8_t *shelf, size_t shelf_length);

/*
 * Sums: how many bytes the texts have together, and how many duplicates were found.
 *
 * Refusals: 19.
 */
hverolda_sum_numbers hverolda_shelf_sums(const uint8_t *shelf, size_t shelf_length);

/*
 * Carry: turns a shelf of version 1 into one of version 2, in its own buffer. Slots and texts stay.
 *
 * Refusals: 19 where it is no sound shelf of version 1, then 18 where fewer than 8 bytes are free: it is
 * then sound still, in version 1, and so it is with eight zero bytes more behind it, up to 65,536.
 * Afterwards `shelf` holds the same map, the bytes held and 0 duplicates found behind it, and the pairs
 * and the texts eight bytes higher, so that each start is more by 8; eight bytes fewer are free.
 */
hverolda_started hverolda_shelf_carry(uint8_t *shelf, size_t shelf_length);

/*
 * Carry back: turns a shelf of version 2 into one of version 1, in its own buffer. Slots and texts stay,
 * and the duplicates found are lost. There and back gives the same bytes, but for that figure. A part
 * that was handed back moves.
 *
 * Refusals: 19 where it is no sound shelf of version 2.
 * Afterwards `shelf` holds the same map, and the pairs and the texts eight bytes lower, so that each
 * start is less by 8; eight bytes more are free, and zero.
 */
hverolda_started hverolda_shelf_carry_back(uint8_t *shelf, size_t shelf_length);

/*
 * Report: the morning figures of a mailbox file, which has interchanges end to end.
 *
 * The file is cut into pieces. A piece ends after its first UNZ segment and the line breaks behind it;
 * its service characters are those of its own beginning. Where the cutting meets what is refused by 2
 * to 6, or the file's end, before a UNZ, the rest is one piece, and the last. Each piece is accepted,
 * or refused under the number that Judge gives it: 1 for one over 32,000 bytes. A file of no bytes has
 * no pieces. The time is that of one pass over the file and of Judge over each piece.
 *
 * Refusals: 1 where the file has more than 65,536 bytes.
 */
hverolda_morning hverolda_report(const uint8_t *file, size_t file_length);

/*
 * Piece: where the first piece of a mailbox file ends, and why there. The cutting is Report's, and so a
 * file is gone through piece by piece, of any length: it is lent whole, and each call goes over one piece.
 *
 *     while (length > 0) {
 *         hverolda_piece_end piece = hverolda_piece(file, length);
 *         take(file, piece.end);
 *         file += piece.end;
 *         length -= piece.end;
 *     }
 *
 * `end` is 0 where the file has no bytes, which has no pieces, and then all else is 0 too; else it is 1
 * or more. A piece that a UNZ ends may be accepted by Judge or refused; one that no UNZ ends is refused,
 * and it is the last. `number` and `place` tell what stopped the cutting: the place counts from the
 * piece's beginning, and of a piece of at most 32,000 bytes Judge tells the same; a longer one Judge
 * refuses by 1. A piece never begins anew inside what a fault stopped: what follows a stray byte between
 * two interchanges is one piece to the file's end.
 *
 * Nothing is refused; a file may have any length, over 65,536 bytes too.
 */
hverolda_piece_end hverolda_piece(const uint8_t *file, size_t file_length);

#ifdef __cplusplus
}
#endif

/* The archive's layout of the structs, held to this compiler's where the language can say it. */
#if defined(__cplusplus) && __cplusplus >= 201103L
#define HVEROLDA_HOLDS(fact) static_assert(fact, #fact);
#elif defined(__STDC_VERSION__) && __STDC_VERSION__ >= 201112L
#define HVEROLDA_HOLDS(fact) _Static_assert(fact, #fact);
#else
#define HVEROLDA_HOLDS(fact)
#endif
HVEROLDA_HOLDS(sizeof(size_t) == 8)
HVEROLDA_HOLDS(sizeof(hverolda_verdict) == 40)
HVEROLDA_HOLDS(offsetof(hverolda_verdict, groups) == 12)
HVEROLDA_HOLDS(offsetof(hverolda_verdict, place) == 16)
HVEROLDA_HOLDS(offsetof(hverolda_verdict, length) == 24)
HVEROLDA_HOLDS(offsetof(hverolda_verdict, component) == 32)
HVEROLDA_HOLDS(offsetof(hverolda_verdict, terminator) == 37)
HVEROLDA_HOLDS(sizeof(hverolda_written) == 24)
HVEROLDA_HOLDS(offsetof(hverolda_written, place) == 8)
HVEROLDA_HOLDS(offsetof(hverolda_written, length) == 16)
HVEROLDA_HOLDS(sizeof(hverolda_comparison) == 24)
HVEROLDA_HOLDS(offsetof(hverolda_comparison, input) == 4)
HVEROLDA_HOLDS(offsetof(hverolda_comparison, same) == 8)
HVEROLDA_HOLDS(offsetof(hverolda_comparison, place) == 16)
HVEROLDA_HOLDS(sizeof(hverolda_kept) == 24)
HVEROLDA_HOLDS(offsetof(hverolda_kept, offset) == 8)
HVEROLDA_HOLDS(offsetof(hverolda_kept, length) == 16)
HVEROLDA_HOLDS(sizeof(hverolda_location) == 32)
HVEROLDA_HOLDS(offsetof(hverolda_location, present) == 4)
HVEROLDA_HOLDS(offsetof(hverolda_location, place) == 8)
HVEROLDA_HOLDS(offsetof(hverolda_location, offset) == 16)
HVEROLDA_HOLDS(offsetof(hverolda_location, length) == 24)
HVEROLDA_HOLDS(sizeof(hverolda_part_found) == 16)
HVEROLDA_HOLDS(offsetof(hverolda_part_found, length) == 8)
HVEROLDA_HOLDS(sizeof(hverolda_listing) == 32)
HVEROLDA_HOLDS(offsetof(hverolda_listing, place) == 8)
HVEROLDA_HOLDS(offsetof(hverolda_listing, bytes) == 16)
HVEROLDA_HOLDS(offsetof(hverolda_listing, numbers) == 24)
HVEROLDA_HOLDS(sizeof(hverolda_started) == 16)
HVEROLDA_HOLDS(offsetof(hverolda_started, place) == 8)
HVEROLDA_HOLDS(sizeof(hverolda_shelving) == 24)
HVEROLDA_HOLDS(offsetof(hverolda_shelving, added) == 4)
HVEROLDA_HOLDS(offsetof(hverolda_shelving, place) == 8)
HVEROLDA_HOLDS(offsetof(hverolda_shelving, slot) == 16)
HVEROLDA_HOLDS(sizeof(hverolda_got) == 32)
HVEROLDA_HOLDS(offsetof(hverolda_got, place) == 8)
HVEROLDA_HOLDS(offsetof(hverolda_got, offset) == 16)
HVEROLDA_HOLDS(offsetof(hverolda_got, length) == 24)
HVEROLDA_HOLDS(sizeof(hverolda_slot_numbers) == 32)
HVEROLDA_HOLDS(offsetof(hverolda_slot_numbers, place) == 8)
HVEROLDA_HOLDS(offsetof(hverolda_slot_numbers, occupied) == 16)
HVEROLDA_HOLDS(offsetof(hverolda_slot_numbers, lowest) == 24)
HVEROLDA_HOLDS(sizeof(hverolda_sum_numbers) == 24)
HVEROLDA_HOLDS(offsetof(hverolda_sum_numbers, held) == 4)
HVEROLDA_HOLDS(offsetof(hverolda_sum_numbers, duplicates) == 8)
HVEROLDA_HOLDS(offsetof(hverolda_sum_numbers, place) == 16)
HVEROLDA_HOLDS(sizeof(hverolda_morning) == 96)
HVEROLDA_HOLDS(offsetof(hverolda_morning, accepted) == 4)
HVEROLDA_HOLDS(offsetof(hverolda_morning, refused) == 8)
HVEROLDA_HOLDS(offsetof(hverolda_morning, segments) == 64)
HVEROLDA_HOLDS(offsetof(hverolda_morning, messages) == 68)
HVEROLDA_HOLDS(offsetof(hverolda_morning, place) == 72)
HVEROLDA_HOLDS(offsetof(hverolda_morning, total) == 80)
HVEROLDA_HOLDS(offsetof(hverolda_morning, longest) == 88)
HVEROLDA_HOLDS(sizeof(hverolda_piece_end) == 24)
HVEROLDA_HOLDS(offsetof(hverolda_piece_end, ended) == 4)
HVEROLDA_HOLDS(offsetof(hverolda_piece_end, place) == 8)
HVEROLDA_HOLDS(offsetof(hverolda_piece_end, end) == 16)
HVEROLDA_HOLDS(sizeof(hverolda_parties_found) == 64)
HVEROLDA_HOLDS(offsetof(hverolda_parties_found, place) == 8)
HVEROLDA_HOLDS(offsetof(hverolda_parties_found, sender) == 16)
HVEROLDA_HOLDS(offsetof(hverolda_parties_found, recipient) == 32)
HVEROLDA_HOLDS(offsetof(hverolda_parties_found, reference) == 48)
#undef HVEROLDA_HOLDS

#endif
