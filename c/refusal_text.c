/* A sentence for each refusal. Written by cargo run --example refusal_text from
   rust/hverolda/src/words.rs, where the words are changed. */

#include <stdint.h>

const char *hverolda_refusal_text(uint32_t number);

static const char *const texts[] = {
    "there are more than 32000 bytes",
    "the service string advice is not usable",
    "the body does not begin with UNB and the element separator",
    "the release character is followed by no service character",
    "the body ends inside a segment",
    "the segment's tag is not one, or a repeat follows it",
    "the level or version is not judged, or not with this fifth service byte",
    "the byte is outside the level",
    "no such segment or section is allowed here, or the end comes before UNZ",
    "a count or a reference is missing or malformed",
    "the trailer's reference is not its header's",
    "the trailer's count is wrong",
    "the normal form has more than 32000 bytes",
    "a lent buffer is too short",
    "the value list's table is malformed, or the segment begins with a line break",
    "a service character in a value, or a repeat, cannot be spelled",
    "all 64 slots of the shelf are occupied",
    "the shelf has too few free bytes",
    "there is no sound shelf of the version asked for: 2 with 533 to 65536 bytes, or 1 with 525 to 65536 to carry over",
    "no text is kept in this slot",
    "the table's entry breaks its rules",
    "the table wants another segment here, or none",
    "it cannot be acknowledged: it is refused by other than 10, 11 and 12, or UNB lacks a sound reference, a sender or a recipient",
    "it is no text in columns: a line, a number, an empty end or a line's end is not as export writes it",
};

/* The sentence of this number, and an empty one where there is none. It is never
   freed, and never null. */
const char *hverolda_refusal_text(uint32_t number)
{
    return number >= 1 && number <= sizeof texts / sizeof *texts ? texts[number - 1] : "";
}
