//! The refusals in words: one table, from which the command, the manual page, the C library
//! (`c/refusal_text.c`) and [`Fault`](crate::Fault) take what they say.

/// What is said of one number.
#[derive(Clone, Copy, Debug, PartialEq, Eq)]
#[non_exhaustive]
pub struct Words {
    /// Its number, from 1.
    pub number: u32,
    /// What is wrong, as the end of a sentence.
    pub title: &'static str,
    /// What it means.
    pub meaning: &'static str,
    /// What to look at.
    pub look: &'static str,
    /// What is refused so, and what is not.
    pub example: &'static str,
    /// What the place counts.
    pub place: &'static str,
}

/// The words of all numbers, in their order.
///
/// ```
/// let words = hverolda::words();
/// assert_eq!(words[11].number, 12);
/// assert_eq!(words[11].title, "the trailer's count is wrong");
/// ```
#[must_use]
pub fn words() -> &'static [Words] {
    &WORDS
}

const BYTE: &str = "the byte, from 0";
const SEGMENT: &str = "the first byte of the segment, from 0";

const WORDS: [Words; 24] = [
    Words {
        number: 1,
        title: "there are more than 32000 bytes",
        meaning: "An interchange, or the text that is to be written, has at most 32,000 bytes.",
        look: "Does the file hold several interchanges end to end? 'hverolda cut' parts them, \
            'hverolda report' counts them. One interchange that is too long goes as two.",
        example: "32,001 bytes are refused, whatever they are; 32,000 are judged.",
        place: "always 0",
    },
    Words {
        number: 2,
        title: "the service string advice is not usable",
        meaning: "After UNA stand six bytes: component separator, element separator, decimal \
            mark, release character, repetition separator, segment terminator. Separators and \
            terminator are signs (no letter, digit or space) or one of the bytes 28, 29, 31; \
            the mark is . or ,; release and repetition may be a space, which means none; all \
            must differ.",
        look: "The nine bytes from UNA on. A line break is no terminator, but may follow it.",
        example: "UNA::.? ' has : twice; UNA:+.? ' is right.",
        place: "always 0",
    },
    Words {
        number: 3,
        title: "the body does not begin with UNB and the element separator",
        meaning: "An interchange begins with UNB and the element separator, or with an advice \
            (UNA and six bytes), line breaks if any, and then UNB.",
        look: "The file's first bytes: a byte order mark, a line break, a mail header, a packed \
            file, X12, XML, or another coding than ASCII. Without an advice the element \
            separator is + (or byte 29).",
        example: "A line feed before UNB+ is refused; UNB+ as the very first bytes is right.",
        place: "0; after an advice, the byte after it and its line breaks",
    },
    Words {
        number: 4,
        title: "the release character is followed by no service character",
        meaning: "The release character (? where no advice says otherwise) takes the special \
            meaning from the service character after it. Before any other byte it means \
            nothing, and is refused.",
        look: "The byte after the place. A question mark of the text itself is written ??.",
        example: "WHY?NOT is refused; WHY??NOT and O?'HARA are right.",
        place: "the release character, from 0",
    },
    Words {
        number: 5,
        title: "the body ends inside a segment",
        meaning: "Each segment ends with the terminator (' where no advice says otherwise), the \
            last one too. Bytes after it other than line breaks begin another segment.",
        look: "The end of the file: was it cut off, is the last ' missing, does Ctrl-Z, a zero \
            byte or a blank follow UNZ? Do line breaks stand in place of the terminator?",
        example: "..UNZ+1+R1 is refused; ..UNZ+1+R1' is right, also with a line feed after it.",
        place: "the length of the input",
    },
    Words {
        number: 6,
        title: "the segment's tag is not one, or a repeat follows it",
        meaning: "A segment begins with its tag: three of A to Z and 0 to 9, then the element \
            separator, the component separator or the terminator. Of those that begin UN only \
            UNB, UNG, UNH, UNS, UNT, UNE and UNZ are known, and no component follows them.",
        look: "The beginning of the segment: a blank or a line break in it, small letters, a \
            terminator that stands twice, or one that is missing before it.",
        example: "'' (an empty segment), bgm+220' and UNX+1' are refused; BGM+220' is right.",
        place: SEGMENT,
    },
    Words {
        number: 7,
        title: "the level or version is not judged, or not with this fifth service byte",
        meaning: "UNB's first element names the level and the syntax version: UNOA or UNOB, and \
            1, 2 or 4. A repetition separator (the advice's fifth byte) is for version 4 alone.",
        look: "UNB+UNOA:1. UNOC and others have letters that are not judged here; version 3 is \
            not judged.",
        example: "UNB+UNOC:3+.. is refused; UNB+UNOB:2+.. is judged.",
        place: "the first byte of UNB, from 0",
    },
    Words {
        number: 8,
        title: "the byte is outside the level",
        meaning: "Level A has A to Z, 0 to 9, space and . , - ( ) / = ' + : ? ! \" % & * ; < >. \
            Level B adds a to z. Other bytes, as umlauts, @, # and _, are in neither.",
        look: "The byte at the place. Small letters want UNOB; a line break may stand only \
            after a terminator.",
        example: "Under UNOA, Muller is refused at the u; MULLER is right, and so is Muller \
            under UNOB.",
        place: BYTE,
    },
    Words {
        number: 9,
        title: "no such segment or section is allowed here, or the end comes before UNZ",
        meaning: "The order is UNB, then messages (UNH .. UNT) or groups of messages (UNG .. \
            UNE), not both, then UNZ and nothing more. In a message UNS names D or S, each \
            once, D first.",
        look: "The segment at the place and the one before it: a header without its trailer, a \
            segment between messages, a second interchange after UNZ.",
        example: "UNB..UNZ without a message is refused; UNB..UNH..UNT..UNZ is right.",
        place: "the first byte of the segment, from 0; the input's length where the end comes \
            too early",
    },
    Words {
        number: 10,
        title: "a count or a reference is missing or malformed",
        meaning: "References (UNB's and UNG's element 5, UNH's 1, and element 2 of UNT, UNE and \
            UNZ) are one component of 1 to 14 bytes. Counts (element 1 of UNT, UNE and UNZ) are \
            one component of 1 to 6 digits.",
        look: "The element that the sentence names: is it missing, too long, or more than one \
            component?",
        example: "UNZ+1' is refused, since its reference is missing; UNZ+1+R1' is right.",
        place: SEGMENT,
    },
    Words {
        number: 11,
        title: "the trailer's reference is not its header's",
        meaning: "UNT repeats the reference of UNH, UNE that of UNG, UNZ that of UNB, byte for \
            byte: 01 is not 1.",
        look: "Both references. A spreadsheet or a conversion may have taken zeros away from \
            one of them.",
        example: "UNB+..+0007'..UNZ+1+7' is refused; UNZ+1+0007' is right.",
        place: "the first byte of the trailer, from 0",
    },
    Words {
        number: 12,
        title: "the trailer's count is wrong",
        meaning: "UNT counts the segments from UNH to UNT, both of them too; UNE the messages \
            of its group; UNZ the groups, or the messages where there are no groups.",
        look: "The number that the trailer says and the one that the sentence tells. A segment \
            may have been lost, or the count may leave UNH and UNT out.",
        example: "UNH+1'BGM+220'UNT+1+1' is refused; UNT+3+1' is right.",
        place: "the first byte of the trailer, from 0",
    },
    Words {
        number: 13,
        title: "the normal form has more than 32000 bytes",
        meaning: "The normal form has an advice and may have more release characters than the \
            input, and must fit 32,000 bytes too.",
        look: "The length of the input: it is close to 32,000. Send it as two interchanges.",
        example: "31,995 bytes without an advice would become 32,004, and are refused.",
        place: "the length that the normal form would have",
    },
    Words {
        number: 14,
        title: "a lent buffer is too short",
        meaning: "For callers in C and Rust: the buffer that was lent cannot hold the answer.",
        look: "The place is how many bytes, or numbers of Read's table, are needed.",
        example: "Normalise into 92 bytes where 93 are needed answers 14 at 93.",
        place: "how many bytes or table numbers are needed",
    },
    Words {
        number: 15,
        title: "the value list's table is malformed, or the segment begins with a line break",
        meaning: "A value list has three numbers for each value: kind, start, length. The first \
            kind is 0, none is above 3, each value lies within the bytes, and no tag begins \
            with a line break.",
        look: "The value at the place. In lines for 'hverolda write' it is the line of that \
            number, from 0.",
        example: "A line '7 UNOA' is refused, since there is no kind 7.",
        place: "the number of the value, from 0",
    },
    Words {
        number: 16,
        title: "a service character in a value, or a repeat, cannot be spelled",
        meaning: "The service characters that were chosen have no release character, and a \
            value holds one of them; or they have no repetition separator, and there is a \
            repeat.",
        look: "The six service bytes: the fourth is the release character, the fifth the \
            repetition separator, and a space is none.",
        example: "A+B under ':+.  '' is refused; under ':+.? '' it is written A?+B.",
        place: "the number of the value, from 0",
    },
    Words {
        number: 17,
        title: "all 64 slots of the shelf are occupied",
        meaning: "A shelf keeps at most 64 interchanges.",
        look: "Remove one that is no longer wanted, or start another shelf.",
        example: "The 65th new interchange is refused; a copy of a kept one is still found.",
        place: "always 64",
    },
    Words {
        number: 18,
        title: "the shelf has too few free bytes",
        meaning: "The normal form does not fit into what is free of the shelf; or, to carry a \
            shelf over, fewer than 8 bytes are free.",
        look: "The place is how many bytes are needed; 'hverolda shelf SHELF list' tells how \
            many are free.",
        example: "A shelf of 533 bytes keeps nothing.",
        place: "how many bytes are needed",
    },
    Words {
        number: 19,
        title: "there is no sound shelf of the version asked for: 2 with 533 to 65536 bytes, or \
            1 with 525 to 65536 to carry over",
        meaning: "The file or buffer is no shelf, or it was damaged, or it is of the other \
            version.",
        look: "Is it the right file? A shelf of version 1 is turned into version 2 by 'hverolda \
            shelf SHELF carry'.",
        example: "A file in which one byte of a kept text was changed is refused.",
        place: "always 0",
    },
    Words {
        number: 20,
        title: "no text is kept in this slot",
        meaning: "The slot is free, or there is none of that number: slots are 0 to 63.",
        look: "'hverolda shelf SHELF list' tells which slots are occupied.",
        example: "get 64 is always refused.",
        place: "the slot",
    },
    Words {
        number: 21,
        title: "the table's entry breaks its rules",
        meaning: "A table of message structures has at most 999 entries: a tag (of those that \
            begin UN only UNS), M or C, 1 to 999 repeats; a group begins with a segment that is \
            M and 1, groups stand in one another at most eight deep.",
        look: "The line or entry that is named. docs/TABLES.md tells how a printed segment \
            table becomes a text.",
        example: "A group whose first segment is C is refused.",
        place: "the entry, from 0",
    },
    Words {
        number: 22,
        title: "the table wants another segment here, or none",
        meaning: "A message does not have the structure that the table tells: a mandatory \
            segment is missing, a segment stands in the wrong order, or more often than it may.",
        look: "The tags that the table allows at the place. Each message type wants its own table.",
        example: "With a table that begins BGM M 1, a message that begins with DTM is refused \
            at DTM.",
        place: "the first byte of the segment, perhaps UNT, from 0",
    },
    Words {
        number: 23,
        title: "it cannot be acknowledged: it is refused by other than 10, 11 and 12, or UNB \
            lacks a sound reference, a sender or a recipient",
        meaning: "A CONTRL answers an interchange that is accepted, or refused by 10, 11 or 12, \
            and needs to know from whom it came and under which reference.",
        look: "What 'hverolda judge' says of the interchange; then sender, recipient and \
            reference in UNB.",
        example: "UNB+UNOA:1++BB+.. has no sender.",
        place: "always 0",
    },
    Words {
        number: 24,
        title: "it is no text in columns: a line, a number, an empty end or a line's end is not \
            as export writes it",
        meaning: "Import takes exactly what export writes, with other values: five columns with \
            tabs between them, numbers one after another, line feeds alone.",
        look: "The line that is named. Open every column as text, and save with tabs, without \
            quotes, with line feeds.",
        example: "Lines that end in carriage return and line feed are refused.",
        place: "always 0",
    },
];

#[cfg(test)]
mod tests {
    use super::*;

    #[test]
    fn each_number_has_its_words() {
        for (words, number) in WORDS.iter().zip(1..) {
            assert_eq!(words.number, number);
            for text in [words.title, words.meaning, words.look, words.example, words.place] {
                assert!(!text.is_empty(), "{number}");
            }
            assert!(words.meaning.ends_with('.') && words.look.ends_with(['.', '?']), "{number}");
        }
    }

    /// `c/refusal_text.c` as this table makes it: `cargo run --example refusal_text`
    /// writes it.
    #[test]
    fn the_c_file_says_the_same() {
        let path = concat!(env!("CARGO_MANIFEST_DIR"), "/../../c/refusal_text.c");
        assert_eq!(std::fs::read_to_string(path).unwrap(), crate::words::c_file());
    }
}

/// The text of `c/refusal_text.c`.
#[doc(hidden)]
#[must_use]
pub fn c_file() -> String {
    let quoted = |text: &str| text.replace('\\', "\\\\").replace('"', "\\\"");
    let lines: String =
        WORDS.iter().map(|words| format!("    \"{}\",\n", quoted(words.title))).collect();
    format!(
        "/* A sentence for each refusal. Written by cargo run --example refusal_text from\n   \
         rust/hverolda/src/words.rs, where the words are changed. */\n\n\
         #include <stdint.h>\n\n\
         const char *hverolda_refusal_text(uint32_t number);\n\n\
         static const char *const texts[] = {{\n{lines}}};\n\n\
         /* The sentence of this number, and an empty one where there is none. It is never\n   \
         freed, and never null. */\n\
         const char *hverolda_refusal_text(uint32_t number)\n{{\n    \
         return number >= 1 && number <= sizeof texts / sizeof *texts ? texts[number - 1] : \"\";\n}}\n"
    )
}
