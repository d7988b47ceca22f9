//! A case for each number and reason.

use super::*;
use crate::{
    acknowledgement, import, judge_by_table, normalise, write, Lent, ServiceCharacters, Shelf,
    ValueList,
};

const SIX: &[u8] = b":+.? '";

/// What is said of an input as Judge refuses it: number, place, sentence.
fn told(input: &[u8]) -> (u32, usize, String) {
    let refusal = judge(input).unwrap_err();
    let told = explain(input, refusal);
    assert_eq!(told.refusal, refusal);
    assert!(!told.found.is_empty() && !told.expected.is_empty(), "{told}");
    (refusal.number(), refusal.place, told.sentence)
}

/// An interchange of version 1 with these segments between UNB and UNZ.
fn body(segments: &str) -> Vec<u8> {
    format!("UNB+UNOA:1+AA+BB+260105:0930+R1'{segments}UNZ+1+R1'").into_bytes()
}

fn holds(input: &[u8], number: u32, place: usize, sentence: &str) {
    assert_eq!(told(input), (number, place, sentence.to_string()));
}

#[test]
fn one_too_long() {
    holds(
        &[b'A'; 32_001],
        1,
        0,
        "it has more than 32000 bytes, which is the most for one interchange",
    );
    let mut two = body("UNH+1'UNT+2+1'");
    let end = two.len();
    two.extend(two.clone());
    two.resize(32_001, b'A');
    let sentence = format!(
        "it has more than 32000 bytes, but a first interchange ends at byte {end} and another \
         follows: part them with 'hverolda cut'"
    );
    holds(&two, 1, 0, &sentence);
}

#[test]
fn two_advice_byte_by_byte() {
    let sign = "a sign that is no letter, digit or space, or one of the bytes 28, 29, 31";
    let or_none = "a space for none, or a sign that is no letter, digit or space";
    let cases: [(&[u8], String); 8] = [
        (
            b"UNA:+",
            "the advice is cut short: 2 bytes after UNA, six service characters must \
            stand there"
                .into(),
        ),
        (
            b"UNA +.? 'UNB+",
            format!(
                "the advice names a space as component separator: it must be \
            {sign}"
            ),
        ),
        (b"UNA:1.? 'UNB1", format!("the advice names 1 as element separator: it must be {sign}")),
        (
            b"UNA:+;? 'UNB+",
            "the advice names ; as decimal mark: it must be a full stop or a \
            comma"
                .into(),
        ),
        (
            b"UNA:+.A 'UNB+",
            format!(
                "the advice names A as release character: it must be \
            {or_none}"
            ),
        ),
        (
            b"UNA:+.?\n'UNB+",
            format!(
                "the advice names a line feed (0x0A) as repetition \
            separator (the fifth byte): it must be {or_none}"
            ),
        ),
        (
            b"UNA:+.? \nUNB+",
            format!(
                "the advice names a line feed (0x0A) as segment terminator: \
            it must be {sign}; line breaks may follow the terminator, but not be it"
            ),
        ),
        (
            b"UNA:+.? :UNB+",
            "the advice names : twice, as component separator and as segment \
            terminator: they must differ"
                .into(),
        ),
    ];
    for (input, sentence) in cases {
        holds(input, 2, 0, &sentence);
    }
}

#[test]
fn three_after_an_advice() {
    holds(b"UNA:+.? '", 3, 9, "nothing follows the service string advice");
    holds(
        b"UNA:+.? 'UNB*UNOA",
        3,
        9,
        "UNB is followed by *, but the advice names + as element separator",
    );
    holds(
        b"UNA:+.? '\n UNB+UNOA",
        3,
        10,
        "blanks stand between the advice and UNB: only line breaks may",
    );
    holds(b"UNA:+.? 'UNH+1'", 3, 9, "after the advice stands UNH+1', where UNB and + must stand");
}

#[test]
fn three_what_is_no_interchange() {
    let no = |what: &str| format!("it is {what}");
    let cases: [(&[u8], String); 26] = [
        (b"", "the file is empty: there is no interchange in it".into()),
        (
            b" \n\0",
            "it has 3 blanks, line breaks or zero bytes and nothing else: there is no \
            interchange in it"
                .into(),
        ),
        (
            b"\xef\xbb\xbfUNB+UNOA:1",
            "a byte order mark (EF BB BF) stands before it: save the \
            file without one, as plain ASCII"
                .into(),
        ),
        (b"\xff\xfeU\0N\0B\0", no("in UTF-16")),
        (b"\xfe\xff\0U\0N\0B", no("in UTF-16")),
        (b"U\0N\0B\0+\0", no("in UTF-16")),
        (b"\0U\0N\0B\0+", no("in UTF-16")),
        (b"\xe4\xd5\xc2N", no("in EBCDIC")),
        (b"\xe4\xd5\xc1z", no("in EBCDIC")),
        (b"\x1f\x8b\x08", no("packed by gzip")),
        (b"PK\x03\x04", no("a ZIP archive")),
        (b"BZh9", no("packed by bzip2")),
        (b"%PDF-1.4", no("a PDF")),
        (b"ISA*00*", no("ANSI X12 (it begins with ISA)")),
        (b"STX=ANA:1", no("TRADACOMS (it begins with STX)")),
        (b"UIB+UNOA:4'", no("interactive EDIFACT (it begins with UIB)")),
        (b"MSH|^~\\&|", no("HL7 (it begins with MSH)")),
        (b"<?xml?>", no("XML or HTML")),
        (b" [1, 2]", no("JSON")),
        (
            b"UNB*UNOA",
            "UNB is followed by *: without a service string advice it must be +; put \
            UNA and the six service characters before UNB"
                .into(),
        ),
        (b"UNB", "it ends after UNB: the rest is missing".into()),
        (b"unb+unoa:1", "it begins with unb: tags are capitals".into()),
        (
            b"UNH+1+ORDERS",
            "it begins with UNH: UNB, the interchange's own header, is missing \
            before it"
                .into(),
        ),
        (
            b"\r\nUNA:+.? 'UNB+UNOA:1",
            "a line break stands before the interchange, which begins \
            at byte 2: take the first 2 bytes away"
                .into(),
        ),
        (
            b"From edi\n\nUNB+UNOA:1",
            "a header of a mail or a transfer stands before the \
            interchange, which begins at byte 10: take the first 10 bytes away"
                .into(),
        ),
        (
            b"order 1\n",
            "it begins with \"order 1\\x0a\": no EDIFACT interchange, which begins \
            with UNB+ or UNA"
                .into(),
        ),
    ];
    for (input, sentence) in cases {
        let (number, place, found) = told(input);
        assert_eq!((number, place), (3, 0));
        assert!(found.starts_with(&sentence), "{found}\n{sentence}");
    }
    holds(
        b"  UNB+UNOA:1",
        3,
        0,
        "blanks stand before the interchange, which begins at byte 2: take the first 2 bytes away",
    );
}

#[test]
fn four_release() {
    holds(
        &body("UNH+1'FTX+A?B'UNT+3+1'"),
        4,
        43,
        "? releases B, which is no service character: \
        only : + ? ' are released; a ? of the text itself is written ??",
    );
    holds(
        b"UNB+?",
        4,
        4,
        "the last byte is the release character ?, and nothing follows that it could release",
    );
}

#[test]
fn five_the_end() {
    holds(
        b"UNB+UNOA:1\nUNH+1\nUNT+2+1\n",
        5,
        25,
        "there is no ' in it: its segments end with \
        line breaks, which do not end a segment; put ' at the end of each line",
    );
    holds(b"UNB+UNOA:1", 5, 10, "there is no ' in it, which ends each segment");
    let whole = body("UNH+1'UNT+2+1'");
    holds(
        &whole[..whole.len() - 1],
        5,
        whole.len() - 1,
        "the ' after UNZ, the last byte of an interchange, is missing",
    );
    holds(
        &whole[..36],
        5,
        36,
        "the end comes inside segment 2, which begins UNH: the rest was cut off, or ' is missing",
    );
    holds(
        b"UNB+UNOA:1'UNZ+1+R1?'",
        5,
        21,
        "the last ' is released by the sign before it, and so ends nothing",
    );
    for (more, what) in [
        (&b"\x1a"[..], "Ctrl-Z (0x1A)"),
        (b"\0\0", "2 zero bytes"),
        (b" ", "1 blank"),
        (b" \x1a", "2 bytes of filling"),
        (b"END", "END, 3 bytes in all"),
    ] {
        let input = [&whole[..], more].concat();
        let sentence = format!(
            "after UNZ, from byte {} on: {what}; only line breaks may follow \
            UNZ, take the rest away",
            whole.len()
        );
        holds(&input, 5, input.len(), &sentence);
    }
}

#[test]
fn six_tags() {
    let tag = "a tag is three of A to Z and 0 to 9, and + or ' follows it; a ' of the text \
        itself is written ?'";
    for (segment, sentence) in [
        ("'", "a segment is empty: ' stands twice in a row, take one away".to_string()),
        (
            " BGM+220'",
            "1 blank stands before the tag: only line breaks may stand between \
            segments"
                .into(),
        ),
        (
            "B\nM+220'",
            "a line break stands inside the tag or right after it: line breaks are \
            passed over only after '"
                .into(),
        ),
        ("bgm+220'", format!("bgm is no tag: {tag}")),
        ("BG+220'", format!("BG is no tag: {tag}")),
        ("BGM220'", format!("BGM220 is no tag: {tag}")),
        (
            "UNX+1'",
            "UNX is no service segment that is judged here: those are UNB, UNG, UNH, \
            UNS, UNT, UNE and UNZ"
                .into(),
        ),
        ("UNS:+D'", ": follows UNS: a service segment's tag has no component after it".into()),
    ] {
        holds(&body(&format!("UNH+1'{segment}UNT+3+1'")), 6, 38, &sentence);
    }
    let repeated = b"UNB+UNOA:4+AA+BB++R1'UNH+1'BGM*+220'UNT+3+1'UNZ+1+R1'";
    holds(repeated, 6, 27, "a repeat follows the tag BGM: a tag has none");
}

#[test]
fn seven_levels() {
    let judged = "judged are UNOA and UNOB in versions 1, 2 and 4";
    for (element, names) in [
        ("UNOC:3", "UNOC:3"),
        ("UNOA:3", "UNOA:3"),
        ("UNOA", "UNOA:(nothing)"),
        ("", "(nothing):(nothing)"),
    ] {
        holds(
            format!("UNB+{element}+AA'").as_bytes(),
            7,
            0,
            &format!("UNB names {names}; {judged}"),
        );
    }
    holds(
        b"UNA:+.?*'UNB+UNOB:2+AA'",
        7,
        9,
        "the advice's fifth byte is *, a repetition \
        separator, which only version 4 has, but UNB names UNOB:2: write a space there",
    );
    holds(
        b"UNB+UNOA:4*X+AA'",
        7,
        0,
        "UNB's element 1 has 2 repeats: level and version stand there once",
    );
}

#[test]
fn eight_bytes() {
    let of = |segment: &[u8]| {
        [&b"UNB+UNOA:1+AA+BB++R1'UNH+1'"[..], segment, b"UNT+3+1'UNZ+1+R1'"].concat()
    };
    holds(
        &of(b"BGM+l'"),
        8,
        31,
        "l is in level B, the interchange says UNOA: write capitals in \
        element 1 of BGM, or name UNOB in UNB",
    );
    holds(
        &of(b"BGM+A+B:\xdc'"),
        8,
        35,
        "0xDC is in no level judged here: write element 2, component 2 of BGM without it",
    );
    holds(
        &of("BGM+Ü'".as_bytes()),
        8,
        31,
        "0xC3 (Ü in UTF-8) is in no level judged here: write element 1 of BGM without it",
    );
    holds(&of(b"BGM:@'"), 8, 31, "@ is in no level judged here: write the tag BGM without it");
    holds(
        &of(b"BGM+\t'"),
        8,
        31,
        "a tab (0x09) is in no level judged here: write element 1 of BGM without it",
    );
    holds(
        &of(b"BGM+A\nB'"),
        8,
        32,
        "a line break stands inside element 1 of BGM: line breaks are passed over only after '",
    );
    let long =
        of(b"FTX+AAAAAAAAAAAAAAAAAAAAAAAAAAAAAAAAAAAAAAAAAA\nAAAAAAAAAAAAAAAAAAAAAAAAAAAAAA'");
    assert!(
        told(&long)
            .2
            .ends_with("; the lines are cut after 73 bytes: join them, as with tr -d '\\r\\n'"),
        "{:?}",
        told(&long)
    );
}

#[test]
fn nine_order() {
    let unb = "UNB+UNOA:1+AA+BB+260105:0930+R1'";
    let inside = "a segment of the message, UNS or UNT may stand here";
    let message = "message 1, which UNH (segment 2) began";
    for (rest, place, sentence) in [
        (
            "",
            0,
            "the end comes right after UNB: there is no message, and no UNZ; UNG or UNH may \
            stand here"
                .to_string(),
        ),
        (
            "UNH+1'",
            6,
            format!(
                "the end comes inside {message}, before its UNT and before UNZ; \
            {inside}"
            ),
        ),
        (
            "UNG+1'",
            6,
            "the end comes inside a group, before its UNE and before UNZ; UNH may \
            stand here"
                .into(),
        ),
        ("UNH+1'UNT+2+1'", 14, "the end comes before UNZ; UNH or UNZ may stand here".into()),
        (
            "UNZ+0+R1'",
            0,
            "UNZ stands right after UNB: there is no message between them; UNG or \
            UNH may stand here"
                .into(),
        ),
        ("BGM+1'", 0, "BGM stands outside a message; UNG or UNH may stand here".into()),
        ("UNS+D'", 0, "UNS stands outside a message; UNG or UNH may stand here".into()),
        ("UNB+1'", 0, "UNB stands a second time before UNZ; UNG or UNH may stand here".into()),
        (
            "UNT+1'",
            0,
            "UNT ends no message: there is no UNH before it that is still open; UNG \
            or UNH may stand here"
                .into(),
        ),
        (
            "UNE+1'",
            0,
            "UNE ends no group: there is no UNG before it that is still open; UNG or \
            UNH may stand here"
                .into(),
        ),
        (
            "UNH+1'UNH+2'",
            6,
            format!(
                "UNH stands inside {message}: its UNT is missing before it; \
            {inside}"
            ),
        ),
        (
            "UNG+1'UNE+0+1'",
            6,
            "UNE stands right after UNG: there is no message between them; \
            UNH may stand here"
                .into(),
        ),
        (
            "UNG+1'UNH+1'UNT+2+1'UNZ+1'",
            20,
            "UNZ stands inside a group whose UNE is missing \
            before it; UNH or UNE may stand here"
                .into(),
        ),
        (
            "UNH+1'UNT+2+1'UNG+1'",
            14,
            "UNG stands after a message that is in no group: either \
            all messages stand in groups or none; UNH or UNZ may stand here"
                .into(),
        ),
        (
            "UNG+1'UNH+1'UNT+2+1'UNE+1+1'UNH+1'",
            28,
            "UNH stands after a group and in none: \
            either all messages stand in groups or none; UNG or UNZ may stand here"
                .into(),
        ),
        ("UNH+1'UNS+X'", 6, "UNS names the section X: it must be D or S, and nothing else".into()),
        (
            "UNH+1'UNS+D:S'",
            6,
            "UNS names the section D:S: it must be D or S, and nothing else".into(),
        ),
        ("UNH+1'UNS'", 6, "UNS names the section \"\": it must be D or S, and nothing else".into()),
        (
            "UNH+1'UNS+D'UNS+D'",
            12,
            "UNS+D stands twice in one message: each section begins once".into(),
        ),
        (
            "UNH+1'UNS+S'UNS+S'",
            12,
            "UNS+S stands twice in one message: each section begins once".into(),
        ),
        ("UNH+1'UNS+S'UNS+D'", 12, "UNS+D stands after UNS+S: detail comes before summary".into()),
    ] {
        holds(format!("{unb}{rest}").as_bytes(), 9, unb.len() + place, &sentence);
    }
    let mut two = body("UNH+1'UNT+2+1'");
    let end = two.len();
    two.extend(two.clone());
    holds(
        &two,
        9,
        end,
        &format!(
            "a second interchange begins at byte {end}, after UNZ: part \
        them with 'hverolda cut', or count them with 'hverolda report'"
        ),
    );
}

#[test]
fn ten_control_elements() {
    let reference = "1 to 14 bytes are allowed";
    let count = "1 to 6 digits are allowed";
    for (input, place, sentence) in [
        (
            "UNB+UNOA:1+AA+BB'UNH+1'UNT+2+1'UNZ+1+R1'",
            0,
            format!(
                "UNB's element 5, the \
            interchange's control reference, is missing; {reference}"
            ),
        ),
        (
            "UNB+UNOA:1+AA+BB++R1:2'UNH+1'UNT+2+1'UNZ+1+R1'",
            0,
            format!(
                "UNB's element 5, the \
            interchange's control reference, has 2 components; {reference}"
            ),
        ),
        (
            "UNB+UNOA:1+AA+BB++123456789012345'UNH+1'UNT+2+1'UNZ+1+R1'",
            0,
            format!(
                "UNB's element \
            5, the interchange's control reference, has 15 bytes (123456789012345); {reference}"
            ),
        ),
        (
            "UNB+UNOA:4+AA+BB++R1*R2'UNH+1'UNT+2+1'UNZ+1+R1'",
            0,
            format!(
                "UNB's element 5, the \
            interchange's control reference, has 2 repeats; {reference}"
            ),
        ),
        (
            "UNB+UNOA:1+AA+BB++R1'UNG+1'UNH+1'UNT+2+1'UNE+1+1'UNZ+1+R1'",
            21,
            format!(
                "UNG's \
            element 5, the group's reference, is missing; {reference}"
            ),
        ),
        (
            "UNB+UNOA:1+AA+BB++R1'UNH'UNT+2+1'UNZ+1+R1'",
            21,
            format!(
                "UNH's element 1, the \
            message's reference, is missing; {reference}"
            ),
        ),
        (
            "UNB+UNOA:1+AA+BB++R1'UNH+1'UNT+A+1'UNZ+1+R1'",
            27,
            format!(
                "UNT's element 1, the \
            number of segments, is A, which is no number; {count}"
            ),
        ),
        (
            "UNB+UNOA:1+AA+BB++R1'UNH+1'UNT+0000002+1'UNZ+1+R1'",
            27,
            format!(
                "UNT's element 1, \
            the number of segments, has 7 digits; {count}"
            ),
        ),
        (
            "UNB+UNOA:1+AA+BB++R1'UNH+1'UNT+2'UNZ+1+R1'",
            27,
            format!(
                "UNT's element 2, the \
            message's reference, is missing; {reference}"
            ),
        ),
        (
            "UNB+UNOA:1+AA+BB++R1'UNG+++++1'UNH+1'UNT+2+1'UNE++1'UNZ+1+R1'",
            45,
            format!("UNE's element 1, the number of messages, is missing; {count}"),
        ),
        (
            "UNB+UNOA:1+AA+BB++R1'UNH+1'UNT+2+1'UNZ+1'",
            35,
            format!(
                "UNZ's element 2, the \
            interchange's control reference, is missing; {reference}"
            ),
        ),
    ] {
        holds(input.as_bytes(), 10, place, &sentence);
    }
}

#[test]
fn eleven_and_twelve() {
    let whole = |unt: &str, une: &str, unz: &str| {
        format!("UNB+UNOA:1+AA+BB++R1'UNG+++++G1'UNH+1'BGM+1'UNT+{unt}'UNE+{une}'UNZ+{unz}'")
            .into_bytes()
    };
    holds(&whole("3+2", "1+G1", "1+R1"), 11, 44, "UNT has the reference 2, UNH (segment 3) has 1");
    holds(
        &whole("3+1", "1+G2", "1+R1"),
        11,
        52,
        "UNE has the reference G2, UNG (segment 2) has G1",
    );
    holds(
        &whole("3+1", "1+G1", "1+r1"),
        8,
        67,
        "r is in level B, the interchange says UNOA: \
        write capitals in element 2 of UNZ, or name UNOB in UNB",
    );
    holds(
        &whole("3+1", "1+G1", "1+R2"),
        11,
        61,
        "UNZ has the reference R2, UNB (segment 1) has R1",
    );
    holds(
        &whole("2+1", "1+G1", "1+R1"),
        12,
        44,
        "UNT says 2, there are 3 segments from UNH (segment 3)",
    );
    holds(
        &whole("3+1", "2+G1", "1+R1"),
        12,
        52,
        "UNE says 2, there is 1 message from UNG (segment 2)",
    );
    holds(
        &whole("3+1", "1+G1", "2+R1"),
        12,
        61,
        "UNZ says 2, there is 1 group from UNB (segment 1)",
    );
    holds(
        b"UNB+UNOA:1+AA+BB++R1'UNH+1'UNT+2+1'UNH+2'UNT+2+2'UNZ+1+R1'",
        12,
        49,
        "UNZ says 1, there are 2 messages from UNB (segment 1)",
    );
}

#[test]
fn a_trailer_belongs_to_the_header_before_it() {
    let two = b"UNB+UNOA:1+AA+BB++R1'UNH+1'UNT+2+1'UNH+2'BGM'UNT+2+2'UNZ+2+R1'";
    holds(two, 12, 45, "UNT says 2, there are 3 segments from UNH (segment 4)");
    let groups = b"UNB+UNOA:1+AA+BB++R1'UNG+++++G1'UNH+1'UNT+2+1'UNE+1+G1'UNG+++++G2'UNH+1'UNT+2+1'UNE+2+G2'UNZ+2+R1'";
    holds(groups, 12, 80, "UNE says 2, there is 1 message from UNG (segment 6)");
}

#[test]
fn thirteen_and_fourteen() {
    let mut input = b"UNB+UNOA:1+AA+BB++R1'UNH+1'FTX+".to_vec();
    input.resize(31_978, b'A');
    input.extend(b"'UNT+3+1'UNZ+1+R1'");
    holds(
        &input,
        13,
        32_005,
        "its normal form would have 32005 bytes, 32000 are the most (the \
        input has 31996; an advice and release characters come to it): send it in two \
        interchanges",
    );
    let input = body("UNH+1'UNT+2+1'");
    let refusal = normalise(&input, &mut []).unwrap_err();
    let sentence = format!(
        "a lent buffer is too short: {} bytes or table numbers are needed",
        input.len() + 9
    );
    assert_eq!(explain(&input, refusal).sentence, sentence);
}

#[test]
fn fifteen_and_sixteen() {
    let list = |service: &[u8], bytes: &[u8], table: &[u32]| {
        let refusal = write(service, bytes, table, &mut [0; 99]).unwrap_err();
        (refusal.number(), refusal.place, explain_list(service, bytes, table, refusal).sentence)
    };
    for (bytes, table, place, sentence) in [
        (
            &b"UNB"[..],
            &[0, 0][..],
            0,
            "the table has 2 numbers: three for each value, and at most 96000, are taken",
        ),
        (
            b"UNB",
            &[1, 0, 3],
            0,
            "value 0, from 0, has kind 1: the first value begins a segment, and so has kind 0",
        ),
        (b"UNB", &[0, 0, 3, 4, 0, 1], 1, "value 1, from 0, has kind 4: kinds are 0, 1, 2 and 3"),
        (b"UNB", &[0, 0, 3, 1, 2, 2], 1, "value 1, from 0, reaches beyond the 3 bytes of the list"),
        (
            b"UNB",
            &[0, 0, 3, 1, u32::MAX, u32::MAX],
            1,
            "value 1, from 0, reaches beyond the 3 bytes of the list",
        ),
        (
            b"UNB\n",
            &[0, 0, 3, 0, 3, 1],
            1,
            "value 1, from 0, is a tag that begins with a line break",
        ),
    ] {
        assert_eq!(list(SIX, bytes, table), (15, place, sentence.to_string()));
    }
    let (bytes, table) = (b"UNBA+B", [0, 0, 3, 1, 3, 3]);
    assert_eq!(
        list(b":+.  '", bytes, &table),
        (
            16,
            1,
            "value 1, from 0, is A+B and holds +, a \
        service character, which needs a release character, and there is none"
                .to_string()
        )
    );
    let table = [0, 0, 3, 3, 3, 1];
    assert_eq!(
        list(SIX, bytes, &table),
        (
            16,
            1,
            "value 1, from 0, begins a next repeat, which \
        needs a repetition separator (the fifth service byte), and there is none"
                .to_string()
        )
    );
    assert_eq!(list(b":+", b"", &[]), (2, 0, "2 service bytes are given, six must be".to_string()));
    assert_eq!(
        list(b":+.? '", b"", &[]),
        (3, 9, "nothing follows the service string advice".to_string())
    );
    let table = [0, 0, 3, 1, 3, 1];
    assert_eq!(
        list(SIX, b"UNBa", &table).2,
        "UNB names a:(nothing); judged are UNOA and UNOB in versions 1, 2 and 4"
    );
}

#[test]
fn seventeen_to_twenty() {
    let general = |refusal| explain(b"", refusal).sentence;
    let mut shelf = Shelf::start(vec![0; 533]).unwrap();
    assert_eq!(general(shelf.get(64).unwrap_err()), "no text is kept in this slot: slot 64");
    let input = body("UNH+1'UNT+2+1'");
    assert_eq!(
        general(shelf.put(&input).unwrap_err()),
        "the shelf has too few free bytes: 64 are needed"
    );
    let refusal = Shelf::over(vec![0; 3]).slots().unwrap_err();
    assert!(general(refusal).starts_with("there is no sound shelf"));
    let mut shelf = Shelf::start(vec![0; 65_536]).unwrap();
    let numbered = |number: usize| {
        String::from_utf8(body("UNH+1'UNT+2+1'")).unwrap().replace("R1", &format!("R{number}"))
    };
    for number in 0..64 {
        shelf.put(numbered(number).as_bytes()).unwrap();
    }
    let refusal = shelf.put(numbered(64).as_bytes()).unwrap_err();
    assert_eq!(general(refusal), "all 64 slots of the shelf are occupied");
}

fn by_table(table: &[u8], input: &[u8]) -> (u32, usize, String) {
    let refusal = judge_by_table(table, input).unwrap_err();
    (refusal.number(), refusal.place, explain_by_table(table, input, refusal).sentence)
}

#[test]
fn twenty_one_tables() {
    let group = |count: u8| [0, 0, 0, b'C', 0, 1, 0, count];
    let deep: Vec<u8> =
        (0..9).flat_map(|level: u8| [group(17 - 2 * level), *b"AAAM\0\x01\0\0"].concat()).collect();
    let cases: [(Vec<u8>, usize, &str); 12] = [
        (b"BGMM\0\x01\0\0A".to_vec(), 1, "it has 1 byte; asked for: eight bytes for each entry"),
        (
            b"bgmM\0\x01\0\0".to_vec(),
            0,
            "it has the tag bgm; asked for: three of A to Z and 0 to 9",
        ),
        (
            b"UNTM\0\x01\0\0".to_vec(),
            0,
            "it has the tag UNT; asked for: a user segment's tag or UNS",
        ),
        (
            b"BGMX\0\x01\0\0".to_vec(),
            0,
            "it has the status X; asked for: M for mandatory or C for conditional",
        ),
        (b"BGMM\x03\xe8\0\0".to_vec(), 0, "it has 1000 repeats; asked for: 1 to 999 repeats"),
        (
            b"BGMM\0\x01\0\x01DTMM\0\x01\0\0".to_vec(),
            0,
            "it has 1 entry under a segment; asked for: none, since only groups have entries \
                under them",
        ),
        (group(0).to_vec(), 0, "it has nothing under a group; asked for: one entry or more"),
        (
            [group(1), *b"LINC\0\x01\0\0"].concat(),
            1,
            "it has C for LIN, a group's first segment; asked for: a segment, M and 1",
        ),
        (
            [group(1), *b"LINM\0\x02\0\0"].concat(),
            1,
            "it has 2 repeats for LIN, a group's first segment; asked for: a segment, M and 1",
        ),
        (
            [group(2), group(1), *b"LINM\0\x01\0\0"].concat(),
            1,
            "it has a group as a group's first entry; asked for: a segment, M and 1",
        ),
        (
            [group(2), *b"LINM\0\x01\0\0"].concat(),
            0,
            "it has 2 entries under it; asked for: at most 1, within what holds it",
        ),
        (deep, 16, "it has a group 9 deep; asked for: at most eight"),
    ];
    for (table, place, sentence) in cases {
        let sentence = format!("the table's entry {place}, from 0, is not sound: {sentence}");
        assert_eq!(by_table(&table, b""), (21, place, sentence));
    }
    let many = b"BGMC\0\x01\0\0".repeat(1_000);
    assert_eq!(
        by_table(&many, b"").2,
        "the table's entry 999, from 0, is not sound: it has 1000 entries; asked for: at most \
            999 entries"
    );
}

#[test]
fn twenty_two_structures() {
    let table =
        crate::Table::of(b"BGM M 1\nDTM C 2\nSG1 C 2\n RFF M 1\n CTA C 1\nUNS M 1\n").unwrap();
    let of = |segments: &str| {
        let count = segments.matches('\'').count() + 2;
        let input = format!("UNB+UNOA:1+AA+BB++R1'UNH+M1'{segments}UNT+{count}+M1'UNZ+1+R1'");
        by_table(table.bytes(), input.as_bytes())
    };
    let stands = "(segment 2) where the table allows";
    assert_eq!(
        of(""),
        (22, 28, "message M1 (segment 2) ends where the table still wants BGM".into())
    );
    assert_eq!(of("DTM+1'"), (22, 28, format!("DTM stands in message M1 {stands} BGM")));
    assert_eq!(
        of("BGM+1'"),
        (
            22,
            34,
            "message M1 (segment 2) ends where the table still wants DTM or RFF or UNS".into()
        )
    );
    assert_eq!(
        of("BGM'DTM'DTM'DTM'").2,
        "DTM stands in message M1 (segment 2) once more than \
        the 2 times that the table allows there; it allows RFF or UNS"
    );
    assert_eq!(
        of("BGM'RFF'LIN'").2,
        format!("LIN stands in message M1 {stands} CTA or RFF or UNS")
    );
    assert_eq!(of("BGM'UNS+S'CNT'").2, format!("CNT stands in message M1 {stands} UNT"));
    assert_eq!(
        of("BGM'RFF'CTA'RFF'RFF'").2,
        "RFF stands in message M1 (segment 2) once more \
        than the 2 times that the table allows there; it allows CTA or UNS"
    );
}

#[test]
fn twenty_three_acknowledgements() {
    let element = ValueList::element(["A1"]);
    let lent =
        Lent { date: (&element).into(), reference: (&element).into(), message: (&element).into() };
    let of = |input: &[u8]| explain(input, acknowledgement(input, &lent).unwrap_err()).sentence;
    let unknown = "so that nobody would know to what it is an answer";
    let input =
        |parties: &str| format!("UNB+UNOA:1+{parties}'UNH+1'UNT+2+1'UNZ+1+R1'").into_bytes();
    assert_eq!(
        of(&input("+BB++R1")),
        format!("it cannot be acknowledged: UNB names no sender, {unknown}")
    );
    assert_eq!(
        of(&input("AA+::++R1")),
        format!("it cannot be acknowledged: UNB names no recipient, {unknown}")
    );
    assert_eq!(
        of(&input("AA+BB")),
        format!("it cannot be acknowledged: UNB's control reference is missing, {unknown}")
    );
    assert!(of(b"UNB+UNOC:3+AA'").starts_with(
        "it cannot be acknowledged: it is refused by 7 (a \
        CONTRL answers what is accepted, or refused by 10, 11 or 12): UNB names UNOC:3;"
    ));
}

#[test]
fn twenty_four_columns() {
    let heading = "segment\telement\trepeat\tcomponent\tvalue\n";
    let of = |text: &str| {
        let refusal = import(SIX, text.as_bytes(), &mut [0; 99]).unwrap_err();
        assert_eq!((refusal.fault, refusal.place), (Fault::NoColumns, 0), "{text}");
        let told = explain_columns(SIX, text.as_bytes(), refusal);
        assert!(told.sentence.starts_with(&format!("line {}: ", told.line.unwrap())));
        told.sentence
    };
    for (lines, sentence) in [
        (
            "0\t0\t0\t0\tUNB\r\n",
            "line 2: it ends in a carriage return: save the file with line \
            feeds alone",
        ),
        (
            "\"0\"\t0\t0\t0\tUNB\n",
            "line 2: it has quotes around a number or a name: save the \
            file without quotes",
        ),
        ("0\t0\t0\t0\tUNB\n\n", "line 3: it is empty"),
        ("0\t0\t0\tUNB\n", "line 2: it has 4 columns: five are written, with tabs between them"),
        (
            "0\t0\t0\t0\tUN\tB\n",
            "line 2: it has 6 columns: five are written, with tabs between \
            them",
        ),
        ("0,0,0,0,UNB\n", "line 2: it has 1 columns: five are written, with tabs between them"),
        (
            "0\t0\t0\t00\tUNB\n",
            "line 2: 00 is no number as export writes it, without zeros \
            before it",
        ),
        (
            "+0\t0\t0\t0\tUNB\n",
            "line 2: +0 is no number as export writes it, without zeros \
            before it",
        ),
        (
            "1\t0\t0\t0\tUNB\n",
            "line 2: its numbers are 1 0 0 0: after the line above they can \
            be 0 0 0 0",
        ),
        (
            "0\t0\t0\t0\tUNB\n0\t2\t0\t0\tA\n",
            "line 3: its numbers are 0 2 0 0: after the line \
            above they can be 0 0 0 1, or 0 0 1 0, or 0 1 0 0, or 1 0 0 0",
        ),
        (
            "0\t0\t0\t0\tUNB\n0\t1\t0\t0\tA\n0\t1\t0\t1\t\n0\t2\t0\t0\tA\n",
            "line 4: its value is \
            empty and stands at the end of a repeat, an element or a segment, where none is \
            written: take the line away",
        ),
        (
            "0\t0\t0\t0\tUNB\n0\t1\t0\t0\t\n",
            "line 3: its value is empty and stands at the end \
            of a repeat, an element or a segment, where none is written: take the line away",
        ),
        ("0\t0\t0\t0\tUNB\n0\t1\t0\t0\tA", "line 3: the last line has no line feed after it"),
    ] {
        assert_eq!(of(&format!("{heading}{lines}")), sentence);
    }
    assert_eq!(of(""), "line 1: the text is empty: the heading line is missing");
    assert!(
        of("segment;element\n").starts_with("line 1: the heading is segment;element: it must be")
    );
    assert!(
        of(&format!("\u{feff}{heading}")).starts_with("line 1: it begins with a byte order mark")
    );
    let text = format!("{heading}0\t0\t0\t0\tUNB\n0\t1\t0\t0\tUNOC\n0\t1\t0\t1\t3\n");
    let refusal = import(SIX, text.as_bytes(), &mut [0; 99]).unwrap_err();
    assert_eq!(explain_columns(SIX, text.as_bytes(), refusal).found, "UNOC:3");
}

/// What is said to be found and to do is so: with the change, the fault at that place is gone.
#[test]
fn a_change_takes_the_fault_away() {
    let folder = concat!(env!("CARGO_MANIFEST_DIR"), "/../../tests/");
    let mut changed = 0;
    for entry in ["cases", "words"]
        .iter()
        .flat_map(|name| std::fs::read_dir(format!("{folder}{name}")).unwrap())
    {
        let path = entry.unwrap().path();
        let input = std::fs::read(&path).unwrap();
        let refusal = match judge(&input) {
            Err(refusal) if path.extension().map_or(false, |name| name == "edi") => refusal,
            _ => continue,
        };
        if let Some((range, bytes)) = explain(&input, refusal).past {
            let mut copy = input.clone();
            copy.splice(range, bytes);
            assert_ne!(judge(&copy).err(), Some(refusal), "{}", path.display());
            changed += 1;
        }
    }
    assert!(changed > 30, "only {changed} changes");
}

#[test]
fn more_faults_are_listed_after_the_first() {
    let places = |input: &str| {
        let found = faults(input.as_bytes());
        assert_eq!(found.first().copied(), judge(input.as_bytes()).err());
        found.iter().map(|fault| (fault.number(), fault.place)).collect::<Vec<_>>()
    };
    let unb = "UNB+UNOA:1+AA+BB++R1'";
    assert_eq!(
        places(&format!("{unb}UNH+1'UNT+9+1'UNH+2'UNT+2'UNH+3'UNT+2+4'UNZ+007+R2'")),
        [(12, 27), (10, 41), (11, 53), (11, 61), (12, 61)]
    );
    assert_eq!(places(&format!("{unb}UNH+1'FTX+a?A+b'UNT+3+1'UNZ+1+R1'")), [(4, 32)]);
    assert_eq!(places(&format!("{unb}UNH+1'FTX+a+b'bg'UNT+3+1'UNZ+1+R1'")), [(6, 35)]);
    assert_eq!(
        places(&format!("{unb}UNH+1'X'FTX?A+A?B'UN:1'UNT+3+1'UNZ+1+R1'")),
        [(6, 27), (4, 32), (4, 36), (6, 29), (6, 39)]
    );
    assert_eq!(faults(&body("UNH+1'UNT+2+1'")), []);
    let bad = format!("{unb}UNH+1'FTX+{}'UNT+3+1'UNZ+1+R1'", "a".repeat(200));
    assert_eq!(faults(bad.as_bytes()).len(), 100);
}

#[test]
fn any_bytes_are_explained() {
    let characters = ServiceCharacters::STANDARD;
    assert_eq!(characters.six(), SIX);
    for number in 0..=30 {
        for input in [&b""[..], b"UNA", b"UNB+", b"UNB+UNOA:1'UNZ'", b"UNA:+.? 'UNB+?", b"\xff\0"] {
            for place in [0, 1, 9, 99, usize::MAX] {
                if let Some(fault) = Fault::of_number(number) {
                    let refusal = Refusal { fault, place };
                    assert_eq!(explain(input, refusal).refusal, refusal);
                    assert_eq!(explain_by_table(input, input, refusal).refusal, refusal);
                    assert_eq!(explain_columns(SIX, input, refusal).refusal, refusal);
                    assert_eq!(explain_list(SIX, input, &[0, 0, 1], refusal).refusal, refusal);
                }
            }
        }
    }
}
