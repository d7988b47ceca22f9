//! Message structures: sound and unsound tables with the entry at fault, walks
//! computed by hand, the order of refusals, and the walk beside the language of
//! the table.
//!
//! Change request 2026-08, "Message structures".

use std::collections::BTreeSet;

use crate::cases::{x_with, X};
use crate::generator::{
    any_body, any_table, body_in, sound_entries, table_and_input, table_of, Random, Tag,
};
use crate::message_table::{entries_of, Entry};
use crate::operations::{judge, judge_by_table};
use crate::refusal::{Answer, Refusal, BODY, NORMAL_LENGTH, TABLE};
use crate::table_walk::stopped_before;

type Check = Result<(), String>;

fn ensure(holds: bool, what: &str) -> Check {
    match holds {
        true => Ok(()),
        false => Err(format!("message structures: {what}")),
    }
}

/// The first failure.
pub fn check_tables() -> Check {
    check_bytes()?;
    check_soundness()?;
    check_large_tables()?;
    check_walks()?;
    check_judging()?;
    check_all_small()?;
    (0..4_000).try_for_each(check_language)?;
    check_generated()
}

/// A segment's entry, as `BGM M 1` says it.
fn segment(text: &str) -> Entry {
    let words: Vec<&str> = text.split(' ').collect();
    let tag = words[0].as_bytes();
    let repeats = words[2].parse().unwrap_or(0);
    Entry { tag: [tag[0], tag[1], tag[2]], status: words[1].as_bytes()[0], repeats, under: 0 }
}

/// A group's own entry, as `C 9` says it, with so many entries under it.
fn group(text: &str, under: usize) -> Entry {
    Entry { tag: [0; 3], under, ..segment(&format!("000 {text}")) }
}

/// The entries that a line says: `BGM M 1, C 9 (LIN M 1, TXT C 5)`, spaced so.
fn entries(line: &str) -> Vec<Entry> {
    let mut entries: Vec<Entry> = Vec::new();
    let mut open: Vec<usize> = Vec::new();
    for word in line.split(", ").filter(|word| !word.is_empty()) {
        let mut rest = word;
        while let Some((own, inner)) = rest.split_once(" (") {
            open.push(entries.len());
            entries.push(group(own, 0));
            rest = inner;
        }
        let ends = rest.matches(')').count();
        entries.push(segment(&rest[..rest.len() - ends]));
        for _ in 0..ends {
            let own = open.pop().unwrap_or(0);
            entries[own].under = entries.len() - own - 1;
        }
    }
    entries
}

/// "Eight big-endian bytes an entry".
fn check_bytes() -> Check {
    let rows: [&[u8]; 4] = [
        b"BGMM\x00\x01\x00\x00",
        b"\x00\x00\x00C\x03\xE7\x00\x02",
        b"LINM\x00\x01\x00\x00",
        b"FTXC\x00\x05\x00\x00",
    ];
    let table = rows.concat();
    let expected = entries("BGM M 1, C 999 (LIN M 1, FTX C 5)");
    ensure(entries_of(&table) == Ok(expected.clone()), "the bytes of a table")?;
    ensure(table_of(&expected) == table, "a table's bytes")
}

/// What a table answers: None where it is sound, or the entry at fault.
fn fault_of(table: &[u8]) -> Option<usize> {
    match entries_of(table) {
        Ok(_) => None,
        Err(Refusal { number: TABLE, place }) => Some(place),
        Err(_) => Some(usize::MAX),
    }
}

/// Each thing that makes a table unsound, and what does not.
fn check_soundness() -> Check {
    let sound = [
        "",
        "BGM C 1",
        "BGM M 999, UNS M 1, 000 C 1, A0Z C 999, UNS C 1",
        "M 999 (BGM M 1)",
        "C 1 (BGM M 1), C 1 (BGM M 1, C 2 (LIN M 1), C 2 (LIN M 1)), BGM M 1",
        // eight deep
        "C 1 (A01 M 1, C 1 (A02 M 1, C 1 (A03 M 1, C 1 (A04 M 1, C 1 (A05 M 1, \
         C 1 (A06 M 1, C 1 (A07 M 1, M 1 (UNS M 1, A08 C 3))))))))",
    ];
    for line in sound {
        ensure(fault_of(&table_of(&entries(line))).is_none(), &format!("{line} is unsound"))?;
    }
    // a tag is three bytes `A`-`Z` or `0`-`9`, and UNS alone begins `UN`
    let tags = [
        "bGM", "BgM", "BGm", "B\x01M", "B:M", "B[M", "B@M", "B/M", "UNT", "UNH", "UNB", "UNZ",
        "UNG", "UNE", "UNA", "UNX", "UN0", "UNs",
    ];
    // the status is `M` or `C`, the repeats are 1 to 999
    let others = ["BGM m 1", "BGM c 1", "BGM X 1", "BGM M 0", "BGM M 1000", "BGM C 65535"];
    let lines = tags.iter().map(|tag| format!("{tag} M 1")).chain(others.map(String::from));
    for line in lines {
        let frames = [
            ("", "", 0),
            ("LIN C 1, ", ", LIN C 1", 1),
            ("C 1 (LIN M 1), ", "", 2),
            ("C 1 (LIN M 1, ", ")", 2),
        ];
        for (before, behind, number) in frames {
            let told = fault_of(&table_of(&entries(&format!("{before}{line}{behind}"))));
            ensure(told == Some(number), &format!("{before}{line}{behind}: {told:?}"))?;
        }
    }
    check_unsound_rows()
}

/// Tables that no line can say, with the entry at fault.
fn check_unsound_rows() -> Check {
    let (m, c) = (segment("BGM M 1"), segment("LIN C 3"));
    let zero_first = Entry { tag: [0, b'B', b'G'], ..m };
    let zero_last = Entry { tag: [b'B', b'G', 0], ..m };
    let high = Entry { tag: [b'B', b'G', 0xC7], ..m };
    let rows: [(&str, Vec<Entry>, Option<usize>); 34] = [
        ("a zero at a tag's beginning", vec![zero_first], Some(0)),
        ("a zero at a tag's end", vec![m, zero_last], Some(1)),
        ("a high byte in a tag", vec![m, c, high], Some(2)),
        ("entries under a segment", vec![Entry { under: 1, ..m }, m], Some(0)),
        ("256 entries under a segment", vec![m, Entry { under: 256, ..c }], Some(1)),
        ("an empty group", vec![group("C 1", 0)], Some(0)),
        ("an empty group before a segment", vec![group("C 1", 0), m], Some(0)),
        ("a group alone", vec![group("C 1", 1)], Some(0)),
        ("a group of one", vec![group("C 1", 1), m], None),
        ("a group beyond the table", vec![c, group("C 1", 2), m], Some(1)),
        ("a group to the table's end", vec![c, group("C 1", 2), m, c], None),
        ("a group far beyond the table", vec![group("M 1", 65_535), m], Some(0)),
        ("a group's status", vec![group("X 1", 1), m], Some(0)),
        ("a group without repeats", vec![group("M 0", 1), m], Some(0)),
        ("a group of too many repeats", vec![group("C 1000", 1), m], Some(0)),
        // "a group's first entry is its trigger, a segment, mandatory and once"
        ("a conditional trigger", vec![group("C 9", 1), segment("BGM C 1")], Some(1)),
        ("a repeated trigger", vec![group("C 9", 1), segment("BGM M 2")], Some(1)),
        ("a trigger without repeats", vec![group("C 9", 1), segment("BGM M 0")], Some(1)),
        ("a group as trigger", vec![group("C 9", 2), group("M 1", 1), m], Some(1)),
        ("a trigger with a wrong tag", vec![c, group("C 9", 1), segment("UNT M 1")], Some(2)),
        ("what is no trigger may be so", vec![group("C 9", 2), m, segment("TXT C 2")], None),
        ("behind a group no trigger stands", vec![group("C 9", 1), m, segment("TXT C 2")], None),
        // "groups end within the group or table that holds them"
        (
            "an inner group that ends as the outer",
            { vec![group("C 1", 3), m, group("C 1", 1), m] },
            None,
        ),
        (
            "an inner group beyond the outer one",
            { vec![group("C 1", 3), m, group("C 1", 2), m, c] },
            Some(2),
        ),
        (
            "an inner group beyond the outer and the table",
            { vec![group("C 1", 3), m, group("C 1", 2), m] },
            Some(2),
        ),
        (
            "an outer group beyond the table",
            { vec![group("C 1", 4), m, group("C 1", 1), m] },
            Some(0),
        ),
        (
            "the third beyond the second, within the first",
            { vec![group("C 1", 6), m, group("C 1", 3), m, group("C 1", 2), m, c] },
            Some(4),
        ),
        (
            "an outer group that ends too early",
            { vec![group("C 1", 2), m, group("C 1", 1), m] },
            Some(2),
        ),
        // the lowest of two
        ("a trigger before a group's end", vec![group("C 1", 1), c, group("C 1", 9), m], Some(1)),
        ("a status before a tag", vec![segment("BGM X 1"), segment("UNT M 1")], Some(0)),
        ("a number before a trigger", vec![group("C 1", 7), c], Some(0)),
        ("repeats 256", vec![segment("BGM C 256")], None),
        ("repeats 1024", vec![segment("BGM C 1024")], Some(0)),
        ("nine deep", nine_deep(), Some(16)),
    ];
    rows.iter().try_for_each(|(name, rows, expected)| {
        let told = fault_of(&table_of(rows));
        ensure(told == *expected, &format!("{name}: {told:?}"))
    })
}

/// Each group has its trigger and the next group: the ninth is entry 16.
fn nine_deep() -> Vec<Entry> {
    let one = |number: usize| [group("C 1", 17 - 2 * number), segment("BGM M 1")];
    (0..9).flat_map(one).collect()
}

/// "A table has 0 to 999 whole entries"; with more, entry 999 is at fault too.
fn check_large_tables() -> Check {
    let many = |count: usize| vec![segment("BGM C 1"); count];
    let with = |count: usize, number: usize, entry: Entry| {
        let mut entries = many(count);
        entries[number] = entry;
        entries[number + 1] = segment("BGM M 1");
        entries
    };
    let rows: [(&str, Vec<Entry>, Option<usize>); 13] = [
        ("999 entries", many(999), None),
        ("1000 entries", many(1_000), Some(999)),
        ("5000 entries", many(5_000), Some(999)),
        ("1000 entries and a lower fault", with(1_000, 500, segment("BGM C 0")), Some(500)),
        ("1001 entries and a higher fault", with(1_002, 1_000, segment("BGM C 0")), Some(999)),
        ("998 entries under a group", with(999, 0, group("C 1", 998)), None),
        ("999 entries under a group of 999", with(999, 0, group("C 1", 999)), Some(0)),
        // it ends within the table as lent, also beyond 999
        ("999 entries under a group of 1000", with(1_000, 0, group("C 1", 999)), Some(999)),
        ("2 entries under 998, of 1001", with(1_001, 998, group("C 1", 2)), Some(999)),
        ("2 entries under 998, of 1000", with(1_000, 998, group("C 1", 2)), Some(998)),
        ("1 entry under 997, of 999", with(999, 997, group("C 1", 1)), None),
        ("2 entries under 997, of 999", with(999, 997, group("C 1", 2)), Some(997)),
        ("a group at 999", with(1_001, 999, group("C 1", 1)), Some(999)),
    ];
    for (name, rows, expected) in &rows {
        let told = fault_of(&table_of(rows));
        ensure(told == *expected, &format!("{name}: {told:?}"))?;
    }
    // a last entry that is not whole, unless a lower one is at fault
    for more in 1..8 {
        let cut = |entries: &[Entry]| {
            fault_of(&[&table_of(entries), &b"BGMC\x00\x01\x00"[..more]].concat())
        };
        ensure(cut(&[]) == Some(0), "less than an entry")?;
        ensure(cut(&many(3)) == Some(3), "three entries and a part")?;
        ensure(cut(&many(999)) == Some(999), "999 entries and a part")?;
        ensure(cut(&many(1_003)) == Some(999), "1003 entries and a part")?;
        ensure(cut(&[segment("BGM M 0")]) == Some(0), "a lower fault")?;
        let reaching = [group("C 1", 2), segment("BGM M 1")];
        ensure(cut(&reaching) == Some(0), "a group that needs the part")?;
    }
    Ok(())
}

/// Where the walk of these tags stops, each a letter for a tag of three.
fn walked(line: &str, body: &str) -> Option<usize> {
    let tags: Vec<Vec<u8>> = body.bytes().map(|letter| vec![letter; 3]).collect();
    let tags: Vec<&[u8]> = tags.iter().map(|tag| &tag[..]).collect();
    stopped_before(&entries(line), &tags)
}

/// Walks computed by hand: a table, a body, and the segment before which the
/// walk stops.
fn check_walks() -> Check {
    let nested = "AAA M 1, C 2 (BBB M 1, CCC C 2, C 3 (DDD M 1, EEE M 1)), FFF C 1";
    let rows: [(&str, &str, Option<usize>); 46] = [
        ("", "", None),
        ("", "A", Some(0)),
        ("AAA M 1", "A", None),
        ("AAA M 1", "", Some(0)),
        ("AAA M 1", "B", Some(0)),
        ("AAA M 1", "AA", Some(1)),
        ("AAA C 1", "", None),
        ("AAA C 1", "B", Some(0)),
        ("AAA M 2", "AA", None),
        ("AAA M 2", "AAA", Some(2)),
        ("AAA C 2, BBB M 1", "B", None),
        ("AAA C 2, BBB M 1", "AAB", None),
        ("AAA C 2, BBB M 1", "AA", Some(2)),
        // one too many: BBB is mandatory, and A stands there
        ("AAA C 2, BBB M 1", "AAAB", Some(2)),
        ("AAA C 2, BBB C 1", "BA", Some(1)),
        // as many as it can before the next entry has its turn
        ("AAA C 2, AAA M 1", "A", Some(1)),
        ("AAA C 2, AAA M 1", "AA", Some(2)),
        ("AAA C 2, AAA M 1", "AAA", None),
        ("AAA C 2, AAA M 1", "AAAA", Some(3)),
        ("AAA M 1, AAA M 1", "AA", None),
        ("AAA C 999", &"A".repeat(999), None),
        ("AAA C 999", &"A".repeat(1_000), Some(999)),
        // groups
        ("C 2 (AAA M 1, BBB C 1)", "", None),
        ("M 2 (AAA M 1, BBB C 1)", "", Some(0)),
        ("M 2 (AAA M 1, BBB C 1)", "B", Some(0)),
        ("M 2 (AAA M 1, BBB C 1)", "ABAB", None),
        ("M 2 (AAA M 1, BBB C 1)", "AAB", None),
        ("M 2 (AAA M 1, BBB C 1)", "ABBA", Some(2)),
        ("M 2 (AAA M 1, BBB C 1)", "ABABA", Some(4)),
        ("C 9 (AAA M 1, BBB M 1)", "ABA", Some(3)),
        ("C 9 (AAA M 1, BBB M 1)", "AABB", Some(1)),
        // no going back: where the trigger stands, the repeat is entered
        ("C 9 (AAA M 1, BBB M 1), AAA C 1", "A", Some(1)),
        ("C 9 (AAA M 1, BBB M 1), AAA C 1", "ABA", Some(3)),
        ("C 1 (AAA M 1, BBB M 1), AAA C 1", "ABA", None),
        ("C 9 (AAA M 1, BBB M 1), CCC C 1", "ABC", None),
        (nested, "A", None),
        (nested, "AF", None),
        (nested, "ABBF", None),
        (nested, "ABCCDEDEDEBDEF", None),
        (nested, "ABCCDEDEDEDEF", Some(10)),
        (nested, "ABDF", Some(3)),
        (nested, "ABDE", None),
        (nested, "ABD", Some(3)),
        (nested, "ACB", Some(1)),
        (nested, "ABBB", Some(3)),
        (nested, "ABDECF", Some(4)),
    ];
    rows.iter().try_for_each(|(line, body, expected)| {
        let told = walked(line, body);
        ensure(told == *expected, &format!("{line}: {body} stops at {told:?}"))
    })
}

fn refused(number: u32, place: usize) -> Option<Refusal> {
    Some(Refusal { number, place })
}

/// What the second Judge says: None where it accepts.
fn told(line: &str, input: &str) -> Option<Refusal> {
    judge_by_table(&table_of(&entries(line)), input.as_bytes()).err()
}

/// X's BGM starts at 54 and its UNT at 67; a segment of one letter has 4 bytes.
fn check_judging() -> Check {
    let twice = x_with("BGM+220+A?+B'", "BGM'LIN'")
        .replace("UNT+3", "UNT+4")
        .replace("UNZ+1", "UNH+2'LIN'BGM'UNT+4+2'UNZ+2");
    let sections = x_with("BGM+220+A?+B'", "BGM'UNS+D'LIN'UNS+S'").replace("UNT+3", "UNT+6");
    let grouped = "UNB+UNOA:1++++1'UNG+++++1'UNH+1'BGM'UNT+3+1'UNE+1+1'\
                   UNG+++++2'UNH+1'UNT+2+1'UNE+1+2'UNZ+2+1'";
    let long = x_with("220", &"A".repeat(3 + 31_995 - 84));
    let longer = "A".repeat(32_001);
    let rows: [(&str, &str, Option<Refusal>); 28] = [
        ("BGM M 1", X, None),
        ("BGM C 9, LIN C 1", X, None),
        ("", X, refused(22, 54)),
        ("LIN C 1", X, refused(22, 54)),
        ("LIN M 1, BGM C 1", X, refused(22, 54)),
        ("BGM M 1, LIN M 1", X, refused(22, 67)),
        ("", &x_with("BGM+220+A?+B'", "").replace("UNT+3", "UNT+2"), None),
        ("BGM M 1", &x_with("BGM+220+A?+B'", "").replace("UNT+3", "UNT+2"), refused(22, 54)),
        // by the tag alone, without repetition figures; by the trimmed contents' places
        ("BGM M 1", &x_with("BGM+", "BGM:1:2+"), None),
        ("LIN M 1", &x_with("BGM+", "BGM:1:2+"), refused(22, 54)),
        // breaks: the segment starts behind them
        ("LIN M 1", &X.replace('\'', "'\r\n"), refused(22, 58)),
        ("BGM M 1, LIN M 1", &X.replace('\'', "'\n"), refused(22, 70)),
        // every message is walked, and the lowest place answers
        ("BGM C 1, LIN C 1", &twice, refused(22, 80)),
        ("LIN M 1, BGM C 1", &twice, refused(22, 54)),
        ("BGM C 1, LIN C 1, BGM C 1", &twice, None),
        ("BGM C 1, LIN M 1, BGM M 1", &twice, refused(22, 62)),
        ("BGM M 1", grouped, refused(22, 68)),
        ("BGM C 1", grouped, None),
        // UNS is walked like a user segment
        ("BGM M 1, UNS M 1, LIN M 1, UNS M 1", &sections, None),
        ("BGM M 1, LIN M 1, UNS M 1", &sections, refused(22, 58)),
        ("BGM M 1, UNS M 2, LIN M 1", &sections, refused(22, 68)),
        // 21 before all else, 22 after 12 and before 13
        ("BGM M 0", &longer, refused(21, 0)),
        ("BGM M 1, UNT M 1", "", refused(21, 1)),
        ("LIN M 1", &longer, refused(1, 0)),
        ("LIN M 1", &x_with("UNT+3+1'", "UNT+4+1'"), refused(12, 67)),
        ("LIN M 1", &x_with("UNZ+1+R1'", "UNZ+1+R2'"), refused(11, 75)),
        ("LIN M 1", &long, refused(22, 54)),
        ("BGM M 1", &long, refused(13, 32_004)),
    ];
    rows.iter().try_for_each(|(line, input, expected)| {
        let told = told(line, input);
        let begin = &input[..input.len().min(200)];
        ensure(told == *expected, &format!("{line}: {begin} gives {told:?}"))
    })?;
    let same = judge_by_table(&table_of(&entries("BGM M 1")), X.as_bytes());
    ensure(same == judge(X.as_bytes()) && same.is_ok(), "the answer of Judge")
}

/// All that a choice of repeats within the limits spells.
fn language(entries: &[Entry]) -> BTreeSet<Vec<Tag>> {
    let mut words = BTreeSet::from([Vec::new()]);
    let mut rest = entries;
    while let Some((entry, behind)) = rest.split_first() {
        let (under, next) = behind.split_at(entry.under);
        let once = match entry.is_group() {
            true => language(under),
            false => BTreeSet::from([vec![entry.tag]]),
        };
        let least = usize::from(entry.is_mandatory());
        words = joined(&words, &repeated(&once, least, entry.repeats));
        rest = next;
    }
    words
}

/// Every word of one and then every word of the other.
fn joined(one: &BTreeSet<Vec<Tag>>, other: &BTreeSet<Vec<Tag>>) -> BTreeSet<Vec<Tag>> {
    one.iter().flat_map(|word| other.iter().map(|end| [&word[..], end].concat())).collect()
}

/// From so many to so many words, one behind the other.
fn repeated(once: &BTreeSet<Vec<Tag>>, least: usize, most: usize) -> BTreeSet<Vec<Tag>> {
    let mut words = BTreeSet::new();
    let mut so_many = BTreeSet::from([Vec::new()]);
    for count in 0..=most {
        if count >= least {
            words.extend(so_many.iter().cloned());
        }
        so_many = joined(&so_many, once);
    }
    words
}

/// Every forest of so many entries, groups with their triggers, in which no tag
/// stands twice; each entry but a trigger with each status and once or twice.
fn forests(count: usize, first_letter: u8) -> Vec<Vec<Entry>> {
    if count == 0 {
        return vec![Vec::new()];
    }
    let mut forests = Vec::new();
    let tag = [first_letter; 3];
    let kinds = [(b'M', 1), (b'M', 2), (b'C', 1), (b'C', 2)];
    // a segment first
    for rest in self::forests(count - 1, first_letter + 1) {
        for (status, repeats) in kinds {
            let own = Entry { tag, status, repeats, under: 0 };
            forests.push([&[own], &rest[..]].concat());
        }
    }
    // a group first, of its trigger and so many more
    for more in 0..count.saturating_sub(1) {
        let trigger = Entry { tag, status: b'M', repeats: 1, under: 0 };
        for inner in self::forests(more, first_letter + 1) {
            let next_letter = first_letter + 1 + more as u8;
            for rest in self::forests(count - 2 - more, next_letter) {
                for (status, repeats) in kinds {
                    let own = Entry { tag: [0; 3], status, repeats, under: more + 1 };
                    forests.push([&[own, trigger], &inner[..], &rest[..]].concat());
                }
            }
        }
    }
    forests
}

/// Every list of so many tags or fewer.
fn lists(tags: &[Tag], most: usize) -> Vec<Vec<Tag>> {
    let mut lists = vec![Vec::new()];
    let mut first = 0;
    for _ in 0..most {
        let end = lists.len();
        for number in first..end {
            for tag in tags {
                lists.push([&lists[number][..], &[*tag]].concat());
            }
        }
        first = end;
    }
    lists
}

/// Where no tag stands twice, a body is refused exactly if no choice of repeats
/// spells it; and the walk stops behind its longest beginning that some choice
/// begins with. Every table of up to 4 entries, every body of up to 4 segments.
fn check_all_small() -> Check {
    for count in 0..=4 {
        for entries in forests(count, b'A') {
            ensure(entries_of(&table_of(&entries)).is_ok(), "a small table is sound")?;
            let mut tags: Vec<Tag> =
                entries.iter().filter(|entry| !entry.is_group()).map(|entry| entry.tag).collect();
            tags.push(*b"ZZZ");
            let words = language(&entries);
            let begun: BTreeSet<&[Tag]> = words
                .iter()
                .flat_map(|word| (0..=word.len().min(4)).map(move |end| &word[..end]))
                .collect();
            for body in lists(&tags, if count == 4 { 3 } else { 4 }) {
                let expected = match words.contains(&body) {
                    true => None,
                    false => (0..=body.len()).rev().find(|&end| begun.contains(&body[..end])),
                };
                let told = stop(&entries, &body);
                let what = format!("{entries:?} on {body:?}: {told:?}, not {expected:?}");
                ensure(told == expected, &what)?;
            }
        }
    }
    Ok(())
}

fn stop(entries: &[Entry], body: &[Tag]) -> Option<usize> {
    let tags: Vec<&[u8]> = body.iter().map(|tag| &tag[..]).collect();
    stopped_before(entries, &tags)
}

/// The places of a body that some choice of repeats reaches from these places.
fn reached(entries: &[Entry], body: &[Tag], from: BTreeSet<usize>) -> BTreeSet<usize> {
    let mut places = from;
    let mut rest = entries;
    while let Some((entry, behind)) = rest.split_first() {
        let (under, next) = behind.split_at(entry.under);
        let mut after = if entry.is_mandatory() { BTreeSet::new() } else { places.clone() };
        for _ in 0..entry.repeats {
            places = match entry.is_group() {
                true => reached(under, body, places),
                false => {
                    let stands = |place: &&usize| body.get(**place) == Some(&entry.tag);
                    places.iter().filter(stands).map(|place| place + 1).collect()
                }
            };
            if places.is_empty() {
                break;
            }
            after.extend(&places);
        }
        places = after;
        rest = next;
    }
    places
}

/// Larger tables in which no tag stands twice: the walk refuses exactly what no
/// choice of repeats spells. Where tags stand twice, it accepts nothing else.
fn check_language(seed: u64) -> Check {
    let mut random = Random::new(seed);
    let unique = random.chance(70);
    let entries = sound_entries(&mut random, unique);
    let name = |what: &str| format!("{what}, seed {seed}");
    let table = table_of(&entries);
    ensure(entries_of(&table) == Ok(entries.clone()), &name("a table made to be sound"))?;
    if entries.len() > 60 {
        return Ok(());
    }
    let spells = |body: &[Tag]| reached(&entries, body, BTreeSet::from([0])).contains(&body.len());
    let inside = body_in(&mut random, &entries, 20);
    ensure(spells(&inside), &name("a body made to be in the language"))?;
    for _ in 0..4 {
        let body = any_body(&mut random, &entries);
        if body.len() > 60 {
            continue;
        }
        let accepted = stop(&entries, &body).is_none();
        let spelled = spells(&body);
        ensure(spelled || !accepted, &name("accepted and not in the language"))?;
        ensure(accepted || !spelled || !unique, &name("in the language and refused"))?;
    }
    Ok(())
}

/// The second Judge beside Judge: it differs by 21 and 22 alone. All that can
/// occur does.
fn check_generated() -> Check {
    let mut met = [0; 23];
    for seed in 0..6_000 {
        let name = |what: &str| format!("{what}, seed {seed}");
        let (table, input) = table_and_input(&mut Random::new(seed));
        let answer = judge_by_table(&table, &input);
        let plain = judge(&input);
        let agrees = match answer {
            Ok(_) => entries_of(&table).is_ok() && plain == answer,
            Err(Refusal { number: TABLE, place }) => fault_of(&table) == Some(place),
            Err(Refusal { number: BODY, .. }) => is_accepted_but_for_length(&plain),
            Err(_) => entries_of(&table).is_ok() && plain == answer,
        };
        ensure(agrees, &name("beside Judge"))?;
        met[answer.map_or_else(|refusal| refusal.number as usize, |_| 0)] += 1;
    }
    let tables = (0..3_000).map(|seed| any_table(&mut Random::new(seed)));
    let sound = tables.filter(|table| entries_of(table).is_ok()).count();
    ensure((1_000..2_500).contains(&sound), &format!("{sound} of 3000 tables are sound"))?;
    let mut must = (0..=13).chain([21, 22]);
    ensure(must.all(|number| met[number] > 5), &format!("met {met:?}"))
}

fn is_accepted_but_for_length<T>(plain: &Answer<T>) -> bool {
    plain.as_ref().map_or_else(|refusal| refusal.number == NORMAL_LENGTH, |_| true)
}
