//! The cases of the paper, each with its expected line, and the files that
//! hold them.
//!
//! Paper, clause "The example and its neighbours"; the examples of the
//! standard stand in `standard_examples`, the cases of a change request in a
//! module of its own. The lines are those that hold now. Each case has also the
//! line of its acknowledgement, and some have their text in columns.

use std::fs;
use std::io;
use std::path::Path;

use crate::acknowledgement_cases::{acknowledged, DATE, MESSAGE, REFERENCE};
use crate::break_cases::{break_cases, break_pairs};
use crate::column_cases::column_cases;
use crate::operations::{compare, judge};
use crate::program_lines::{acknowledged_line, exported_lines};
use crate::report_lines::{compare_line, judge_line};
use crate::section_cases::{section_cases, section_pairs};
use crate::standard_examples::{standard_cases, standard_pairs};
use crate::version_cases::{version_cases, version_pairs};

/// X of the paper: 84 bytes.
pub const X: &str = "UNB+UNOA:1+AA+BB+260105:0930+R1'UNH+1+ORDERS:1:901:UN'\
                     BGM+220+A?+B'UNT+3+1'UNZ+1+R1'";

/// An input and the line that Judge must answer for it.
#[derive(Clone, Debug)]
pub struct Case {
    pub name: String,
    pub input: Vec<u8>,
    pub expected: String,
}

/// Two cases by name and the line that Compare must answer for them.
#[derive(Clone, Debug)]
pub struct Pair {
    pub first: String,
    pub second: String,
    pub expected: String,
}

pub fn case(name: &str, input: impl AsRef<[u8]>, expected: &str) -> Case {
    Case { name: name.to_string(), input: input.as_ref().to_vec(), expected: expected.to_string() }
}

pub fn pair(first: &str, second: &str, expected: &str) -> Pair {
    Pair { first: first.to_string(), second: second.to_string(), expected: expected.to_string() }
}

/// X with one part of it put in place of another.
pub fn x_with(old: &str, new: &str) -> String {
    X.replacen(old, new, 1)
}

/// Cases whose number and place, or whose figures, the paper states.
fn stated_cases() -> Vec<Case> {
    let without_last = &X[..X.len() - 1];
    let only_unb = &X[..32];
    vec![
        case("01-x", X, "accepted 5 1 0 93"),
        case("02-unt-count-4", x_with("UNT+3+1'", "UNT+4+1'"), "refused 12 67"),
        case("03-unt-count-4-reference-2", x_with("UNT+3+1'", "UNT+4+2'"), "refused 11 67"),
        case("04-without-last-byte", without_last, "refused 5 83"),
        // Stated as 5 at 85; request 2026-01 makes it the same as X.
        case("05-line-feed", format!("{X}\n"), "accepted 5 1 0 93"),
        case("06-without-unz", x_with("UNZ+1+R1'", ""), "refused 9 75"),
        case("07-unz-after-unb", format!("{only_unb}UNZ+0+R1'"), "refused 9 32"),
        case("08-release-before-b", x_with("A?+B", "A?B"), "refused 4 63"),
        case("09-lower-case-b", x_with("A?+B", "A?+b"), "refused 8 65"),
        // Same as X, so the figures of X.
        case("10-empty-ends", x_with("BGM+220+A?+B'", "BGM+220+A?+B+::+'"), "accepted 5 1 0 93"),
        // Stated: accepted. One release character less than X.
        case("11-plain-plus", x_with("BGM+220+A?+B'", "BGM+220+A+B'"), "accepted 5 1 0 92"),
        // Stated: accepted. One digit more than X.
        case("12-unz-count-01", x_with("UNZ+1+R1'", "UNZ+01+R1'"), "accepted 5 1 0 94"),
        // Same as X, so the figures of X.
        case("13-respelled", respelled("UNA;*.! ~"), "accepted 5 1 0 93"),
        // Stated: different by its mark, hence accepted; only a byte of the
        // advice differs from the one before.
        case("14-respelled-comma", respelled("UNA;*,! ~"), "accepted 5 1 0 93"),
        case("15-empty", "", "refused 3 0"),
        case("16-advice-alone", "UNA:+.? '", "refused 3 9"),
        // Stated as 2 at 0; request 2026-10 makes the asterisk usable.
        case("17-reserved-star", "UNA:+.?*'", "refused 3 9"),
        case("18-normal-length-32004", interchange_of_31995(), "refused 13 32004"),
    ]
}

/// X respelled with `;` `*` `!` `~`, so that its `A+B` is plain: 92 bytes.
fn respelled(advice: &str) -> String {
    let body = "UNB*UNOA;1*AA*BB*260105;0930*R1~UNH*1*ORDERS;1;901;UN~\
                BGM*220*A+B~UNT*3*1~UNZ*1*R1~";
    format!("{advice}{body}")
}

/// Otherwise valid, 31,995 bytes, begins `UNB+`, nothing to trim.
fn interchange_of_31995() -> String {
    let filler = "A".repeat(31_995 - X.len());
    x_with("BGM+220+", &format!("BGM+220+{filler}"))
}

/// The things that are tempting and wrong. The paper states the rule; the
/// figures follow from it.
fn tempting_cases() -> Vec<Case> {
    let reference = "UNH+????????????????????????????+ORDERS:1:901:UN'BGM+220+A?+B'\
                     UNT+3+????????????????????????????'";
    let message = "UNH+1+ORDERS:1:901:UN'BGM+220+A?+B'UNT+3+1'";
    let two = format!("{message}{message}");
    let group = |count| format!("UNG+ORDERS+AA+BB+260105:0930+G1'{two}UNE+{count}+G1'");
    vec![
        // The release character goes with its byte: one element `A'B+C`.
        case("19-released-terminator", x_with("A?+B", "A?'B?+C"), "accepted 5 1 0 96"),
        // `??'` is a released release character and a bare terminator.
        case("20-release-twice", x_with("A?+B'", "A??'"), "accepted 5 1 0 92"),
        case("21-release-thrice", x_with("A?+B'", "A???'B'"), "accepted 5 1 0 95"),
        // UNT counts UNH too.
        case("22-unt-count-2", x_with("UNT+3+1'", "UNT+2+1'"), "refused 12 67"),
        // 14 bytes of reference, each released.
        case("23-reference-of-14", x_with(message, reference), "accepted 5 1 0 147"),
        case(
            "24-reference-of-15",
            x_with(message, &reference.replace("+??", "+????")),
            "refused 10 32",
        ),
        // UNZ counts groups where there are groups: one group of two messages.
        case("25-groups-unz-1", x_with(message, &group(2)), "accepted 10 2 1 177"),
        case(
            "26-groups-unz-2",
            x_with(message, &group(2)).replace("UNZ+1", "UNZ+2"),
            "refused 12 159",
        ),
        case("27-groups-une-1", x_with(message, &group(1)), "refused 12 150"),
    ]
}

/// All cases, in the paper's order, then those of the requests.
pub fn all_cases() -> Vec<Case> {
    let mut cases = stated_cases();
    cases.extend(tempting_cases());
    cases.extend(standard_cases());
    cases.extend(section_cases());
    cases.extend(break_cases());
    cases.extend(version_cases());
    cases
}

/// The pairs that the paper states, those of the standard's examples, and those
/// of the requests.
pub fn all_pairs() -> Vec<Pair> {
    let mut pairs = vec![
        pair("01-x", "10-empty-ends", "same"),
        pair("01-x", "11-plain-plus", "different"),
        pair("01-x", "12-unz-count-01", "different"),
        pair("01-x", "13-respelled", "same"),
        pair("01-x", "14-respelled-comma", "different"),
    ];
    pairs.extend(standard_pairs());
    pairs.extend(section_pairs());
    pairs.extend(break_pairs());
    pairs.extend(version_pairs());
    pairs
}

/// What the program answers otherwise than expected, a line each.
fn disagreements(cases: &[Case], pairs: &[Pair]) -> Vec<String> {
    let mut found = Vec::new();
    for case in cases {
        let answer = judge_line(&judge(&case.input));
        if answer != case.expected {
            found.push(format!("{}: expected {}, answered {answer}", case.name, case.expected));
        }
        let (line, expected) =
            (acknowledged_line(&case.input, DATE, REFERENCE, MESSAGE), acknowledged(case));
        if line != expected.as_bytes() {
            let line = line.escape_ascii();
            found.push(format!("{}: acknowledged {line}, expected {expected}", case.name));
        }
    }
    for pair in pairs {
        let input =
            |name: &str| cases.iter().find(|case| case.name == name).map(|case| &case.input);
        let answer = match (input(&pair.first), input(&pair.second)) {
            (Some(first), Some(second)) => compare_line(&compare(first, second)),
            _ => "no such case".to_string(),
        };
        if answer != pair.expected {
            let names = format!("{} {}", pair.first, pair.second);
            found.push(format!("{names}: expected {}, answered {answer}", pair.expected));
        }
    }
    found
}

/// All disagreements between the program and its cases.
pub fn check_cases() -> Vec<String> {
    let cases = all_cases();
    let mut found = disagreements(&cases, &all_pairs());
    for columns in column_cases() {
        let case = cases.iter().find(|case| case.name == columns.name);
        let text = case.map(|case| exported_lines(&case.input));
        if text.as_deref() != Some(columns.text.as_bytes()) {
            found.push(format!("{}: other columns", columns.name));
        }
    }
    found
}

/// Writes a file for each case, and the files of expected lines.
pub fn write_cases(folder: &Path) -> io::Result<()> {
    fs::create_dir_all(folder)?;
    let mut expected = String::new();
    for case in all_cases() {
        fs::write(folder.join(format!("{}.edi", case.name)), &case.input)?;
        expected.push_str(&format!("{} {}\n", case.name, case.expected));
    }
    fs::write(folder.join("EXPECTED"), expected)?;
    let mut reports = String::new();
    for case in all_cases() {
        reports.push_str(&format!("{} {}\n", case.name, acknowledged(&case)));
    }
    fs::write(folder.join("EXPECTED-ACKNOWLEDGE"), reports)?;
    for columns in column_cases() {
        fs::write(folder.join(format!("{}.tsv", columns.name)), &columns.text)?;
    }
    let mut compared = String::new();
    for pair in all_pairs() {
        compared.push_str(&format!("{} {} {}\n", pair.first, pair.second, pair.expected));
    }
    fs::write(folder.join("EXPECTED-COMPARE"), compared)
}
