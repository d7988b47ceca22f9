//! The standard's own examples, each put into an otherwise valid interchange.
//!
//! Source document 002, clauses 5.1, 7.2 to 7.5, 8.2 and 9.1, and source
//! document 000, clause 6.1, to be run by the paper's clause "How tight the
//! contracts are". `Tag` of the print is `LIN` here. Figures are those of the
//! text: its segments, one message, its bytes and 9 for the advice.

use crate::cases::{case, pair, Case, Pair};

/// An interchange of level A around these segments of one message.
fn around(segments: &str) -> String {
    let count = segments.matches('\'').count() + 2;
    format!(
        "UNB+UNOA:1+AA+BB+260105:0930+R1'UNH+1+ORDERS:1:901:UN'\
         {segments}UNT+{count}+1'UNZ+1+R1'"
    )
}

/// An interchange of level B around a whole message.
fn around_message(message: &str) -> String {
    format!("UNB+UNOB:1+AA+BB+260105:0930+R1'{message}UNZ+1+R1'")
}

/// Source 002, clauses 5.1, 7.2 to 7.5 and 8.2.
fn clauses_5_to_8() -> Vec<Case> {
    vec![
        case("31-clause-5-1", around("FTX+10?+10=20'"), "accepted 5 1 0 94"),
        // `Question mark is represented by ??.`
        case("32-clause-5-1-question-mark", around("FTX+??'"), "accepted 5 1 0 87"),
        case("33-clause-7-2", around("LIN+DE+DE+++DE+DE+DE'"), "accepted 5 1 0 101"),
        case("34-clause-7-3", around("LIN+DE+DE+++DE'"), "accepted 5 1 0 95"),
        // The same with the contiguous trailing separators transmitted.
        case("35-clause-7-3-whole", around("LIN+DE+DE+++DE++'"), "accepted 5 1 0 95"),
        case("36-clause-7-4", around("LIN+DE+CE:CE+CE:::CE'"), "accepted 5 1 0 101"),
        case("37-clause-7-5", around("LIN+DE+CE+CE'"), "accepted 5 1 0 93"),
        // The same with the trailing component separators transmitted.
        case("38-clause-7-5-whole", around("LIN+DE+CE:+CE:::'"), "accepted 5 1 0 93"),
        case("39-clause-8-2-elements", around("LIN+...+DE1+DE1+++...'"), "accepted 5 1 0 102"),
        case(
            "40-clause-8-2-components",
            around("LIN+...+CE1:CE2:CE3:CE1:CE2:CE3+...'"),
            "accepted 5 1 0 116",
        ),
    ]
}

/// Source 002, clause 9.1, in string form. UNT has the true count before its
/// `data`. Example 1 is printed `UNH+dat'` in string form and `UNH+data'` in
/// its list of segments; the latter stands here. The list of example 2 lacks
/// the terminators of `EEE:1:2:1+data` and `UNT+data`; its string form has
/// them.
fn clause_9() -> Vec<Case> {
    let example_1 = "UNH+data'AAA+data'BBB:1+data'BBB:2+data'CCC:1+data'DDD:1:1+data'\
                     DDD:1:2+data'CCC:2+data'DDD:2:1+data'EEE+data'UNT+11+data'";
    let example_2 = "UNH+data'AAA+data'BBB:1+data'BBB:2+data'EEE:::1+data'EEE:::2+data'\
                     CCC:1+data'DDD:1:1+data'EEE:1:1:1+data'EEE:1:1:2+data'DDD:1:2+data'\
                     EEE:1:2:1+data'CCC:2+data'EEE:2::1+data'UNT+15+data'";
    vec![
        case("41-clause-9-1-example-1", around_message(example_1), "accepted 13 1 0 172"),
        case("42-clause-9-1-example-2", around_message(example_2), "accepted 17 1 0 235"),
    ]
}

/// Source 000, clause 6.1, segment sequences a to c.
fn clause_6() -> Vec<Case> {
    let advice = "UNA:+.? '";
    let header = "UNB+UNOA:1+AA+BB+260105:0930+R1'";
    let message = "UNH+1+ORDERS:1:901:UN'BGM+220+A?+B'UNT+3+1'";
    let group = format!("UNG+ORDERS+AA+BB+260105:0930+G1+UN+1:901'{message}UNE+1+G1'");
    let trailer = "UNZ+1+R1'";
    vec![
        case("51-clause-6-1-a", format!("{advice}{header}{group}{trailer}"), "accepted 7 1 1 143"),
        case("52-clause-6-1-b", format!("{advice}{header}{message}{trailer}"), "accepted 5 1 0 93"),
        case("53-clause-6-1-c", format!("{header}{message}{trailer}"), "accepted 5 1 0 93"),
    ]
}

pub fn standard_cases() -> Vec<Case> {
    let mut cases = clauses_5_to_8();
    cases.extend(clause_9());
    cases.extend(clause_6());
    cases
}

/// Clauses 7.3 and 7.5: truncated and whole are the same; 7.2 and 7.4 are not
/// their truncated forms; with and without the advice is the same.
pub fn standard_pairs() -> Vec<Pair> {
    vec![
        pair("34-clause-7-3", "35-clause-7-3-whole", "same"),
        pair("37-clause-7-5", "38-clause-7-5-whole", "same"),
        pair("33-clause-7-2", "34-clause-7-3", "different"),
        pair("36-clause-7-4", "37-clause-7-5", "different"),
        pair("52-clause-6-1-b", "53-clause-6-1-c", "same"),
        pair("51-clause-6-1-a", "53-clause-6-1-c", "different"),
    ]
}
