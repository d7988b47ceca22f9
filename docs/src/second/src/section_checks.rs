//! Up to three UNS in a message, of every sort, and sections that begin anew in
//! the next message.
//!
//! Change request 2026-03, "Section markers".

use crate::operations::judge;
use crate::report_lines::judge_line;

/// What stands after the tag of a UNS, and the section that it names.
const MARKERS: [(&str, &str); 12] = [
    ("+D", "D"),
    ("+S", "S"),
    ("+D:+", "D"),
    ("+S+X:Y", "S"),
    ("", "none"),
    ("+", "none"),
    ("+:D", "none"),
    ("++D", "none"),
    ("+D:S", "none"),
    ("+DS", "none"),
    ("+d", "none"),
    ("+?+", "none"),
];

/// The sections that a message may have, in their order.
const ALLOWED: [&str; 4] = ["", "D", "S", "DS"];

/// Every row of at most this many markers is tried.
const MOST: usize = 3;

/// An interchange whose first message has some markers, and the words that
/// begin Judge's line for it.
struct Sectioned {
    text: String,
    expected: String,
}

/// The first message has the markers and a user segment before each; the next
/// one has D and S.
fn sectioned(markers: &[(&str, &str)], grouped: bool) -> Sectioned {
    let mut text = "UNB+UNOB:1++++1'".to_string();
    if grouped {
        text.push_str("UNG+++++1'");
    }
    text.push_str("UNH+1'");
    let mut sections = String::new();
    let mut place = None;
    for (elements, section) in markers {
        text.push_str("BGM'");
        sections.push_str(section);
        if place.is_none() && !ALLOWED.contains(&&sections[..]) {
            place = Some(text.len());
        }
        text.push_str(&format!("UNS{elements}'"));
    }
    text.push_str(&format!("UNT+{}+1'", 2 + 2 * markers.len()));
    text.push_str("UNH+2'UNS+D'UNS+S'UNT+4+2'");
    text.push_str(if grouped { "UNE+2+1'UNZ+1+1'" } else { "UNZ+2+1'" });
    let segments = 8 + 2 * markers.len() + if grouped { 2 } else { 0 };
    let expected = match place {
        Some(place) => format!("refused 9 {place}"),
        None => format!("accepted {segments} 2 {}", usize::from(grouped)),
    };
    Sectioned { text, expected }
}

/// Tries the row, and every longer one that begins with it.
fn check_rows(row: &mut Vec<(&str, &str)>) -> Result<(), String> {
    for grouped in [false, true] {
        let Sectioned { text, expected } = sectioned(row, grouped);
        let answer = judge_line(&judge(text.as_bytes()));
        if !format!("{answer} ").starts_with(&format!("{expected} ")) {
            return Err(format!("sections: expected {expected}, answered {answer}: {text}"));
        }
    }
    if row.len() == MOST {
        return Ok(());
    }
    for marker in MARKERS {
        row.push(marker);
        check_rows(row)?;
        row.pop();
    }
    Ok(())
}

/// The first disagreement between Judge and the rule.
pub fn check_sections() -> Result<(), String> {
    check_rows(&mut Vec::new())
}
