//! Cases in columns.
//!
//! Change request 2026-12, "Lines for a spreadsheet".

/// The lines of some cases, by name, without the heading; `|` for a tab, and a
/// space between lines.
const LINES: [(&str, &str); 3] = [
    (
        "01-x",
        "0|0|0|0|UNB 0|1|0|0|UNOA 0|1|0|1|1 0|2|0|0|AA 0|3|0|0|BB 0|4|0|0|260105 \
         0|4|0|1|0930 0|5|0|0|R1 1|0|0|0|UNH 1|1|0|0|1 1|2|0|0|ORDERS 1|2|0|1|1 \
         1|2|0|2|901 1|2|0|3|UN 2|0|0|0|BGM 2|1|0|0|220 2|2|0|0|A+B 3|0|0|0|UNT \
         3|1|0|0|3 3|2|0|0|1 4|0|0|0|UNZ 4|1|0|0|1 4|2|0|0|R1",
    ),
    (
        "87-repeats-in-any-element",
        "0|0|0|0|UNB 0|1|0|0|UNOA 0|1|0|1|4 0|2|0|0|AA 0|2|1|0|AC 0|2|1|1|1 0|3|0|0|BB \
         0|3|1|0| 0|3|2|0|BC 0|4|0|0|260105 0|4|0|1|0930 0|4|1|0|260106 0|5|0|0|R1 \
         0|6|0|0| 0|6|1|0|X 1|0|0|0|UNH 1|1|0|0|1 1|2|0|0|ORDERS 1|2|0|1|1 1|2|0|2|901 \
         1|2|0|3|UN 1|2|1|0|INVOIC 2|0|0|0|BGM 2|1|0|0|220 2|1|1|0|221 2|1|1|1|1 \
         2|2|0|0|A+B 2|2|1|0|C 3|0|0|0|UNT 3|1|0|0|3 3|2|0|0|1 3|3|0|0|X 3|3|1|0|Y \
         4|0|0|0|UNZ 4|1|0|0|1 4|2|0|0|R1 4|3|0|0| 4|3|0|1|X 4|3|1|0|Y",
    ),
    // the empty repeat inside is there, those at the end are not
    (
        "88-empty-repeats",
        "0|0|0|0|UNB 0|1|0|0|UNOA 0|1|0|1|4 0|2|0|0|AA 0|3|0|0|BB 0|4|0|0|260105 \
         0|4|0|1|0930 0|5|0|0|R1 1|0|0|0|UNH 1|1|0|0|1 1|2|0|0|ORDERS 1|2|0|1|1 \
         1|2|0|2|901 1|2|0|3|UN 2|0|0|0|BGM 2|1|0|0|220 2|1|1|0| 2|1|2|0|221 \
         2|2|0|0|A+B 3|0|0|0|UNT 3|1|0|0|3 3|2|0|0|1 4|0|0|0|UNZ 4|1|0|0|1 4|2|0|0|R1",
    ),
];

/// A case by name, and its text in columns.
#[derive(Clone, Debug, PartialEq, Eq)]
pub struct ColumnCase {
    pub name: &'static str,
    pub text: String,
}

pub fn column_cases() -> Vec<ColumnCase> {
    let text = |lines: &str| {
        let mut text = "segment\telement\trepeat\tcomponent\tvalue\n".to_string();
        for line in lines.split(' ') {
            text.push_str(&line.replace('|', "\t"));
            text.push('\n');
        }
        text
    };
    LINES.iter().map(|(name, lines)| ColumnCase { name, text: text(lines) }).collect()
}
