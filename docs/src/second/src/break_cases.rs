//! Cases with line breaks.
//!
//! Change request 2026-01, "Line breaks between segments". The figures follow
//! from it; X's segments start at 0, 32, 54, 67 and 75.

use crate::cases::{case, pair, x_with, Case, Pair, X};

/// X with CR LF after every terminator; none of them is released.
fn x_in_lines() -> String {
    X.replace('\'', "'\r\n")
}

pub fn break_cases() -> Vec<Case> {
    let advice = "UNA:+.? '";
    let without_unz = &X[..75];
    vec![
        // Breaks stand after an advice or a terminator, nowhere else.
        case("71-break-before-advice", format!("\n{advice}{X}"), "refused 3 0"),
        case("72-break-before-unb", format!("\n{X}"), "refused 3 0"),
        case("73-breaks-after-advice", format!("{advice}\r\n\n{X}"), "accepted 5 1 0 93"),
        case("74-advice-and-breaks-alone", format!("{advice}\r\n\n"), "refused 3 12"),
        case("75-breaks-and-no-unb", format!("{advice}\n\nUNH+1'"), "refused 3 11"),
        case("76-cr-lf-after-every-terminator", x_in_lines(), "accepted 5 1 0 93"),
        // Six bytes of breaks stand before UNT, which starts after them.
        case("77-cr-lf-and-unt-count-4", x_in_lines().replace("UNT+3", "UNT+4"), "refused 12 73"),
        case("78-break-in-tag", x_with("BGM", "B\nGM"), "refused 6 54"),
        case("79-break-after-tag", x_with("BGM", "BGM\n"), "refused 6 54"),
        case("80-break-after-release", x_with("A?+B", "A?\n+B"), "refused 4 63"),
        case("81-break-in-value", x_with("A?+B", "A\n?+B"), "refused 8 63"),
        // The terminator is part of the value, and so is what follows it.
        case("82-break-after-released-terminator", x_with("A?+B", "A?'\nB"), "refused 8 65"),
        // The length of all that was lent, its breaks too.
        case("83-without-unz-and-line-feed", format!("{without_unz}\n"), "refused 9 76"),
        case("84-line-feed-and-a", format!("{X}\nA"), "refused 5 86"),
        // UNB starts after the breaks.
        case(
            "85-breaks-and-another-level",
            format!("{advice}\n\n{}", x_with("UNOA", "UNOC")),
            "refused 7 11",
        ),
    ]
}

/// Stated: X and a line feed is the same as X. Contents hold no breaks.
pub fn break_pairs() -> Vec<Pair> {
    vec![
        pair("01-x", "05-line-feed", "same"),
        pair("01-x", "73-breaks-after-advice", "same"),
        pair("01-x", "76-cr-lf-after-every-terminator", "same"),
        pair("76-cr-lf-after-every-terminator", "14-respelled-comma", "different"),
    ]
}
