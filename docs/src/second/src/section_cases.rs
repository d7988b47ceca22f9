//! Cases with section markers.
//!
//! Change request 2026-03, "Section markers". The figures follow from it: a
//! UNS after X's BGM starts at 67, and one of six bytes makes the normal form
//! of X six bytes longer.

use crate::cases::{case, pair, Case, Pair, X};

/// X with these segments after its BGM, which UNT counts.
fn x_with_segments(segments: &str) -> String {
    let count = 3 + segments.matches('\'').count();
    X.replacen("UNT+3", &format!("{segments}UNT+{count}"), 1)
}

/// X with two messages, each with a D.
fn two_messages() -> String {
    let message = "UNH+1+ORDERS:1:901:UN'BGM+220+A?+B'UNS+D'UNT+4+1'";
    format!("UNB+UNOA:1+AA+BB+260105:0930+R1'{message}{message}UNZ+2+R1'")
}

pub fn section_cases() -> Vec<Case> {
    let with = x_with_segments;
    vec![
        case("61-section-d", with("UNS+D'"), "accepted 6 1 0 99"),
        case("62-section-s", with("UNS+S'"), "accepted 6 1 0 99"),
        case("63-section-d-then-s", with("UNS+D'UNS+S'"), "accepted 7 1 0 105"),
        case("64-section-d-twice", with("UNS+D'UNS+D'"), "refused 9 73"),
        // The D breaks the rule, not the S before it.
        case("65-section-s-then-d", with("UNS+S'UNS+D'"), "refused 9 73"),
        // One component, once it is trimmed.
        case("66-section-d-empty-ends", with("UNS+D:+'"), "accepted 6 1 0 99"),
        case("67-section-absent", with("UNS'"), "refused 9 67"),
        case("68-section-of-two-components", with("UNS+D:S'"), "refused 9 67"),
        case("69-section-d-in-each-message", two_messages(), "accepted 10 2 0 148"),
    ]
}

pub fn section_pairs() -> Vec<Pair> {
    vec![
        pair("61-section-d", "66-section-d-empty-ends", "same"),
        pair("61-section-d", "62-section-s", "different"),
    ]
}
