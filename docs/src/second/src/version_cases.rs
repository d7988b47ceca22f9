//! Cases of syntax version 4.
//!
//! Change request 2026-10, "Syntax version 4". The figures follow from it: the
//! normal form of a text without an advice has 9 bytes more, and one more for
//! each `*` that it must release. The segments of X start at 0, 32, 54, 67 and
//! 75, also where its version is 4.

use crate::cases::{case, pair, Case, Pair, X};

/// X with version 4.
fn x4() -> String {
    X.replacen("UNOA:1", "UNOA:4", 1)
}

/// X with version 4 and one part of it put in place of another.
fn x4_with(old: &str, new: &str) -> String {
    x4().replacen(old, new, 1)
}

/// X with version 4 and repeats in every element that may have them.
fn repeats_in_any_element() -> String {
    "UNB+UNOA:4+AA*AC:1+BB**BC+260105:0930*260106+R1+*X'UNH+1+ORDERS:1:901:UN*INVOIC'\
     BGM+220*221:1+A?+B*C'UNT+3+1+X*Y'UNZ+1+R1+:X*Y'"
        .to_string()
}

/// X with version 4, `A*B` for its `A+B`, and the characters of an input that
/// begins `UNB` and byte 29.
fn x4_with_byte_29() -> Vec<u8> {
    let plain = x4_with("A?+B", "A*B");
    let byte = |byte| match byte {
        b'+' => 29,
        b':' => 31,
        b'\'' => 28,
        other => other,
    };
    plain.bytes().map(byte).collect()
}

pub fn version_cases() -> Vec<Case> {
    let user = |segment: &str| x4_with("BGM+220+A?+B'", segment);
    let advised = |advice: &str, segment: &str| format!("{advice}{}", user(segment));
    let fifth_byte = format!("UNA:+.?*'{}", X.replace("A?+B", "A?*B"));
    let section = x4_with("UNT+3", "UNS+D*S'UNT+4");
    vec![
        case("86-version-4", x4(), "accepted 5 1 0 93"),
        case("87-repeats-in-any-element", repeats_in_any_element(), "accepted 5 1 0 136"),
        // The empty repeat inside stays, those at the end go.
        case("88-empty-repeats", user("BGM+220**221*:*+A?+B*'"), "accepted 5 1 0 98"),
        case("89-no-empty-repeat", user("BGM+220*221+A?+B'"), "accepted 5 1 0 97"),
        // Under another separator the asterisk is plain, and the normal form
        // releases it.
        case("90-asterisk-in-value", advised("UNA:+.?!'", "BGM+220!221+A*B'"), "accepted 5 1 0 97"),
        case("91-asterisk-released", user("BGM+220*221+A?*B'"), "accepted 5 1 0 97"),
        case("92-space-as-fifth-byte", advised("UNA:+.? '", "BGM+220+A*B'"), "accepted 5 1 0 93"),
        case("93-byte-29", x4_with_byte_29(), "accepted 5 1 0 93"),
        case("94-repeat-in-tag", user("BGM*+220+A?+B'"), "refused 6 54"),
        // The fifth byte serves from the start: not 4.
        case("95-version-1-and-fifth-byte", fifth_byte, "refused 7 9"),
        case("96-level-of-two-repeats", x4_with("UNOA:4", "UNOA:4*X"), "refused 7 0"),
        // Trimmed, the count and the reference have one repeat each.
        case("97-control-and-empty-ends", x4_with("UNT+3+1", "UNT+3*+1*:"), "accepted 5 1 0 93"),
        case("98-count-of-two-repeats", x4_with("UNT+3", "UNT+3*3"), "refused 10 67"),
        case("99-section-of-two-repeats", section, "refused 9 67"),
    ]
}

pub fn version_pairs() -> Vec<Pair> {
    vec![
        pair("01-x", "86-version-4", "different"),
        pair("88-empty-repeats", "89-no-empty-repeat", "different"),
        pair("90-asterisk-in-value", "91-asterisk-released", "same"),
        pair("92-space-as-fifth-byte", "93-byte-29", "same"),
        pair("86-version-4", "97-control-and-empty-ends", "same"),
    ]
}
