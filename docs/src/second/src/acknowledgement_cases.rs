//! The acknowledgements of the stored cases, all with the same lent lists.
//!
//! Change request 2026-11, "Acknowledgements". They follow from the case and from
//! what Judge answers for it: nearly all cases have X's UNB.

use crate::cases::Case;
use crate::value_list::{List, NEW_SEGMENT, NEXT_COMPONENT};

/// What is lent: the components of each element, one after each `:`.
pub const DATE: &str = "261115:0842";
pub const REFERENCE: &str = "A1";
pub const MESSAGE: &str = "CONTRL:4:1:UN";

/// A value list of one element with these components.
pub fn one_element(components: &str) -> List {
    let mut list = List::default();
    for (number, component) in components.split(':').enumerate() {
        let kind = if number == 0 { NEW_SEGMENT } else { NEXT_COMPONENT };
        list.add(kind, component.bytes());
    }
    list
}

/// The advice of the report and the level with the version, where they are not
/// X's.
fn beginning(name: &str) -> (&'static str, &'static str) {
    match &name[..2] {
        "14" => ("UNA:+,? '", "UNOA:1"),
        "41" | "42" => ("UNA:+.? '", "UNOB:1"),
        "86" | "87" | "88" | "89" => ("UNA:+.?*'", "UNOA:4"),
        // also where the received one has no repetition separator
        number if number.starts_with('9') => ("UNA:+.?*'", "UNOA:4"),
        _ => ("UNA:+.? '", "UNOA:1"),
    }
}

/// Sender and recipient as they are received.
fn parties(name: &str) -> (&'static str, &'static str) {
    match name {
        "87-repeats-in-any-element" => ("AA*AC:1", "BB**BC"),
        _ => ("AA", "BB"),
    }
}

/// The line for a case: the text, or the refusal.
pub fn acknowledged(case: &Case) -> String {
    let words: Vec<&str> = case.expected.split(' ').collect();
    let action = match words[..] {
        ["accepted", ..] => "7",
        ["refused", "10" | "11" | "12", _] => "4",
        _ => return "refused 23 0".to_string(),
    };
    let (advice, syntax) = beginning(&case.name);
    let (sender, recipient) = parties(&case.name);
    format!(
        "{advice}UNB+{syntax}+{recipient}+{sender}+{DATE}+{REFERENCE}'UNH+1+{MESSAGE}'\
         UCI+R1+{sender}+{recipient}+{action}'UNT+3+1'UNZ+1+{REFERENCE}'"
    )
}
