//! The section that a UNS names.
//!
//! Change request 2026-03, "Section markers": UNS's first element is a single
//! component `D` (detail) or `S` (summary); change request 2026-10: it has one
//! repeat. It is judged as it stands in the trimmed contents; UNS's other
//! elements are not judged.

use crate::contents::{Contents, Segment};

/// In the order in which they stand in a message.
#[derive(Clone, Copy, Debug, PartialEq, Eq, PartialOrd, Ord)]
pub enum Section {
    Detail,
    Summary,
}

/// The section that this UNS names; None where its first element is anything
/// else, or absent.
pub fn section_of(contents: &Contents, segment: &Segment) -> Option<Section> {
    let value = contents.only_value(segment, 1)?;
    if contents.value_is(value, b"D") {
        Some(Section::Detail)
    } else if contents.value_is(value, b"S") {
        Some(Section::Summary)
    } else {
        None
    }
}
