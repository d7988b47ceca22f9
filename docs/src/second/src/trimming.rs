//! Trimming: empty ends of repeats, of elements and of segments go.
//!
//! Paper, clause "From bytes to values", the paragraph "Trimming (clauses 6
//! and 7)"; change request 2026-10, "Syntax version 4".

use crate::contents::{Contents, Element, Part, Repeat, Segment};

/// Trims a list: first all repeats, then the ends of all elements, tags with
/// them, then the ends of all segments.
pub fn trim(contents: &mut Contents) {
    for repeat in &mut contents.repeats {
        trim_repeat(repeat, &contents.parts);
    }
    for element in &mut contents.elements {
        trim_element(element, &contents.repeats, &contents.parts);
    }
    for segment in &mut contents.segments {
        trim_segment(segment, &contents.elements, &contents.repeats, &contents.parts);
    }
}

/// Empty components at the end go, down to one.
fn trim_repeat(repeat: &mut Repeat, parts: &[Part]) {
    while repeat.length() > 1 && parts[repeat.last()].length == 0 {
        repeat.end -= 1;
    }
}

/// Repeats at the end that are a single empty value go, down to one.
fn trim_element(element: &mut Element, repeats: &[Repeat], parts: &[Part]) {
    while element.length() > 1 && is_empty_repeat(&repeats[element.last()], parts) {
        element.end -= 1;
    }
}

/// Elements at the end that are a single empty value go, but never the tag.
fn trim_segment(segment: &mut Segment, elements: &[Element], repeats: &[Repeat], parts: &[Part]) {
    while segment.length() > 1 && is_empty_element(&elements[segment.last()], repeats, parts) {
        segment.end -= 1;
    }
}

fn is_empty_element(element: &Element, repeats: &[Repeat], parts: &[Part]) -> bool {
    element.length() == 1 && is_empty_repeat(&repeats[element.last()], parts)
}

fn is_empty_repeat(repeat: &Repeat, parts: &[Part]) -> bool {
    repeat.length() == 1 && parts[repeat.last()].length == 0
}
