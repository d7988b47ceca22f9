//! Refusals 10 to 12, and 23: counts and references.

use super::{counted, shown, Context, Reason};
use crate::judging::judge;
use crate::refusal::Fault;
use crate::segments::{Element, Segment};

/// The elements of a service segment that are judged: number, what it is, whether it is a count.
fn judged(tag: &[u8]) -> &'static [(usize, &'static str, bool)] {
    match tag {
        b"UNB" => &[(5, "the interchange's control reference", false)],
        b"UNG" => &[(5, "the group's reference", false)],
        b"UNH" => &[(1, "the message's reference", false)],
        b"UNT" => &[(1, "the number of segments", true), (2, "the message's reference", false)],
        b"UNE" => &[(1, "the number of messages", true), (2, "the group's reference", false)],
        b"UNZ" => &[
            (1, "the number of messages or groups", true),
            (2, "the interchange's control reference", false),
        ],
        _ => &[],
    }
}

/// What is wrong with a count or a reference, and what may stand there.
fn fault(element: Element, is_count: bool) -> Option<(String, &'static str)> {
    let allowed = if is_count { "1 to 6 digits" } else { "1 to 14 bytes" };
    let repeats = element.repeats().count();
    let components = element.repeat(0).components().count();
    let value = element.component(0).bytes();
    let length = value.len();
    let what = match () {
        () if repeats > 1 => format!("has {repeats} repeats"),
        () if components > 1 => format!("has {components} components"),
        () if length == 0 => "is missing".to_string(),
        () if is_count && !value.iter().all(u8::is_ascii_digit) => {
            format!("is {}, which is no number", shown(&value))
        }
        () if is_count && length > 6 => format!("has {length} digits"),
        () if !is_count && length > 14 => format!("has {length} bytes ({})", shown(&value)),
        () => return None,
    };
    Some((what, allowed))
}

/// 10: a count or a reference that is malformed.
pub fn malformed(context: &Context, place: usize) -> Option<Reason> {
    let number = context.number_at(place)?;
    let segment = context.segments[number];
    let tag = shown(segment.tag());
    judged(segment.tag()).iter().find_map(|&(element, name, is_count)| {
        let (what, allowed) = fault(segment.element(element), is_count)?;
        let sentence = format!("{tag}'s element {element}, {name}, {what}; {allowed} are allowed");
        let reason = Reason::new(what, allowed, sentence);
        let header = header(context, number);
        let right = match (is_count, header) {
            (true, _) => actual(context, number).map(|counted| counted.0.to_string().into_bytes()),
            (false, Some(header)) => {
                Some(reference_of(&context.segments[header]).spelled().to_vec())
            }
            (false, None) => None,
        };
        Some(match right {
            Some(right) => put(context, reason, &segment, element, &right),
            None => reason,
        })
    })
}

/// The reason, with the change that puts a value into an element.
fn put(
    context: &Context,
    reason: Reason,
    segment: &Segment,
    number: usize,
    value: &[u8],
) -> Reason {
    let separator = context.characters.element;
    let there = segment.elements().count();
    let end = segment.start() + segment.spelled().len();
    if number < there {
        let old = segment.element(number).spelled();
        let place = context.place_of(old);
        return reason.past(place..place + old.len(), value);
    }
    // the elements that are missing, over the empty ones that trimming took
    let last = segment
        .elements()
        .last()
        .map_or(end, |element| context.place_of(element.spelled()) + element.spelled().len());
    let mut text = vec![separator; number + 1 - there];
    text.extend_from_slice(value);
    reason.past(last..end, &text)
}

/// The number of the header, from 0, that a trailer belongs to.
fn header(context: &Context, trailer: usize) -> Option<usize> {
    let tag: &[u8] = match context.segments[trailer].tag() {
        b"UNT" => b"UNH",
        b"UNE" => b"UNG",
        b"UNZ" => b"UNB",
        _ => return None,
    };
    context.segments[..trailer].iter().rposition(|segment| segment.tag() == tag)
}

fn reference_of<'a>(segment: &Segment<'a>) -> Element<'a> {
    let place = judged(segment.tag()).iter().find(|(_, _, is_count)| !is_count);
    segment.element(place.map_or(0, |place| place.0))
}

/// How many there are of what a trailer counts, and what they are called.
fn actual(context: &Context, trailer: usize) -> Option<(usize, &'static str, &'static str)> {
    let header = header(context, trailer)?;
    let between = &context.segments[header..trailer];
    let of = |tag: &[u8]| between.iter().filter(|segment| segment.tag() == tag).count();
    Some(match context.segments[trailer].tag() {
        b"UNT" => (trailer - header + 1, "segment", "segments"),
        b"UNE" => (of(b"UNH"), "message", "messages"),
        _ if of(b"UNG") > 0 => (of(b"UNG"), "group", "groups"),
        _ => (of(b"UNH"), "message", "messages"),
    })
}

/// 11: both references.
pub fn reference(context: &Context, place: usize) -> Option<Reason> {
    let trailer = context.number_at(place)?;
    let header = header(context, trailer)?;
    let (first, second) = (context.segments[header], context.segments[trailer]);
    let (wanted, has) = (reference_of(&first), reference_of(&second));
    let (wanted_text, has_text) = (shown(wanted.spelled()), shown(has.spelled()));
    let sentence = format!(
        "{} has the reference {has_text}, {} (segment {}) has {wanted_text}",
        shown(second.tag()),
        shown(first.tag()),
        header + 1
    );
    let right = wanted.component(0).spelled();
    Some(put(context, Reason::new(has_text, wanted_text, sentence), &second, 2, right))
}

/// 12: what the trailer says, and how many there are.
pub fn count(context: &Context, place: usize) -> Option<Reason> {
    let trailer = context.number_at(place)?;
    let header = header(context, trailer)?;
    let (segment, (number, one, more)) = (context.segments[trailer], actual(context, trailer)?);
    let says = shown(segment.element(1).component(0).spelled());
    let are = if number == 1 { "there is" } else { "there are" };
    let sentence = format!(
        "{} says {says}, {are} {} from {} (segment {})",
        shown(segment.tag()),
        counted(number, one, more),
        shown(context.segments[header].tag()),
        header + 1
    );
    let right = number.to_string();
    let reason = Reason::new(says, right.clone(), sentence);
    Some(put(context, reason, &segment, 1, right.as_bytes()))
}

/// Is it one empty value?
fn is_blank(element: Element) -> bool {
    let mut values = element.repeats().flat_map(|repeat| repeat.components().collect::<Vec<_>>());
    values.next().map_or(true, |value| value.spelled().is_empty()) && values.next().is_none()
}

/// 23: why an interchange cannot be acknowledged.
pub fn no_answer(context: &Context) -> Option<Reason> {
    let first = context.segments.first()?;
    let found = |what: &str, expected: &str| {
        let sentence = format!(
            "it cannot be acknowledged: {what}, so that nobody would know to what it is an answer"
        );
        Some(Reason::new(what, expected, sentence))
    };
    if let Some(refusal) = judge(context.input).err() {
        if !matches!(refusal.fault, Fault::Control | Fault::Reference | Fault::Count) {
            let number = refusal.number();
            let sentence = format!(
                "it cannot be acknowledged: it is refused by {number} (a CONTRL answers what is \
                    accepted, or refused by 10, 11 or 12): {}",
                super::explain(context.input, refusal)
            );
            return Some(Reason::new(
                format!("refused by {number}"),
                "accepted, or refused by 10, 11 or 12",
                sentence,
            ));
        }
    }
    match () {
        () if is_blank(first.element(2)) => {
            found("UNB names no sender", "a sender in UNB's element 2")
        }
        () if is_blank(first.element(3)) => {
            found("UNB names no recipient", "a recipient in UNB's element 3")
        }
        () => {
            let (what, _) = fault(first.element(5), false)?;
            found(
                &format!("UNB's control reference {what}"),
                "a reference of 1 to 14 bytes in UNB's element 5",
            )
        }
    }
}
