//! Refusals 4 to 8: how a segment is spelled, and which characters may stand in it.

use super::{byte_shown, counted, is_tag, shown, Context, Reason};
use crate::segments::Segment;

/// What stands after UNZ, where the place is there.
pub fn after_end(context: &Context, place: usize) -> Option<Reason> {
    let end = context.after_end().filter(|&end| place >= end)?;
    let rest = &context.input[end..];
    if context.begins_again(end) {
        let sentence = format!(
            "a second interchange begins at byte {end}, after UNZ: part them with 'hverolda cut', \
             or count them with 'hverolda report'"
        );
        return Some(Reason::new("a second interchange", "the end after UNZ", sentence));
    }
    let what = match rest {
        _ if rest.iter().all(|&byte| byte == 0x1a) => "Ctrl-Z (0x1A)".to_string(),
        _ if rest.iter().all(|&byte| byte == 0) => counted(rest.len(), "zero byte", "zero bytes"),
        _ if rest.iter().all(|byte| matches!(byte, b' ' | b'\t' | b'\r' | b'\n')) => {
            counted(rest.len(), "blank", "blanks")
        }
        _ if rest.iter().all(|byte| matches!(byte, b' ' | b'\t' | b'\r' | b'\n' | 0 | 0x1a)) => {
            format!("{} of filling", counted(rest.len(), "byte", "bytes"))
        }
        _ => format!(
            "{}, {} in all",
            shown(&rest[..rest.len().min(20)]),
            counted(rest.len(), "byte", "bytes")
        ),
    };
    let sentence = format!(
        "after UNZ, from byte {end} on: {what}; only line breaks may follow UNZ, take the rest away"
    );
    Some(Reason::new(what, "the end after UNZ", sentence))
}

/// 4: the release character stands before no service character.
pub fn release(context: &Context, place: usize) -> Option<Reason> {
    if let Some(reason) = after_end(context, place) {
        return Some(reason);
    }
    let sign = byte_shown(*context.input.get(place)?);
    let four = service_bytes(context);
    let expected = format!("one of {four} after {sign}");
    let reason = match context.input.get(place + 1) {
        None => {
            let sentence = format!(
                "the last byte is the release character {sign}, and nothing \
                follows that it could release"
            );
            Reason::new(sign, expected, sentence)
        }
        Some(&next) => {
            let next = byte_shown(next);
            let sentence = format!(
                "{sign} releases {next}, which is no service character: only {four} are released; \
                 a {sign} of the text itself is written {sign}{sign}"
            );
            Reason::new(format!("{sign} and {next}"), expected, sentence)
        }
    };
    let release = context.input[place];
    Some(reason.past(place..place, &[release]))
}

fn service_bytes(context: &Context) -> String {
    let of = context.characters;
    let all =
        [Some(of.component), Some(of.element), of.release, of.repetition, Some(of.terminator)];
    let signs: Vec<String> = all.into_iter().flatten().map(byte_shown).collect();
    signs.join(" ")
}

/// 5: the body ends inside a segment.
pub fn inside(context: &Context) -> Option<Reason> {
    if let Some(reason) = after_end(context, context.input.len()) {
        return Some(reason);
    }
    let last = *context.segments.last()?;
    let text = trim_end(last.spelled());
    let sign = context.characters.terminator;
    let (found, sentence) = unended(context, &last, text, &byte_shown(sign));
    let expected = format!("{} at the end of each segment", byte_shown(sign));
    let reason = Reason::new(found, expected, sentence);
    let place = last.start() + text.len();
    Some(match last.tag() {
        b"UNZ" => reason.past(place..place, &[sign]),
        _ => reason,
    })
}

/// What stands in place of the last terminator, and the sentence.
fn unended(context: &Context, last: &Segment, text: &[u8], sign: &str) -> (String, String) {
    let none = !context.input.iter().skip(9).any(|&byte| byte == context.characters.terminator);
    let lines = last.spelled().split(|&byte| byte == b'\n');
    let in_lines = lines.filter(|line| begins_segment(context, line)).count() > 1;
    let tag = shown(&text[..text.len().min(3)]);
    let number = context.segments.len();
    let (found, sentence) = match () {
        () if none && in_lines => (
            "lines",
            format!(
                "there is no {sign} in it: its segments end with line breaks, which do not end \
                 a segment; put {sign} at the end of each line"
            ),
        ),
        () if none => {
            ("no terminator", format!("there is no {sign} in it, which ends each segment"))
        }
        () if is_released_end(context, text) => (
            "a released terminator",
            format!("the last {sign} is released by the sign before it, and so ends nothing"),
        ),
        () if last.tag() == b"UNZ" => (
            "no terminator after UNZ",
            format!("the {sign} after UNZ, the last byte of an interchange, is missing"),
        ),
        () => (
            "the end",
            format!(
                "the end comes inside segment {number}, which begins {tag}: the rest was cut \
                 off, or {sign} is missing"
            ),
        ),
    };
    (found.to_string(), sentence)
}

/// Does a line begin as a segment does: a tag and the element separator?
fn begins_segment(context: &Context, line: &[u8]) -> bool {
    line.len() > 3 && is_tag(&line[..3]) && line[3] == context.characters.element
}

fn is_released_end(context: &Context, text: &[u8]) -> bool {
    match text {
        [.., release, last] => {
            Some(*release) == context.characters.release && *last == context.characters.terminator
        }
        _ => false,
    }
}

fn trim_end(bytes: &[u8]) -> &[u8] {
    let blanks = bytes.iter().rev().take_while(|byte| byte.is_ascii_whitespace()).count();
    &bytes[..bytes.len() - blanks]
}

const TAG: &str = "three of A to Z and 0 to 9";

/// 6: the tag rule.
pub fn tag(context: &Context, place: usize) -> Option<Reason> {
    if let Some(reason) = after_end(context, place) {
        return Some(reason);
    }
    let segment = context.at(place)?;
    let of = context.characters;
    let bytes = segment.spelled();
    let length = bytes.iter().position(|&byte| byte == of.element).unwrap_or(bytes.len());
    let element = &bytes[..length];
    let sign = element.iter().position(|&byte| byte == of.component || Some(byte) == of.repetition);
    let tag = &element[..sign.unwrap_or(length)];
    let (found, expected, sentence) =
        tag_fault(context, bytes, tag, sign.map(|place| element[place]));
    let start = segment.start();
    let mended = if is_tag(tag) && !tag.starts_with(b"UN") { tag } else { b"XXX" };
    Some(Reason::new(found, expected, sentence).past(start..start + length, mended))
}

/// What was found, what would do, and the sentence.
type Told = (String, String, String);

/// `tag` is what stands before the first separator, and `sign` that separator, where it is not
/// the element separator.
fn tag_fault(context: &Context, bytes: &[u8], tag: &[u8], sign: Option<u8>) -> Told {
    let terminator = byte_shown(context.characters.terminator);
    let blanks = bytes.iter().take_while(|byte| matches!(byte, b' ' | b'\t')).count();
    let told =
        |found: String, expected: &str, sentence: String| (found, expected.to_string(), sentence);
    if bytes.is_empty() {
        let why = format!("a segment is empty: {terminator} stands twice in a row, take one away");
        return told(format!("{terminator}{terminator}"), "a segment", why);
    }
    if blanks > 0 {
        let stand = counted(blanks, "blank stands", "blanks stand");
        let why = format!("{stand} before the tag: only line breaks may stand between segments");
        return told(counted(blanks, "blank", "blanks"), "the tag", why);
    }
    if tag.iter().any(|byte| matches!(byte, b'\r' | b'\n')) {
        let why = format!(
            "a line break stands inside the tag or right after it: line breaks are passed over \
             only after {terminator}{}",
            cut_lines(context)
        );
        return told("a line break".to_string(), TAG, why);
    }
    followed_tag(context, tag, sign).unwrap_or_else(|| no_tag(context, tag))
}

/// A tag that is one, but may not be followed so, or is of no service segment.
fn followed_tag(context: &Context, tag: &[u8], sign: Option<u8>) -> Option<Told> {
    let known = [&b"UNB"[..], b"UNG", b"UNH", b"UNS", b"UNT", b"UNE", b"UNZ"].contains(&tag);
    let name = shown(&tag[..tag.len().min(12)]);
    let found = |sign| format!("{name}{}", byte_shown(sign));
    match sign {
        _ if !is_tag(tag) => None,
        Some(sign) if Some(sign) == context.characters.repetition => Some((
            found(sign),
            "a tag without repeats".to_string(),
            format!("a repeat follows the tag {name}: a tag has none"),
        )),
        Some(sign) if known => Some((
            found(sign),
            name.clone(),
            format!(
                "{} follows {name}: a service segment's tag has no component after it",
                byte_shown(sign)
            ),
        )),
        _ if tag.starts_with(b"UN") => Some((
            name.clone(),
            "UNB, UNG, UNH, UNS, UNT, UNE or UNZ".to_string(),
            format!(
                "{name} is no service segment that is judged here: those are UNB, UNG, UNH, UNS, \
                 UNT, UNE and UNZ"
            ),
        )),
        _ => None,
    }
}

fn no_tag(context: &Context, tag: &[u8]) -> Told {
    let name = shown(&tag[..tag.len().min(12)]);
    let element = byte_shown(context.characters.element);
    let terminator = byte_shown(context.characters.terminator);
    let released = context.characters.release.map_or(String::new(), |release| {
        let release = byte_shown(release);
        format!("; a {terminator} of the text itself is written {release}{terminator}")
    });
    let sentence = format!(
        "{name} is no tag: a tag is {TAG}, and {element} or {terminator} follows it{released}"
    );
    (name, format!("{TAG}, then {element} or {terminator}"), sentence)
}

/// Where all lines but the last are equally long, that they were cut so.
fn cut_lines(context: &Context) -> String {
    let lines: Vec<usize> =
        context.input.split(|&byte| byte == b'\n').map(|line| trim_end(line).len()).collect();
    let width = lines[0];
    let all_but_last = &lines[..lines.len() - 1];
    let last = lines[lines.len() - 1];
    // a last line without bytes is the end of the one before it
    let full = if last == 0 && all_but_last.len() > 1 {
        &all_but_last[..all_but_last.len() - 1]
    } else {
        all_but_last
    };
    if full.is_empty() || width < 40 || full.iter().any(|&length| length != width) {
        return String::new();
    }
    format!("; the lines are cut after {width} bytes: join them, as with tr -d '\\r\\n'")
}

const JUDGED: &str = "UNOA and UNOB in versions 1, 2 and 4";

/// 7: level and version.
pub fn level(context: &Context) -> Option<Reason> {
    let element = context.segments.first()?.element(1);
    let (level, version) = (element.component(0), element.component(1));
    let names = format!("{}:{}", plain(level.spelled()), plain(version.spelled()));
    let ours = matches!(level.spelled(), b"UNOA" | b"UNOB");
    let repeats = element.repeats().count();
    let (found, expected, sentence) = match (version.spelled(), context.characters.repetition) {
        (b"1" | b"2", Some(sign)) if ours => {
            let sign = byte_shown(sign);
            (
                sign.clone(),
                "a space as the advice's fifth byte, or version 4".to_string(),
                format!(
                    "the advice's fifth byte is {sign}, a repetition separator, which only \
                    version 4 has, but UNB names {names}: write a space there"
                ),
            )
        }
        (b"1" | b"2" | b"4", _) if ours && repeats > 1 => (
            counted(repeats, "repeat", "repeats"),
            "one repeat".to_string(),
            format!("UNB's element 1 has {repeats} repeats: level and version stand there once"),
        ),
        _ => (names.clone(), JUDGED.to_string(), format!("UNB names {names}; judged are {JUDGED}")),
    };
    Some(Reason::new(found, expected, sentence))
}

/// A value that may be missing, without quotes where it can be seen.
fn plain(bytes: &[u8]) -> String {
    if bytes.is_empty() {
        "(nothing)".to_string()
    } else {
        shown(bytes)
    }
}

/// 8: a byte outside the level.
pub fn byte(context: &Context, place: usize) -> Option<Reason> {
    if let Some(reason) = after_end(context, place) {
        return Some(reason);
    }
    let byte = *context.input.get(place)?;
    let segment = context.at(place)?;
    let level = shown(context.segments[0].element(1).component(0).spelled());
    let spot = element_of(&segment, place);
    let name = byte_shown(byte);
    let sentence = match byte {
        b'\r' | b'\n' => format!(
            "a line break stands inside {spot}: line breaks are passed over only after {}{}",
            byte_shown(context.characters.terminator),
            cut_lines(context)
        ),
        b'a'..=b'z' => format!(
            "{name} is in level B, the interchange says {level}: write capitals in {spot}, or \
                name UNOB in UNB"
        ),
        _ => format!(
            "{name}{} is in no level judged here: write {spot} without it",
            letter(context.input, place)
        ),
    };
    let expected = match &level[..] {
        "UNOB" => "A to Z, a to z, 0 to 9, space and . , - ( ) / = ' + : ? ! \" % & * ; < >",
        _ => "A to Z, 0 to 9, space and . , - ( ) / = ' + : ? ! \" % & * ; < >",
    };
    let released = place > 0 && Some(context.input[place - 1]) == context.characters.release;
    let reason = Reason::new(name, expected, sentence);
    Some(match released {
        true => reason.past(place - 1..place + 1, b"XX"),
        false => reason.past(place..place + 1, b"X"),
    })
}

/// The letter of which a byte is a part, where the bytes are UTF-8 there.
fn letter(input: &[u8], place: usize) -> String {
    let rest = &input[place..input.len().min(place + 4)];
    let text = (1..=rest.len()).rev().find_map(|length| std::str::from_utf8(&rest[..length]).ok());
    match text.and_then(|text| text.chars().next()) {
        Some(letter) if !letter.is_ascii() && !letter.is_control() => {
            format!(" ({letter} in UTF-8)")
        }
        _ => String::new(),
    }
}

/// Which element of which segment a place is in.
fn element_of(segment: &Segment, place: usize) -> String {
    let tag = shown(&segment.tag()[..segment.tag().len().min(12)]);
    let start = segment.spelled().as_ptr() as usize;
    let after = |part: &[u8]| part.as_ptr() as usize - start + segment.start() <= place;
    let number = segment.elements().take_while(|element| after(element.spelled())).count();
    match number {
        0 | 1 => format!("the tag {tag}"),
        _ => {
            let element = segment.element(number - 1);
            let parts =
                element.repeats().flat_map(|repeat| repeat.components().collect::<Vec<_>>());
            match parts.take_while(|part| after(part.spelled())).count() {
                0 | 1 => format!("element {} of {tag}", number - 1),
                part => format!("element {}, component {part} of {tag}", number - 1),
            }
        }
    }
}
