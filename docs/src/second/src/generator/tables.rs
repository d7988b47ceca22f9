//! Tables of message structures: sound ones, some a slip away from sound, and
//! hostile ones; and bodies for them: in the language of the table, just outside,
//! and hostile ones.
//!
//! Change request 2026-08, "Message structures".

use super::any_input;
use super::breaks::with_breaks;
use super::damage::{damage_draft, recount};
use super::draft::{draft_of_version, pad, single, tag_of, valid_draft, Draft, DraftSegment};
use super::random::Random;
use crate::level::Version;
use crate::message_table::{Entry, DEEPEST, MOST_ENTRIES};
use crate::service_characters::PRINTABLE;

pub type Tag = [u8; 3];

/// The bytes of a table.
pub fn table_of(entries: &[Entry]) -> Vec<u8> {
    let row = |entry: &Entry| {
        let mut row = entry.tag.to_vec();
        row.push(entry.status);
        row.extend((entry.repeats as u16).to_be_bytes());
        row.extend((entry.under as u16).to_be_bytes());
        row
    };
    entries.iter().flat_map(row).collect()
}

const TAGS: [&Tag; 9] = [b"BGM", b"LIN", b"UNS", b"A0Z", b"000", b"UMN", b"XUN", b"NUN", b"TXT"];

/// Makes the entries of a sound table.
struct Maker<'a> {
    random: &'a mut Random,
    /// Does no tag stand twice?
    unique: bool,
    /// How many of a hundred entries are groups.
    groups: usize,
    /// The most entries.
    most: usize,
    entries: Vec<Entry>,
}

impl Maker<'_> {
    fn tag(&mut self) -> Tag {
        let number = self.entries.len();
        match (self.unique, TAGS.get(number)) {
            (false, _) => *self.random.pick(&TAGS),
            (true, Some(tag)) => **tag,
            (true, None) => {
                let digit = |number: usize| b'0' + (number % 10) as u8;
                [b'A' + (number / 100) as u8, digit(number / 10), digit(number)]
            }
        }
    }

    fn push(&mut self, tag: Tag) {
        let status = self.random.pick(b"MC");
        let repeats = self.random.pick(&[1, 1, 1, 2, 2, 3, 9, 99, 999]);
        self.entries.push(Entry { tag, status, repeats, under: 0 });
    }

    /// So many segments and groups, one after the other, within groups so deep.
    fn parts(&mut self, count: usize, depth: usize) {
        for _ in 0..count {
            let left = self.most - self.entries.len();
            let group = depth < DEEPEST && left > 1 && self.random.chance(self.groups);
            if group {
                self.group(depth + 1);
            } else if left > 0 {
                let tag = self.tag();
                self.push(tag);
            }
        }
    }

    fn group(&mut self, depth: usize) {
        let own = self.entries.len();
        self.push([0; 3]);
        let tag = self.tag();
        self.entries.push(Entry { tag, status: b'M', repeats: 1, under: 0 });
        let count = self.random.pick(&[0, 1, 1, 2, 3]);
        self.parts(count, depth);
        self.entries[own].under = self.entries.len() - own - 1;
    }
}

/// The entries of a sound table, in which perhaps no tag stands twice.
pub fn sound_entries(random: &mut Random, unique: bool) -> Vec<Entry> {
    let groups = random.pick(&[0, 30, 30, 30, 80]);
    let (count, most) = match random.below(50) {
        0 => (MOST_ENTRIES, MOST_ENTRIES),
        1 => (random.between(20, 400), MOST_ENTRIES),
        _ => (random.pick(&[0, 1, 1, 2, 2, 3, 4, 6]), 40),
    };
    let mut maker = Maker { random, unique, groups, most, entries: Vec::new() };
    maker.parts(count, 0);
    maker.entries
}

/// Groups within groups, so many, each with its trigger and perhaps more.
fn nested(random: &mut Random, depth: usize) -> Vec<Entry> {
    let mut entries: Vec<Entry> = Vec::new();
    for number in 0..depth {
        let mut around = Maker { random, unique: false, groups: 0, most: 40, entries: Vec::new() };
        around.push([0; 3]);
        around.parts(1, 0);
        let mut outer = around.entries;
        outer[1] = Entry { tag: *TAGS[number % 9], status: b'M', repeats: 1, under: 0 };
        outer.append(&mut entries);
        outer[0].under = outer.len() - 1;
        entries = outer;
    }
    entries
}

/// The number of an entry that is a group, or that is none.
fn some_entry(random: &mut Random, entries: &[Entry], group: bool) -> Option<usize> {
    let numbers: Vec<usize> =
        (0..entries.len()).filter(|&number| entries[number].is_group() == group).collect();
    (!numbers.is_empty()).then(|| random.pick(&numbers))
}

/// One thing otherwise in a segment's entry.
fn slip_in_segment(random: &mut Random, entries: &mut [Entry]) {
    let number = match some_entry(random, entries, false) {
        Some(number) => number,
        None => return,
    };
    let entry = &mut entries[number];
    let tags = [b"UNT", b"UNH", b"UNB", b"UNZ", b"UNG", b"UNE", b"UNA", b"UNX", b"UNS", b"UN0"];
    match random.below(6) {
        0 => entry.tag[random.below(3)] = random.pick(b"a_ \x00\xff[@/:`z"),
        1 => entry.tag = *random.pick(&tags),
        2 => entry.under = random.pick(&[1, 2, 256, 65_535]),
        3 => entry.tag = [0; 3],
        4 => *entry = Entry { tag: [0; 3], under: 1, ..*entry },
        _ => entry.tag.make_ascii_lowercase(),
    }
}

/// One thing otherwise in a group's entry, or in its trigger's.
fn slip_in_group(random: &mut Random, entries: &mut [Entry]) {
    let number = match some_entry(random, entries, true) {
        Some(number) => number,
        None => return,
    };
    let length = entries.len();
    let group = &mut entries[number];
    match random.below(10) {
        0 => group.under = 0,
        1 => group.under += 1,
        2 => group.under = group.under.saturating_sub(1),
        3 => group.under = random.pick(&[length, length - number, 999, 65_535]),
        4 => group.tag = *random.pick(&TAGS),
        _ => {
            if let Some(trigger) = entries.get_mut(number + 1) {
                slip_in_trigger(random, trigger);
            }
        }
    }
}

fn slip_in_trigger(random: &mut Random, trigger: &mut Entry) {
    match random.below(4) {
        0 => trigger.status = b'C',
        1 => trigger.repeats = 2,
        2 => trigger.repeats = 999,
        _ => *trigger = Entry { tag: [0; 3], under: 1, ..*trigger },
    }
}

/// One thing otherwise in any entry, or in the row of entries.
fn slip_anywhere(random: &mut Random, entries: &mut Vec<Entry>) {
    if entries.is_empty() {
        return;
    }
    let (here, there) = (random.below(entries.len()), random.below(entries.len()));
    match random.below(6) {
        0 => entries[here].status = random.pick(b"mcXN\x00 O"),
        1 | 2 => entries[here].repeats = random.pick(&[0, 1_000, 1_001, 1_024, 65_535, 999, 2]),
        3 => drop(entries.remove(here)),
        4 => entries.swap(here, there),
        _ => entries.insert(there, entries[here]),
    }
}

/// More entries up to this number, all of them segments.
fn filled(entries: &mut Vec<Entry>, count: usize) {
    let one = Entry { tag: *b"ZZZ", status: b'C', repeats: 1, under: 0 };
    while entries.len() < count {
        entries.push(one);
    }
}

/// The bytes of a table one slip, or two, away from a sound one.
fn slipped_table(random: &mut Random, mut entries: Vec<Entry>) -> Vec<u8> {
    for _ in 0..random.pick(&[1, 1, 1, 2]) {
        match random.below(20) {
            0..=6 => slip_in_segment(random, &mut entries),
            7..=13 => slip_in_group(random, &mut entries),
            14..=18 => slip_anywhere(random, &mut entries),
            _ => filled(&mut entries, random.pick(&[999, 1_000, 1_001])),
        }
    }
    let mut table = table_of(&entries);
    match random.below(12) {
        0 => table.truncate(table.len().saturating_sub(random.between(1, 7))),
        1 => {
            let count = random.between(1, 7);
            table.extend(random.bytes(count));
        }
        _ => {}
    }
    table
}

/// Bytes that are hardly a table.
fn hostile_table(random: &mut Random) -> Vec<u8> {
    let count = random.below(30);
    match random.below(6) {
        0 => random.bytes(count),
        1 => vec![0; random.pick(&[1, 7, 8, 16, 7_992, 8_000, 65_536])],
        2 => {
            let mut entries = sound_entries(random, false);
            filled(&mut entries, random.pick(&[1_000, 2_000, 9_000]));
            entries[0] =
                Entry { tag: [0; 3], under: random.pick(&[1, 998, 999, 1_999]), ..entries[0] };
            table_of(&entries)
        }
        3 => table_of(&nested(random, DEEPEST + 1)),
        _ => (0..count).flat_map(|_| any_row(random)).collect(),
    }
}

/// A row of bytes that are right more often than not.
fn any_row(random: &mut Random) -> Vec<u8> {
    let tag = random.pick(&[*b"BGM", *b"LIN", [0; 3], [0; 3], *b"UNT"]);
    let under = if tag == [0; 3] { random.below(6) as u8 } else { random.pick(&[0, 0, 0, 0, 1]) };
    let status = random.pick(b"MMMMCC\x00");
    [&tag[..], &[status, 0, random.pick(&[1, 1, 1, 1, 2, 0]), 0, under]].concat()
}

/// Any table, more often a sound one than not.
pub fn any_table(random: &mut Random) -> Vec<u8> {
    let unique = random.chance(60);
    match random.below(20) {
        0..=10 => table_of(&sound_entries(random, unique)),
        11 => table_of(&nested(random, DEEPEST)),
        12..=17 => {
            let entries = sound_entries(random, unique);
            slipped_table(random, entries)
        }
        _ => hostile_table(random),
    }
}

/// Tags that some choice of repeats within the limits spells; as few as it may
/// be once there are so many.
pub fn body_in(random: &mut Random, entries: &[Entry], enough: usize) -> Vec<Tag> {
    let mut body = Vec::new();
    let mut rest = entries;
    while let Some((entry, behind)) = rest.split_first() {
        let (under, next) = behind.split_at(entry.under);
        let least = usize::from(entry.is_mandatory());
        let wanted = random.pick(&[0, 0, 1, 1, 1, 2, 3, entry.repeats]).clamp(least, entry.repeats);
        for number in 0..wanted {
            if number >= least && body.len() >= enough {
                break;
            }
            match entry.is_group() {
                true => body.extend(body_in(random, under, enough.saturating_sub(body.len()))),
                false => body.push(entry.tag),
            }
        }
        rest = next;
    }
    body
}

/// A tag of the table, or another.
fn any_tag(random: &mut Random, entries: &[Entry]) -> Tag {
    match some_entry(random, entries, false) {
        Some(number) if random.chance(85) => entries[number].tag,
        _ => *random.pick(&[b"ZZZ", b"BGM", b"UNS", b"LIN"]),
    }
}

/// One segment more, fewer, or another.
fn changed_body(random: &mut Random, entries: &[Entry], body: &mut Vec<Tag>) {
    let tag = any_tag(random, entries);
    if body.is_empty() {
        return body.push(tag);
    }
    let (here, there) = (random.below(body.len()), random.below(body.len()));
    match random.below(8) {
        0 | 1 => drop(body.remove(here)),
        2 => body.insert(here, tag),
        3 => body.insert(here, body[here]),
        4 => body.swap(here, there),
        5 => body[here] = tag,
        6 => body.truncate(here),
        _ => {
            // as many as one entry may take, or one more
            let entry = entries.iter().find(|entry| entry.tag == body[here]);
            let most = entry.map_or(1, |entry| entry.repeats + random.below(2));
            let run = vec![body[here]; most];
            body.splice(here..here + 1, run);
        }
    }
}

/// A body for these entries: in the language, just outside, or any tags.
pub fn any_body(random: &mut Random, entries: &[Entry]) -> Vec<Tag> {
    let enough = random.pick(&[0, 3, 10, 10, 30, 1_200]);
    match random.below(20) {
        0..=10 => body_in(random, entries, enough),
        11..=18 => {
            let mut body = body_in(random, entries, enough);
            for _ in 0..random.pick(&[1, 1, 1, 2]) {
                changed_body(random, entries, &mut body);
            }
            body
        }
        _ => {
            let count = random.below(8);
            (0..count).map(|_| any_tag(random, entries)).collect()
        }
    }
}

/// The segments of a body: sections D and S where there are UNS, and repetition
/// figures and elements here and there.
fn segments_of(random: &mut Random, body: &[Tag]) -> Vec<DraftSegment> {
    let mut sections = random.pick(&["DS", "DS", "S"]).bytes();
    let few = body.len() < 40;
    let segment = |tag: &Tag| {
        let mut segment = vec![single(tag)];
        if tag == b"UNS" {
            segment.push(single([sections.next().unwrap_or(b'D')]));
        } else if few && random.chance(20) {
            segment[0][0].push(random.pick(&["1", "", "12"]).into());
        }
        if few && random.chance(40) {
            segment.push(single(random.pick(&["A", "1", "BGM", "UNT"])));
        }
        segment
    };
    body.iter().map(segment).collect()
}

/// The draft with other bodies, one for each message.
fn with_bodies(draft: &mut Draft, mut next: impl FnMut() -> Vec<DraftSegment>) {
    let mut segments = Vec::new();
    let mut inside = false;
    for segment in draft.segments.drain(..) {
        let tag = tag_of(&segment).clone();
        if tag == b"UNT" {
            inside = false;
        }
        if !inside {
            segments.push(segment);
        }
        if tag == b"UNH" {
            inside = true;
            segments.extend(next());
        }
    }
    draft.segments = segments;
    recount(draft);
}

/// An interchange the messages of which have bodies for these entries, now and
/// then damaged, and now and then so long that its normal form is too long.
pub fn input_for(random: &mut Random, entries: &[Entry]) -> Vec<u8> {
    let long = random.chance(3);
    let mut draft = match long {
        true => {
            let draft = draft_of_version(random, Version::One);
            Draft { characters: PRINTABLE, advice: false, ..draft }
        }
        false => valid_draft(random),
    };
    with_bodies(&mut draft, || {
        let body = any_body(random, entries);
        segments_of(random, &body)
    });
    match random.below(100) {
        0..=14 => pad(random, &mut draft),
        15..=29 => {
            let aim = random.between(7, 12) as u32;
            damage_draft(random, &mut draft, aim);
        }
        _ => {}
    }
    let count = draft.segments.len();
    let length = draft.spelled().len();
    if long && length < 31_000 {
        let filling = vec![b'A'; random.between(31_985, 31_999) - length];
        draft.segments[count - 1].push(single(filling));
    }
    let input = draft.spelled();
    match random.chance(15) {
        true => with_breaks(random, &input).input,
        false => input,
    }
}

/// A table and an interchange, most often one that is made for it.
pub fn table_and_input(random: &mut Random) -> (Vec<u8>, Vec<u8>) {
    if random.chance(25) {
        return (any_table(random), any_input(random));
    }
    let unique = random.chance(60);
    let entries = match random.chance(5) {
        true => nested(random, DEEPEST),
        false => sound_entries(random, unique),
    };
    let input = input_for(random, &entries);
    match random.chance(10) {
        true => (slipped_table(random, entries), input),
        false => (table_of(&entries), input),
    }
}
