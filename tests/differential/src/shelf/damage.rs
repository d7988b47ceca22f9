//! Damage to the bytes of a shelf: most of it makes a sound shelf unsound, some
//! makes it another sound shelf.

use second::generator::Random;
use second::shelf::{LARGEST, SLOTS, SMALLEST};

use super::layout::{
    by_position, free_slots, map, mend_held, number, pair, store_map, store_number, store_pair,
    DUPLICATES, HELD, MAP, PAIRS,
};

/// A damage by its name; false where the shelf has nothing to do it to.
type Damage = (&'static str, fn(&mut Random, &mut [u8]) -> bool);

pub const DAMAGES: [Damage; 23] = [
    ("the beginning or the version", head),
    ("a bit of the map", map_bit),
    (BYTES_HELD, held),
    ("the duplicates found", duplicates),
    (OLD, version_1),
    ("a start", start),
    ("a length", length),
    ("a sum beyond 32 bits", wide_sum),
    ("an entry of another slot", entry_copied),
    ("two entries exchanged", entries_exchanged),
    ("a text in another slot", slot_changed),
    ("an occupied slot of length 0", empty_text),
    ("a byte of a text", text_byte),
    ("the mark of a text", mark),
    ("the element separator of a text", separator),
    ("a text over another", text_copied),
    ("a boundary between texts", boundary),
    ("a gap between texts", gap),
    ("a break behind the last text", break_behind),
    ("a free byte", free_byte),
    ("the last byte", last_byte),
    ("any byte", any_byte),
    ("the first two texts exchanged", texts_exchanged),
];

/// The one that does not leave the shelf its size.
pub const OTHER_SIZE: &str = "more or fewer bytes";

const BYTES_HELD: &str = "the bytes held";
/// The one that makes it a shelf of version 1.
pub const OLD: &str = "a shelf of version 1";

/// Does one damage that can be done; its name. More often than not the bytes
/// held are then the sum of the lengths again, so that they alone do not tell.
pub fn damage(random: &mut Random, shelf: &mut Vec<u8>) -> &'static str {
    if random.chance(5) {
        size(random, shelf);
        return OTHER_SIZE;
    }
    loop {
        let (name, done) = random.pick(&DAMAGES);
        if done(random, shelf) {
            if ![BYTES_HELD, OLD].contains(&name) && random.chance(60) {
                mend_held(shelf);
            }
            return name;
        }
    }
}

/// A text of the shelf: its slot, its start and its end.
type Place = (usize, usize, usize);

/// The texts in the order in which they lie; none where they lie elsewhere.
fn places(shelf: &[u8]) -> Vec<Place> {
    let place = |slot: usize| {
        let [start, length] = pair(shelf, slot).map(|number| number as usize);
        (slot, start, start + length)
    };
    let within = |(_, start, end): &Place| *start >= SMALLEST && *end <= shelf.len();
    by_position(shelf).into_iter().map(place).filter(within).collect()
}

fn any_place(random: &mut Random, shelf: &[u8]) -> Option<Place> {
    let places = places(shelf);
    (!places.is_empty()).then(|| random.pick(&places))
}

/// Where the last text ends.
fn end(shelf: &[u8]) -> usize {
    places(shelf).last().map_or(SMALLEST, |(_, _, end)| *end)
}

fn flip(random: &mut Random, shelf: &mut [u8], place: usize) {
    shelf[place] ^= 1 << random.below(8);
}

fn head(random: &mut Random, shelf: &mut [u8]) -> bool {
    let place = random.below(MAP);
    flip(random, shelf, place);
    true
}

fn map_bit(random: &mut Random, shelf: &mut [u8]) -> bool {
    let place = random.between(MAP, HELD - 1);
    flip(random, shelf, place);
    true
}

fn held(random: &mut Random, shelf: &mut [u8]) -> bool {
    let held = number(shelf, HELD);
    let changed = match random.below(3) {
        0 => held ^ 1 << random.below(32),
        _ => other(random, held),
    };
    store_number(shelf, HELD, changed);
    true
}

/// Sound: any number may stand there.
fn duplicates(random: &mut Random, shelf: &mut [u8]) -> bool {
    let any = random.number() as u32;
    store_number(shelf, DUPLICATES, random.pick(&[any, any, u32::MAX - 1, u32::MAX]));
    true
}

/// As request 2026-04 laid it out: without the sums, and the texts from byte 525.
fn version_1(_: &mut Random, shelf: &mut [u8]) -> bool {
    for (slot, start, end) in places(shelf) {
        store_pair(shelf, slot, [start as u32 - 8, (end - start) as u32]);
    }
    shelf[4] = 1;
    shelf.copy_within(PAIRS.., HELD);
    let last = shelf.len() - 8;
    shelf[last..].fill(0);
    true
}

/// One more or less, or any number.
fn other(random: &mut Random, number: u32) -> u32 {
    match random.below(4) {
        0 => number.wrapping_add(1),
        1 => number.wrapping_sub(1),
        2 => random.pick(&[0, 525, 532, 533, 1 << 16, 1 << 31, u32::MAX]),
        _ => random.below(1 << 16) as u32,
    }
}

/// A slot, more often an occupied one.
fn any_slot(random: &mut Random, shelf: &[u8]) -> usize {
    match any_place(random, shelf) {
        Some((slot, _, _)) if random.chance(80) => slot,
        _ => random.below(SLOTS),
    }
}

fn start(random: &mut Random, shelf: &mut [u8]) -> bool {
    let slot = any_slot(random, shelf);
    let [start, length] = pair(shelf, slot);
    store_pair(shelf, slot, [other(random, start), length]);
    true
}

fn length(random: &mut Random, shelf: &mut [u8]) -> bool {
    let slot = any_slot(random, shelf);
    let [start, length] = pair(shelf, slot);
    store_pair(shelf, slot, [start, other(random, length)]);
    true
}

/// In 32 bits the end is where it was.
fn wide_sum(random: &mut Random, shelf: &mut [u8]) -> bool {
    let (slot, _, end) = match any_place(random, shelf) {
        Some(place) => place,
        None => return false,
    };
    let start = u32::MAX - random.below(3) as u32;
    store_pair(shelf, slot, [start, (end as u32).wrapping_sub(start)]);
    true
}

fn entry_copied(random: &mut Random, shelf: &mut [u8]) -> bool {
    let (from, to) = (any_slot(random, shelf), any_slot(random, shelf));
    let copied = pair(shelf, from);
    store_pair(shelf, to, copied);
    true
}

/// Sound where both slots are occupied.
fn entries_exchanged(random: &mut Random, shelf: &mut [u8]) -> bool {
    let (one, other) = (any_slot(random, shelf), any_slot(random, shelf));
    let pairs = [pair(shelf, one), pair(shelf, other)];
    store_pair(shelf, one, pairs[1]);
    store_pair(shelf, other, pairs[0]);
    true
}

/// Sound: slots may be any.
fn slot_changed(random: &mut Random, shelf: &mut [u8]) -> bool {
    let free = free_slots(shelf);
    let (slot, _, _) = match any_place(random, shelf) {
        Some(place) if !free.is_empty() => place,
        _ => return false,
    };
    let other = random.pick(&free);
    let moved = pair(shelf, slot);
    store_pair(shelf, slot, [0, 0]);
    store_pair(shelf, other, moved);
    let changed = map(shelf) ^ (1 << slot) ^ (1 << other);
    store_map(shelf, changed);
    true
}

fn empty_text(random: &mut Random, shelf: &mut [u8]) -> bool {
    let free = free_slots(shelf);
    if free.is_empty() {
        return false;
    }
    let slot = random.pick(&free);
    let place = random.pick(&[0, SMALLEST, end(shelf)]);
    store_pair(shelf, slot, [place as u32, 0]);
    let changed = map(shelf) | 1 << slot;
    store_map(shelf, changed);
    true
}

/// Sound where the text is another normal form.
fn text_byte(random: &mut Random, shelf: &mut [u8]) -> bool {
    match any_place(random, shelf) {
        Some((_, start, end)) if start < end => {
            shelf[random.between(start, end - 1)] = random.pick(b"0123456789AB+:?'\n ");
            true
        }
        _ => false,
    }
}

/// Sound, unless the text with the other mark is there too.
fn mark(random: &mut Random, shelf: &mut [u8]) -> bool {
    match any_place(random, shelf) {
        Some((_, start, end)) if start + 5 < end => {
            shelf[start + 5] = if shelf[start + 5] == b'.' { b',' } else { b'.' };
            true
        }
        _ => false,
    }
}

/// The same interchange, as long as its normal form, which it is not.
fn separator(random: &mut Random, shelf: &mut [u8]) -> bool {
    match any_place(random, shelf) {
        // behind an advice, nothing is released
        Some((_, start, end)) if start + 9 < end && !shelf[start + 9..end].contains(&b'?') => {
            let pluses = shelf[start..end].iter_mut().filter(|byte| **byte == b'+');
            pluses.for_each(|byte| *byte = b'*');
            true
        }
        _ => false,
    }
}

/// Two texts that are the same, where two have the same length.
fn text_copied(random: &mut Random, shelf: &mut [u8]) -> bool {
    let (slot, start, end) = match any_place(random, shelf) {
        Some(place) => place,
        None => return false,
    };
    let mut others = places(shelf);
    others.retain(|other| other.0 != slot && other.2 - other.1 == end - start);
    if others.is_empty() {
        return false;
    }
    let (_, other, _) = random.pick(&others);
    shelf.copy_within(start..end, other);
    true
}

/// The first of two texts takes a byte of the second.
fn boundary(random: &mut Random, shelf: &mut [u8]) -> bool {
    let places = places(shelf);
    if places.len() < 2 {
        return false;
    }
    let number = random.below(places.len() - 1);
    let [(one, start, end), (other, other_start, other_end)] = [places[number], places[number + 1]];
    store_pair(shelf, one, [start as u32, (end - start) as u32 + 1]);
    let length = (other_end - other_start) as u32;
    store_pair(shelf, other, [other_start as u32 + 1, length.wrapping_sub(1)]);
    true
}

/// The texts from some place on lie a byte further.
fn gap(random: &mut Random, shelf: &mut [u8]) -> bool {
    let end = end(shelf);
    let place = match any_place(random, shelf) {
        Some((_, start, _)) if end < shelf.len() => start,
        _ => return false,
    };
    for (slot, start, end) in places(shelf) {
        if start >= place {
            store_pair(shelf, slot, [start as u32 + 1, (end - start) as u32]);
        }
    }
    shelf.copy_within(place..end, place + 1);
    shelf[place] = 0;
    true
}

/// An accepted interchange that is not its own normal form.
fn break_behind(_: &mut Random, shelf: &mut [u8]) -> bool {
    match places(shelf).last() {
        Some(&(slot, start, end)) if end < shelf.len() => {
            shelf[end] = b'\n';
            store_pair(shelf, slot, [start as u32, (end - start) as u32 + 1]);
            true
        }
        _ => false,
    }
}

fn free_byte(random: &mut Random, shelf: &mut [u8]) -> bool {
    let end = end(shelf);
    if end >= shelf.len() {
        return false;
    }
    let place = if random.chance(50) { end } else { random.between(end, shelf.len() - 1) };
    flip(random, shelf, place);
    true
}

fn last_byte(random: &mut Random, shelf: &mut [u8]) -> bool {
    let place = shelf.len() - 1;
    flip(random, shelf, place);
    true
}

fn any_byte(random: &mut Random, shelf: &mut [u8]) -> bool {
    let place = random.below(shelf.len());
    shelf[place] = shelf[place].wrapping_add(random.between(1, 255) as u8);
    true
}

/// Sound where what is cut off was free, and what is put on is zero.
fn size(random: &mut Random, shelf: &mut Vec<u8>) {
    let length = shelf.len();
    match random.below(4) {
        0 => shelf.truncate(length - 1),
        1 => shelf.truncate(random.between(SMALLEST - 1, length)),
        2 if length < 4_000 => shelf.resize(length + random.between(1, 60), 0),
        _ if length > LARGEST - 100 => shelf.resize(LARGEST + random.below(2), 0),
        _ => shelf.push(random.pick(&[0, 0, 1])),
    }
}

/// Sound: texts may lie in any order.
fn texts_exchanged(_: &mut Random, shelf: &mut [u8]) -> bool {
    let places = places(shelf);
    if places.len() < 2 || places[0].2 != places[1].1 {
        return false;
    }
    let [(one, start, middle), (other, _, end)] = [places[0], places[1]];
    shelf[start..end].rotate_left(middle - start);
    let lengths = [middle - start, end - middle].map(|length| length as u32);
    store_pair(shelf, other, [start as u32, lengths[1]]);
    store_pair(shelf, one, [start as u32 + lengths[1], lengths[0]]);
    true
}
