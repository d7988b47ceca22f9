//! Shelves of either version: sound ones, some a slip away from sound, and bytes
//! that are no shelf.
//!
//! Change requests 2026-04, "The shelf", 2026-06, "A shelf that knows its own
//! sums", and 2026-07, "Old shelves carried over, and back".

use super::random::Random;

const SLOTS: usize = 64;
const LARGEST: usize = 65_536;

/// Where the pairs of a version begin.
fn first_pair(version: u8) -> usize {
    if version == 1 {
        13
    } else {
        21
    }
}

/// Where the texts of a version begin, which is its least size.
pub fn first_text(version: u8) -> usize {
    first_pair(version) + 8 * SLOTS
}

/// A buffer of this size with these texts, laid out as the requests say: each
/// with its slot, in the order in which they lie. Version 1 has no duplicates.
pub fn laid_out(version: u8, size: usize, texts: &[(usize, &[u8])], duplicates: u32) -> Vec<u8> {
    let mut map = 0u64;
    let mut pairs = [[0u32; 2]; SLOTS];
    let mut bytes: Vec<u8> = Vec::new();
    for (slot, text) in texts {
        map |= 1 << slot;
        pairs[*slot] = [(first_text(version) + bytes.len()) as u32, text.len() as u32];
        bytes.extend(*text);
    }
    let mut shelf = vec![b'E', b'D', b'S', 0, version];
    shelf.extend(map.to_be_bytes());
    if version == 2 {
        shelf.extend((bytes.len() as u32).to_be_bytes());
        shelf.extend(duplicates.to_be_bytes());
    }
    shelf.extend(pairs.iter().flatten().flat_map(|number| number.to_be_bytes()));
    shelf.extend(bytes);
    shelf.resize(size, 0);
    shelf
}

/// A normal form with this reference; of this length, or 54 bytes and the
/// reference twice where that is more.
pub fn text_of(reference: usize, length: usize) -> Vec<u8> {
    let framed = |value: &str| {
        format!("UNA:+.? 'UNB+UNOA:1++++{reference}'UNH+1'BGM+{value}'UNT+3+1'UNZ+1+{reference}'")
    };
    let more = length.saturating_sub(framed("A").len());
    framed(&"A".repeat(1 + more)).into_bytes()
}

/// A sound shelf of this version with few or many texts, in any slots and in any
/// order, and with few or many free bytes, often about 8; now and then of the
/// largest size with long texts.
pub fn sound_shelf(random: &mut Random, version: u8) -> Vec<u8> {
    let count = random.pick(&[0, 0, 1, 2, 3, 4, 10, 63, 64]);
    let mut slots: Vec<usize> = (0..SLOTS).collect();
    if random.chance(60) {
        shuffle(random, &mut slots);
    }
    let mut texts: Vec<Vec<u8>> = (0..count).map(|number| text_of(number, 0)).collect();
    let free = random.pick(&[0, 1, 6, 7, 7, 8, 8, 9, 15, 16, 100, LARGEST]);
    if count > 2 && random.chance(10) {
        texts[0] = text_of(0, 32_000);
        texts[1] = text_of(1, 20_000);
        let others: usize = texts.iter().map(Vec::len).sum::<usize>() - texts[2].len();
        texts[2] = text_of(2, (LARGEST - first_text(version) - others).saturating_sub(free));
    }
    let kept: Vec<(usize, &[u8])> =
        slots.iter().zip(&texts).map(|(&slot, text)| (slot, &text[..])).collect();
    let needed = first_text(version) + texts.iter().map(Vec::len).sum::<usize>();
    let any = random.number() as u32;
    let duplicates = random.pick(&[0, 1, any, u32::MAX]);
    laid_out(version, LARGEST.min(needed + free), &kept, duplicates)
}

fn shuffle(random: &mut Random, list: &mut [usize]) {
    for last in (1..list.len()).rev() {
        list.swap(last, random.below(last + 1));
    }
}

/// One thing otherwise: a bit, a number, the version alone, or the size.
fn slip(random: &mut Random, shelf: &mut Vec<u8>) {
    let last = shelf.len() - 1;
    let place = match random.below(6) {
        0 => random.below(21),
        1 => random.between(13, 532.min(last)),
        2 => last,
        3 => last - random.below(16),
        _ => random.below(shelf.len()),
    };
    match random.below(8) {
        0 => shelf[4] ^= 3,
        1 => shelf.truncate(last),
        2 => shelf.push(random.pick(&[0, 0, 1])),
        3 => shelf.resize(LARGEST + random.below(2), 0),
        4 => shelf[place] = shelf[place].wrapping_add(random.pick(&[1, 8, 248, 255])),
        _ => shelf[place] ^= 1 << random.below(8),
    }
}

/// A shelf to carry over or back.
pub fn any_shelf(random: &mut Random) -> Vec<u8> {
    if random.chance(5) {
        let size = random.pick(&[0, 1, 4, 524, 525, 532, 533, 1_000, 65_537]);
        return random.bytes(size);
    }
    let version = random.pick(&[1, 1, 1, 2, 2]);
    let mut shelf = sound_shelf(random, version);
    if random.chance(40) {
        slip(random, &mut shelf);
    }
    shelf
}
