//! Slices longer than 16 bits can count, and service bytes than 8, each with
//! the answer that the paper gives it. A length that is cut short on its way
//! makes another call of these.
//!
//! Paper, refusals 1, 2 and 15, and the exit buffers of "Refusals by number".

use second::cases::X;
use second::generator::{any_valid, Random};
use second::refusal::{ADVICE, LIST, OVER_LENGTH};

use hverolda::surface::Written;

use crate::limits::{framed, refused, stored, Limit, WriteLimit, FRAME};

/// The least length that 16 bits do not hold.
pub const WIDE: usize = 1 << 16;

/// The size of a buffer that is enough, and that would be too short for what
/// is needed, were it counted in 16 bits.
pub fn room(random: &mut Random, needed: usize) -> usize {
    let low = match needed {
        0 => random.below(10_000),
        _ => random.below(needed.min(WIDE)),
    };
    WIDE * (needed / WIDE + random.between(1, 2)) + low
}

/// An accepted interchange and more bytes behind it, so many that the low 16
/// bits of the length are those of the interchange.
pub fn input(random: &mut Random) -> Limit {
    let (mut input, name) = match random.below(3) {
        0 => (X.as_bytes().to_vec(), "X and 65536 bytes or twice that"),
        1 => (any_valid(random).spelled(), "an interchange and 65536 bytes or twice that"),
        _ => (random.bytes(4_464), "an input over 70000 bytes"),
    };
    let more = WIDE * random.between(1, 2);
    input.extend(random.bytes(more));
    Limit { input, verdict: refused(OVER_LENGTH, 0), name }
}

/// Six usable service bytes, and more behind them.
pub fn service(random: &mut Random) -> WriteLimit {
    let mut service = b":+.? '".to_vec();
    let more = random.pick(&[1, 6, 256, 256, 512, WIDE, 2 * WIDE]);
    service.extend(random.bytes(more));
    let list = framed(b"A");
    let (values, table) = (list.bytes().to_vec(), list.table().to_vec());
    let written = Written { number: ADVICE, ..stored(0) };
    WriteLimit { service, values, table, written, name: "more than six service bytes" }
}

/// A list with bytes of no value behind some of its values; one time in three
/// the last value ends a byte too late.
pub fn values(random: &mut Random) -> WriteLimit {
    let list = framed(b"A");
    let length = list.bytes().len();
    let mut places: Vec<usize> = list.table().chunks(3).map(|record| record[1] as usize).collect();
    places.push(length);
    let place = random.pick(&places);
    // in 16 bits the bytes are fewer than those of the list
    let more = WIDE * random.between(1, 2) - random.between(1, length);
    let (front, behind) = list.bytes().split_at(place);
    let values = [front, &random.bytes(more), behind].concat();
    let mut table = list.table().to_vec();
    for record in table.chunks_mut(3).filter(|record| record[1] as usize >= place) {
        record[1] += more as u32;
    }
    let (written, name) = match random.below(3) {
        0 => {
            let last = list.len() - 1;
            table[3 * last + 1] = values.len() as u32;
            let written = Written { number: LIST, place: last, length: 0 };
            (written, "a value beyond 65536 bytes or more")
        }
        _ => (stored(FRAME + 1), "values of 65536 bytes or more"),
    };
    WriteLimit { service: b":+.? '".to_vec(), values, table, written, name }
}

#[cfg(test)]
mod tests {
    use super::*;

    #[test]
    fn a_wide_room_is_enough_and_short_in_16_bits() {
        for seed in 0..2_000 {
            let mut random = Random::new(seed);
            let needed = random.between(1, 3 * WIDE);
            let room = room(&mut random, needed);
            assert!(room >= needed && room % WIDE < needed, "{needed}, {room}");
        }
    }
}
