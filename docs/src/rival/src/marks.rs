//! The bytes at which the pass has something to do, a block at a time:
//! comparisons without a branch, which the compiler does on 16 bytes at once, and
//! a multiplication that gathers eight answers into eight bits.

use crate::opening::Opening;

/// Bytes of a block.
pub const BLOCK: usize = 512;

/// A bit for each byte of a block, the lowest for the first.
pub type Stops = [u64; BLOCK / 64];

pub struct Marks {
    component: u8,
    element: u8,
    repetition: u8,
    terminator: u8,
    release: u8,
    /// What the normal form has to release; the terminator where there is less.
    to_release: [u8; 5],
    /// How many small letters the level has.
    small_letters: u8,
    /// Is there anything that the normal form has to release?
    respelled: bool,
    /// Is there a release character?
    releases: bool,
}

impl Marks {
    pub fn of(opening: &Opening) -> Marks {
        let characters = &opening.characters;
        let terminator = characters.terminator;
        let mut to_release = [terminator; 5];
        let added = opening.normal().serving().filter(|&byte| !characters.serves(byte));
        to_release.iter_mut().zip(added).for_each(|(place, byte)| *place = byte);
        Marks {
            component: characters.component,
            element: characters.element,
            repetition: characters.repetition.unwrap_or(characters.component),
            terminator,
            release: characters.release.unwrap_or(terminator),
            to_release,
            respelled: to_release != [terminator; 5],
            releases: characters.release.is_some(),
            small_letters: if opening.is_level_b() { 26 } else { 0 },
        }
    }

    /// Where there is something to do among these bytes but the last, which is
    /// only looked at from the one before it: a bit for each, 64 to a number.
    pub fn stops(&self, bytes: &[u8; BLOCK + 1]) -> Stops {
        let mut found = [0u8; BLOCK];
        let places = found.iter_mut().zip(bytes.iter().zip(&bytes[1..]));
        match self.respelled {
            false => places.for_each(|(found, (&byte, &next))| {
                *found = u8::from(self.stops_at(byte, next));
            }),
            true => places.for_each(|(found, (&byte, &next))| {
                *found = u8::from(self.stops_at(byte, next) | self.is_to_release(byte));
            }),
        }
        std::array::from_fn(|number| gathered(&found[64 * number..][..64]))
    }

    /// Are there so many stops that the release characters among them are better passed
    /// over all at once?
    pub fn releases_often(&self, stops: &Stops) -> bool {
        let count: u32 = stops.iter().map(|bits| bits.count_ones()).sum();
        self.releases && count as usize > BLOCK / 5
    }

    /// The stops that are left where a release character and what it releases stay as
    /// they are. A release character behind which there is nothing that it may release
    /// is left, and one at the end of the block. `released`: is the first byte?
    pub fn but_released(&self, bytes: &[u8; BLOCK + 1], mut released: bool, stops: &mut Stops) {
        let releases = bits_of(bytes, |byte| byte == self.release);
        let services = bits_of(bytes, |byte| {
            self.separates(byte) | (byte == self.release) | (byte == self.terminator)
        });
        for number in 0..stops.len() {
            let behind = behind_releases(releases[number], &mut released);
            let strays = behind & !services[number];
            stops[number] = stops[number] & !behind & !releases[number] | strays >> 1;
            if number > 0 {
                stops[number - 1] |= strays << 63;
            }
        }
        stops[BLOCK / 64 - 1] |= u64::from(released) << 63;
    }

    #[inline(always)]
    fn stops_at(&self, byte: u8, next: u8) -> bool {
        let separates = self.separates(byte);
        (byte == self.terminator)
            | (byte == self.release)
            | (!separates & !self.in_level(byte))
            | (separates & (self.separates(next) | (next == self.terminator)))
    }

    #[inline(always)]
    fn is_to_release(&self, byte: u8) -> bool {
        let [one, two, three, four, five] = self.to_release;
        (byte == one) | (byte == two) | (byte == three) | (byte == four) | (byte == five)
    }

    #[inline(always)]
    fn separates(&self, byte: u8) -> bool {
        (byte == self.component) | (byte == self.element) | (byte == self.repetition)
    }

    /// From the space to `"`, from `%` to `?`, the letters.
    #[inline(always)]
    fn in_level(&self, byte: u8) -> bool {
        (byte.wrapping_sub(b' ') < 3)
            | (byte.wrapping_sub(b'%') < 27)
            | (byte.wrapping_sub(b'A') < 26)
            | (byte.wrapping_sub(b'a') < self.small_letters)
    }
}

/// A bit for each of 64 answers, the lowest for the first.
fn gathered(answers: &[u8]) -> u64 {
    let eight_bits = |eight: &[u8]| {
        let eight = u64::from_le_bytes(eight.try_into().expect("eight bytes"));
        eight.wrapping_mul(0x0102_0408_1020_4080) >> 56
    };
    answers.chunks_exact(8).rev().fold(0, |bits, eight| bits << 8 | eight_bits(eight))
}

/// A bit for each byte of the block.
fn bits_of(bytes: &[u8; BLOCK + 1], is_one: impl Fn(u8) -> bool) -> Stops {
    let mut found = [0u8; BLOCK];
    found.iter_mut().zip(bytes).for_each(|(found, &byte)| *found = u8::from(is_one(byte)));
    std::array::from_fn(|number| gathered(&found[64 * number..][..64]))
}

/// The bits behind release characters that are not released themselves. `released`
/// says whether the first byte is; then whether the byte behind the last one is.
///
/// In a run of release characters each second one is released. Adding the first bits of
/// the runs that begin at odd places to all of them carries each to its run's end, which
/// tells such runs from the others.
fn behind_releases(releases: u64, released: &mut bool) -> u64 {
    const EVEN: u64 = 0x5555_5555_5555_5555;
    let first = u64::from(*released);
    let releases = releases & !first;
    let behind = releases << 1 | first;
    let (sums, carried) = (releases & !EVEN & !behind).overflowing_add(releases);
    *released = carried;
    (EVEN ^ (sums << 1)) & behind
}
