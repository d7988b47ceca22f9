//! With what a history begins: a shelf for a few texts most often, one for all
//! 64 slots now and then, seldom a large one; or any bytes, over which a shelf
//! is to be started.

use second::generator::Random;
use second::shelf::{LARGEST, SLOTS, SMALLEST};

use super::layout::laid_out;
use super::texts::{Pool, Text};

pub struct Beginning<'a> {
    pub shelf: Vec<u8>,
    /// What is put most often.
    pub texts: &'a [Text],
    /// How many operations the shelf is worth.
    pub most: u64,
    /// How many of a thousand are puts, while it fills and while it empties.
    pub puts: [usize; 2],
}

const FILLS_AND_EMPTIES: [usize; 2] = [600, 350];
const STAYS_FULL: [usize; 2] = [740, 680];

pub fn beginning<'a>(random: &mut Random, pool: &'a Pool) -> Beginning<'a> {
    let small = &pool.small[..];
    let mut puts = FILLS_AND_EMPTIES;
    let (shelf, texts, most) = match random.below(100) {
        0..=2 => {
            let sizes = [0, 1, 3, 524, 525, SMALLEST - 1, SMALLEST - 1, LARGEST + 1, LARGEST + 1];
            let size = random.pick(&sizes);
            (other_size(random, small, size), small, 8)
        }
        3..=6 => {
            let size = SMALLEST + random.below(3);
            (random.bytes(size), small, 20)
        }
        7..=36 => {
            let size = SMALLEST + random.between(40, 450);
            (random.bytes(size), small, 300)
        }
        37..=76 => {
            let count = random.pick(&[1, 2, 3, 3, 4, 5, 6, 8, 12]);
            (made(random, small, count), small, 300)
        }
        77..=86 => {
            puts = STAYS_FULL;
            let count = SLOTS - random.pick(&[0, 0, 0, 1, 2]);
            (made(random, small, count), small, 120)
        }
        87..=89 => {
            let size = random.pick(&[LARGEST, LARGEST, LARGEST - 1, 40_000]);
            (random.bytes(size), &pool.long[..], 15)
        }
        _ => {
            let size = SMALLEST + random.between(100, 1_200);
            (random.bytes(size), &pool.middle[..], 150)
        }
    };
    Beginning { shelf, texts, most, puts }
}

/// A sound shelf with so many texts in the lowest slots or in any, room for some
/// more or for none, and any number of duplicates found.
fn made(random: &mut Random, texts: &[Text], count: usize) -> Vec<u8> {
    let mut slots: Vec<usize> = (0..SLOTS).collect();
    let mut numbers: Vec<usize> = (0..texts.len()).collect();
    if random.chance(60) {
        shuffle(random, &mut slots);
    }
    shuffle(random, &mut numbers);
    let kept: Vec<(usize, &[u8])> = slots
        .iter()
        .zip(&numbers)
        .take(count)
        .map(|(&slot, &number)| (slot, &texts[number].form[..]))
        .collect();
    let held: usize = kept.iter().map(|(_, text)| text.len()).sum();
    let more = texts[random.below(texts.len())].form.len();
    let free = random.pick(&[0, 1, more - 1, more, more + 1, 200, 500]);
    let any = random.number() as u32;
    let duplicates = random.pick(&[0, 1, 254, 65_530, any, u32::MAX - 20, u32::MAX]);
    laid_out(SMALLEST + held + free, &kept, duplicates)
}

/// Any bytes, or what would be a sound shelf but for its size.
fn other_size(random: &mut Random, texts: &[Text], size: usize) -> Vec<u8> {
    if random.chance(30) {
        return random.bytes(size);
    }
    let kept = [(random.below(SLOTS), &texts[random.below(texts.len())].form[..])];
    let mut shelf = laid_out(LARGEST + 1, &kept[..random.below(2)], 0);
    shelf.truncate(size);
    shelf
}

fn shuffle(random: &mut Random, list: &mut [usize]) {
    for last in (1..list.len()).rev() {
        list.swap(last, random.below(last + 1));
    }
}
