//! Tables for Write with wild numbers: kinds that there are not, sums past 32
//! bits, values that overlap and that stand in no order.
//!
//! Paper, refusal 15.

use second::generator::Random;

/// Changes one to three records of the table of a list of so many bytes.
pub fn make_wild(random: &mut Random, table: &mut [u32], byte_count: u32) {
    let records = table.len() / 3;
    if records == 0 {
        return;
    }
    for _ in 0..random.between(1, 3) {
        let number = random.below(records) * 3;
        let other = random.below(records) * 3;
        match random.below(6) {
            0 => table[number] = random.pick(&[0, 1, 2, 3, 4, 256, 1 << 31, u32::MAX]),
            1 => table[number + 1] = wild_number(random, byte_count),
            2 => table[number + 2] = wild_number(random, byte_count),
            3 => {
                let (start, length) = wild_sum(random, byte_count);
                table[number + 1] = start;
                table[number + 2] = length;
            }
            // out of order: two values change places
            4 => {
                table.swap(number + 1, other + 1);
                table.swap(number + 2, other + 2);
            }
            // overlapping: one value is also another, and more
            _ => {
                table[number + 1] = table[other + 1].saturating_sub(1);
                table[number + 2] = table[other + 2].saturating_add(1);
            }
        }
    }
}

fn wild_number(random: &mut Random, byte_count: u32) -> u32 {
    let any = random.below(byte_count as usize + 1) as u32;
    random.pick(&[0, any, any, byte_count, byte_count + 1, 1 << 31, u32::MAX - 1, u32::MAX])
}

/// A start and a length whose sum is the byte count, one more, or 2^32 and a
/// little, which a sum of 32 bits would take for a little.
fn wild_sum(random: &mut Random, byte_count: u32) -> (u32, u32) {
    let start = random.below(byte_count as usize + 1) as u32;
    match random.below(5) {
        0 => (start, byte_count - start),
        1 => (start, byte_count - start + 1),
        2 => (start.max(1), start.max(1).wrapping_neg()),
        3 => (u32::MAX - start, start + random.below(3) as u32),
        _ => (u32::MAX, u32::MAX - start),
    }
}
