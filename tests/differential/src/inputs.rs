//! Inputs of every sort: the second program's (valid, damaged, soups, about
//! the limits) and any bytes; and numbers to locate in them.

use second::generator::{any_input, Random};
use second::value_list::{NEW_ELEMENT, NEW_SEGMENT, NEXT_REPEAT, RECORD};

use crate::call::Numbers;

pub fn input(random: &mut Random) -> Vec<u8> {
    match random.below(100) {
        0..=91 => any_input(random),
        92..=94 => any_bytes(random),
        _ => any_bytes_after_a_beginning(random),
    }
}

fn any_bytes(random: &mut Random) -> Vec<u8> {
    let length = random.pick(&[0, 1, 2, 3, 4, 8, 9, 10, 12, 13, 40, 300, 1_000]);
    random.bytes(length)
}

fn any_bytes_after_a_beginning(random: &mut Random) -> Vec<u8> {
    let beginnings: [&[u8]; 5] = [
        b"UNA",
        b"UNA:+.? '",
        b"UNA;*,  ~UNB*",
        b"UNB+UNOA:1+",
        b"UNB\x1dUNOB\x1f2\x1d\x1d\x1d\x1d1\x1c",
    ];
    let mut input = random.pick(&beginnings).to_vec();
    input.extend(any_bytes(random));
    input
}

/// Numbers that no interchange has; the least that 32 bits do not hold is
/// among them.
const WILD: [usize; 10] = [
    usize::MAX,
    usize::MAX - 1,
    1 << 63,
    1 << 32,
    (1 << 32) + 1,
    u32::MAX as usize,
    1 << 31,
    1 << 16,
    32_000,
    32_001,
];

/// The numbers of some value of this table.
fn of_value(random: &mut Random, table: &[u32]) -> Numbers {
    let last = random.below(table.len() / RECORD);
    let mut numbers = [0; 4];
    for (number, record) in table.chunks(RECORD).enumerate().take(last + 1) {
        numbers = match (number, record[0]) {
            (0, _) => numbers,
            (_, NEW_SEGMENT) => [numbers[0] + 1, 0, 0, 0],
            (_, NEW_ELEMENT) => [numbers[0], numbers[1] + 1, 0, 0],
            (_, NEXT_REPEAT) => [numbers[0], numbers[1], numbers[2] + 1, 0],
            _ => [numbers[0], numbers[1], numbers[2], numbers[3] + 1],
        };
    }
    numbers
}

/// Numbers of a value that this table of the contents has, or next to it, or
/// wild.
pub fn numbers(random: &mut Random, table: &[u32]) -> Numbers {
    let mut numbers = of_value(random, table);
    let place = random.below(4);
    match random.below(10) {
        0 => numbers[place] = random.pick(&WILD),
        // all but the low 32 bits are wild
        1 => numbers[place] |= random.pick(&[1 << 32, 1 << 63, usize::MAX << 32]),
        2 => numbers = [0; 4].map(|_: usize| random.pick(&WILD)),
        3 | 4 => numbers[place] += 1,
        _ => {}
    }
    numbers
}
