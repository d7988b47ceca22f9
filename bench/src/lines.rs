//! The same orders with one segment a line: CR LF after the advice and after
//! each terminator.
//!
//! Change request 2026-01, "Line breaks between segments".

use std::time::Instant;

use second::generator::{in_lines, Random};
use second::operations;
use second::refusal::LONGEST;

use crate::sides::Buffers;
use crate::{opaque, orders, surface, SEED};

const INTERCHANGES: usize = 10_000;
const NAMES: [&str; 4] = ["judge", "second's judge", "normalise", "second's normalise"];

/// An order and the same in lines, which is not too long for an input.
fn both(random: &mut Random) -> [Vec<u8>; 2] {
    loop {
        let target = random.between(1_000, 30_000);
        let order = orders::order(random, target);
        let lines = in_lines(&order);
        if lines.len() <= LONGEST {
            return [order, lines];
        }
    }
}

/// For each function its shortest time on each of the two inputs.
fn least(inputs: &[Vec<u8>; 2], rounds: usize, buffers: &mut Buffers) -> [[u64; 2]; 4] {
    let [ours, .., theirs] = &mut buffers.0;
    let mut least = [[u64::MAX; 2]; 4];
    for round in 0..rounds {
        for turn in 0..8 {
            let (function, side) = ((turn + round) / 2 % 4, (turn + round) % 2);
            let input = &inputs[side];
            let began = Instant::now();
            match function {
                0 => drop(opaque(surface::judge(opaque(input)))),
                1 => drop(opaque(operations::judge(opaque(input)))),
                2 => drop(opaque(surface::normalise(opaque(input), ours))),
                _ => drop(opaque(operations::normalise(opaque(input), theirs))),
            }
            let time = began.elapsed().as_nanos() as u64;
            least[function][side] = least[function][side].min(time);
        }
    }
    least
}

/// Prints, for each function, the best time without breaks and with them, for
/// each byte of the order without breaks, and how they relate; then ours over
/// the second program's.
pub fn report(rounds: usize) {
    let (mut random, mut buffers) = (Random::new(SEED), Buffers::new(LONGEST));
    let (mut bytes, mut sums) = ([0; 2], [[0u64; 2]; 4]);
    for _ in 0..INTERCHANGES {
        let inputs = both(&mut random);
        assert!(inputs.iter().all(|input| buffers.agreed(input)), "an order is refused");
        assert!(surface::is_same(&inputs[0], &inputs[1]), "not the same");
        for (sums, least) in sums.iter_mut().zip(least(&inputs, rounds, &mut buffers)) {
            *sums = [sums[0] + least[0], sums[1] + least[1]];
        }
        bytes = [bytes[0] + inputs[0].len(), bytes[1] + inputs[1].len()];
    }
    let [one_line, in_lines] = bytes;
    println!(
        "{INTERCHANGES} orders, {one_line} bytes, and in lines {in_lines} bytes: accepted, and the same"
    );
    println!("{:<20}{:>12}{:>12}{:>12}", "ns a byte", "one line", "in lines", "ratio");
    let times = sums.map(|sums| sums.map(|sum| sum as f64 / one_line as f64));
    for (name, [one_line, in_lines]) in NAMES.iter().zip(times) {
        println!("{name:<20}{one_line:>12.2}{in_lines:>12.2}{:>12.3}", in_lines / one_line);
    }
    for (name, ours) in [("ratio judge", 0), ("ratio normalise", 2)] {
        let ratio = |side: usize| times[ours][side] / times[ours + 1][side];
        println!("{name:<20}{:>12.2}{:>12.2}", ratio(0), ratio(1));
    }
}
