//! One change in the middle or at the end of an order that is its own normal form
//! but for the advice: what it costs, where it should cost its segment and not the
//! body.

use std::time::Instant;

use second::generator::Random;
use second::refusal::LONGEST;

use crate::orders::{order_in, Manner, PLAIN};
use crate::sides::{Buffers, SIDES};
use crate::{opaque, SEED};

const ORDERS: usize = 300;

/// What is done to an order, by its name.
const CHANGES: [(&str, fn(&[u8]) -> Vec<u8>); 5] = [
    ("none", |order| order.to_vec()),
    ("one empty end", |order| with_in_the_middle(order, b"+")),
    ("one released separator", |order| with_in_the_middle(order, b"?+")),
    ("both", |order| with_in_the_middle(order, b"?++")),
    ("refused by 12 at its end", other_count),
];

/// Which of the sides are timed: ours, the rival and the second program.
const TIMED: [usize; 3] = [0, 1, 3];
const OPERATIONS: [&str; 2] = ["judge", "normalise"];

type Sums = [[[u64; TIMED.len()]; OPERATIONS.len()]; CHANGES.len()];

/// The order with these bytes before the terminator of the user segment that stands
/// in the middle. No character of it is released.
fn with_in_the_middle(order: &[u8], bytes: &[u8]) -> Vec<u8> {
    let mut at = 0;
    for segment in order.split_inclusive(|&byte| byte == b'\'') {
        at += segment.len();
        if at > order.len() / 2 && !segment.starts_with(b"UN") {
            break;
        }
    }
    [&order[..at - 1], bytes, &order[at - 1..]].concat()
}

/// The order with another count in UNZ.
fn other_count(order: &[u8]) -> Vec<u8> {
    let mut order = order.to_vec();
    let trailer = order.windows(4).rposition(|bytes| bytes == b"UNZ+").expect("a trailer");
    let digit = &mut order[trailer + 4];
    *digit = if *digit == b'9' { b'8' } else { b'9' };
    order
}

fn timed(operation: usize, side: usize, input: &[u8], buffers: &mut Buffers) -> u64 {
    let began = Instant::now();
    opaque(match operation {
        0 => (SIDES[side].judge)(opaque(input)),
        _ => (SIDES[side].normalise)(opaque(input), &mut buffers.0[side]),
    });
    began.elapsed().as_nanos() as u64
}

/// The shortest time of each change, operation and side; all take turns.
fn shortest(inputs: &[Vec<u8>], rounds: usize, buffers: &mut Buffers) -> Sums {
    let mut least = [[[u64::MAX; TIMED.len()]; OPERATIONS.len()]; CHANGES.len()];
    for _ in 0..rounds {
        for (input, least) in inputs.iter().zip(&mut least) {
            for (operation, least) in least.iter_mut().enumerate() {
                for (&side, least) in TIMED.iter().zip(least) {
                    *least = timed(operation, side, input, buffers).min(*least);
                }
            }
        }
    }
    least
}

/// Prints for each change ours in nanoseconds a byte, over the order without it, in
/// nanoseconds more an interchange, and over the rival and the second program.
pub fn report(rounds: usize) {
    let (mut random, mut buffers) = (Random::new(SEED), Buffers::new(LONGEST));
    let (mut bytes, mut sums) = (0, Sums::default());
    for _ in 0..ORDERS {
        let target = random.between(1_000, 30_000);
        let order = order_in(Manner { released: false, ..PLAIN }, &mut random, target);
        let inputs = CHANGES.map(|(_, change)| change(&order));
        let accepted = inputs.iter().filter(|input| buffers.agreed(input)).count();
        assert_eq!(accepted, CHANGES.len() - 1, "only the last is refused");
        bytes += order.len();
        let least = shortest(&inputs, rounds, &mut buffers);
        let least = least.iter().flatten().flatten();
        sums.iter_mut().flatten().flatten().zip(least).for_each(|(sum, least)| *sum += least);
    }
    println!(
        "{ORDERS} orders with one change: ns a byte, over no change, ns more an interchange, over \
         the rival's and over the second program's"
    );
    println!("{:<26}|{:^38}|{:^38}|", "", OPERATIONS[0], OPERATIONS[1]);
    for ((name, _), times) in CHANGES.iter().zip(&sums) {
        print!("{name:<26}");
        for (times, none) in times.iter().zip(&sums[0]) {
            let [ours, rival, second] = times.map(|time| time as f64);
            let none = none[0] as f64;
            let more = (ours - none) / ORDERS as f64;
            print!("|{:>8.2}{:>7.2}{more:>8.0}", ours / bytes as f64, ours / none);
            print!("{:>7.2}{:>7.2} ", ours / rival, ours / second);
        }
        println!("|");
    }
}
