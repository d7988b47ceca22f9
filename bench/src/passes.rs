//! What each pass of ours costs. Judge asks the stages in turn only where its one
//! walk finds something; so an order is spoiled where that walk begins, where it
//! ends, or not at all, and differences of such times are passes.

use std::time::Instant;

use second::refusal::{LEVEL, LONGEST, ORDER};

use crate::sides::Buffers;
use crate::{opaque, surface};

const PASSES: [&str; 5] = ["the walk", "8", "13", "Normalise", "(4 5 6)"];

/// What each pass costs, in nanoseconds a byte.
pub type Costs = [f64; PASSES.len()];

/// What is done to an order, and the number that refuses it then; 0 where nothing is
/// done.
struct Spoiled {
    number: u32,
    spoil: fn(&mut Vec<u8>),
}

/// The stages (4 5 6), asked in turn; these and 8; the walk to its end; what an accepted
/// order takes.
const SPOILED: [Spoiled; 4] = [
    Spoiled {
        number: LEVEL,
        spoil: |order| {
            other_second(order);
            other_level(order);
        },
    },
    Spoiled { number: ORDER, spoil: other_second },
    Spoiled { number: LEVEL, spoil: other_level },
    Spoiled { number: 0, spoil: |_| {} },
];

impl Spoiled {
    fn of(&self, order: &[u8]) -> Vec<u8> {
        let mut input = order.to_vec();
        (self.spoil)(&mut input);
        input
    }

    fn judged(&self, input: &[u8]) -> u64 {
        let began = Instant::now();
        let answer = opaque(surface::judge(opaque(input)));
        let time = began.elapsed().as_nanos() as u64;
        assert_eq!(answer.err().map_or(0, |refusal| refusal.number), self.number);
        time
    }
}

/// UNB names a level that there is not, which is asked after the walk.
fn other_level(order: &mut Vec<u8>) {
    let level = order.windows(3).position(|bytes| bytes == b"UNO");
    order[level.expect("an order names its level") + 3] = b'Y';
}

/// The segment behind UNB is a user segment, so that the walk ends there.
fn other_second(order: &mut Vec<u8>) {
    let second = order.windows(3).position(|tag| tag == b"UNH" || tag == b"UNG");
    order[second.expect("an order has a second segment")] = b'X';
}

fn normalised(input: &[u8], buffer: &mut [u8]) -> u64 {
    let began = Instant::now();
    let answer = opaque(surface::normalise(opaque(input), buffer));
    assert!(answer.is_ok());
    began.elapsed().as_nanos() as u64
}

/// The shortest times of an order, spoiled so and so, and of its Normalise.
fn shortest(order: &[u8], rounds: usize, buffers: &mut Buffers) -> Costs {
    let spoiled = SPOILED.map(|spoiled| spoiled.of(order));
    for (input, spoiled) in spoiled.iter().zip(&SPOILED) {
        assert_eq!(buffers.agreed(input), spoiled.number == 0);
    }
    let mut buffer = vec![0; LONGEST];
    let mut least = [u64::MAX; PASSES.len()];
    for _ in 0..rounds {
        for (number, input) in spoiled.iter().enumerate() {
            least[number] = least[number].min(SPOILED[number].judged(input));
        }
        let last = &mut least[SPOILED.len()];
        *last = (*last).min(normalised(order, &mut buffer));
    }
    least.map(|time| time as f64)
}

pub fn costs(orders: &[Vec<u8>], rounds: usize, buffers: &mut Buffers) -> Costs {
    let bytes: usize = orders.iter().map(Vec::len).sum();
    let mut sums = [0.0; PASSES.len()];
    for order in orders {
        let shortest = shortest(order, rounds, buffers);
        sums.iter_mut().zip(shortest).for_each(|(sum, time)| *sum += time);
    }
    let [segments, to_bytes, walked, judged, normalised] = sums.map(|sum| sum / bytes as f64);
    let (walk, level) = (walked, to_bytes - segments);
    [walk, level, judged - walk - level, normalised - judged, segments]
}

/// Prints what the passes cost in each flavour.
pub fn print(flavours: &[(&str, Costs)]) {
    println!(
        "passes, ns a byte: Judge's walk over the segments, 8, 13; what Normalise takes more than \
         Judge; (4 5 6), the first stage that is asked in turn where something is found"
    );
    print!("{:<30}", "");
    PASSES.iter().for_each(|pass| print!("{pass:>11}"));
    println!();
    for (name, costs) in flavours {
        print!("{name:<30}");
        costs.iter().for_each(|cost| print!("{cost:>11.2}"));
        println!();
    }
}
