//! Compare on pairs of orders: the same bytes, another spelling, one byte that differs.

use std::time::Instant;

use second::operations::{self, Comparison};

use second::generator::Random;

use crate::{opaque, orders, surface, SEED};

const PAIRS: usize = 600;

/// A kind of pair, by its name, and how its second input is made from the first.
const KINDS: [(&str, fn(&[u8]) -> Vec<u8>, bool); 3] = [
    ("the same bytes", |order| order.to_vec(), true),
    ("another spelling", normal_form, true),
    ("one byte differs", one_digit_changed, false),
];

fn normal_form(order: &[u8]) -> Vec<u8> {
    let mut form = vec![0; 2 * order.len() + 9];
    let length = operations::normalise(order, &mut form).expect("an order is accepted");
    form.truncate(length);
    form
}

/// The first digit from the middle on that can be another, so that the order is still accepted.
fn one_digit_changed(order: &[u8]) -> Vec<u8> {
    let digits = (order.len() / 2..order.len()).filter(|&at| order[at].is_ascii_digit());
    let mut changed = digits.map(|at| {
        let mut other = order.to_vec();
        other[at] = if other[at] == b'1' { b'2' } else { b'1' };
        other
    });
    changed.find(|other| operations::judge(other).is_ok()).expect("such a digit")
}

/// Prints, for each kind, the best time of ours and of the second program's, for each byte of the two inputs.
pub fn report(rounds: usize) {
    let mut random = Random::new(SEED);
    let mut order = || {
        let target = random.between(1_000, 30_000);
        orders::order(&mut random, target)
    };
    let orders: Vec<Vec<u8>> = (0..PAIRS).map(|_| order()).collect();
    println!("{:<20}{:>12}{:>12}{:>12}", "compare, ns a byte", "ours", "second's", "ratio");
    for (name, other, same) in KINDS {
        let (mut bytes, mut sums) = (0, [0u64; 2]);
        for order in &orders {
            let other = other(order);
            bytes += order.len() + other.len();
            let mut least = [u64::MAX; 2];
            for round in 0..rounds {
                for side in [round % 2, 1 - round % 2] {
                    let began = Instant::now();
                    let told = opaque(if side == 0 {
                        surface::is_same(opaque(order), opaque(&other))
                    } else {
                        matches!(
                            operations::compare(opaque(order), opaque(&other)),
                            Comparison::Same
                        )
                    });
                    least[side] = least[side].min(began.elapsed().as_nanos() as u64);
                    assert_eq!(told, same, "{name}");
                }
            }
            sums = [sums[0] + least[0], sums[1] + least[1]];
        }
        let [ours, second] = sums.map(|sum| sum as f64 / bytes as f64);
        println!("{name:<20}{ours:>12.2}{second:>12.2}{:>12.2}", ours / second);
    }
}
