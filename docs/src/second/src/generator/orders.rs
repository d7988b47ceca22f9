//! Lists of accepted interchanges in two random orders, and a shelf with room
//! for all of them.
//!
//! Change request 2026-13, "Two networks, either order". A copy needs neither a
//! slot nor bytes (2026-04), so that some of the shelves have room only for the
//! different texts that are new.

use std::collections::BTreeSet;

use super::random::Random;
use super::{any_valid, same_contents, spelled, Draft};
use crate::judging::accept;
use crate::shelf::{put, remove, start, SLOTS, SMALLEST};

/// A sound shelf, and the same interchanges in two orders.
#[derive(Clone, Debug)]
pub struct TwoOrders {
    pub shelf: Vec<u8>,
    pub one: Vec<Vec<u8>>,
    pub other: Vec<Vec<u8>>,
}

/// A valid draft's normal form.
fn form(draft: &Draft) -> Vec<u8> {
    accept(&draft.spelled()).map_or(Vec::new(), |accepted| accepted.normal_form())
}

/// The draft in some spelling.
fn any_spelling(random: &mut Random, draft: &Draft) -> Vec<u8> {
    let other = same_contents(random, draft);
    spelled(random, &other)
}

fn shuffled<T: Clone>(random: &mut Random, list: &[T]) -> Vec<T> {
    let mut shuffled = list.to_vec();
    for last in (1..shuffled.len()).rev() {
        shuffled.swap(last, random.below(last + 1));
    }
    shuffled
}

/// A shelf of this size that keeps these drafts, but for some that were removed
/// again, with any number of duplicates found.
fn shelf_with(random: &mut Random, size: usize, drafts: &[Draft]) -> Vec<u8> {
    let mut shelf = random.bytes(size);
    let mut done = start(&mut shelf).is_ok();
    for draft in drafts {
        done = done && put(&mut shelf, &draft.spelled()).is_ok();
    }
    assert!(done, "the shelf has room for what it keeps");
    for _ in 0..random.pick(&[0, 0, 0, 1, 2, 5]) {
        // nothing where the slot is free
        let slot = random.below(drafts.len() + 1);
        let _ = remove(&mut shelf, slot);
    }
    let any = random.number() as u32;
    let figure = random.pick(&[0, 0, 1, any, u32::MAX - 1, u32::MAX]);
    shelf[17..21].copy_from_slice(&figure.to_be_bytes());
    shelf
}

/// Two interchanges or more: new ones, spellings of one another, and spellings
/// of what the shelf keeps. There are free slots and free bytes for the normal
/// forms of all, or for those that are new, often no more. The two orders differ.
pub fn two_orders(random: &mut Random) -> TwoOrders {
    loop {
        let orders = any_two(random);
        if orders.one != orders.other {
            return orders;
        }
    }
}

/// The same, but the two orders may be the same.
fn any_two(random: &mut Random) -> TwoOrders {
    let count = random.pick(&[2, 2, 2, 2, 3, 4, 6, 10]);
    let new = random.between(0, count);
    let fresh: Vec<Draft> = (0..new).map(|_| any_valid(random)).collect();
    let slots = random.pick(&[count, new]);
    let there = random.pick(&[0, 1, 2, 5, SLOTS - slots, SLOTS - slots]);
    let there = if new == 0 { there.max(1) } else { there };
    let kept: Vec<Draft> = (0..there).map(|_| any_valid(random)).collect();
    let mut drafts = fresh.clone();
    while drafts.len() < count {
        let of_kept = fresh.is_empty() || !kept.is_empty() && random.chance(50);
        let from = if of_kept { &kept } else { &fresh };
        drafts.push(random.pick(from));
    }
    let forms: Vec<Vec<u8>> = kept.iter().chain(&drafts).map(form).collect();
    let different: BTreeSet<&Vec<u8>> = forms.iter().collect();
    let all_bytes: usize = forms.iter().map(Vec::len).sum();
    let different_bytes: usize = different.iter().map(|form| form.len()).sum();
    let size = SMALLEST + random.pick(&[all_bytes, different_bytes]) + random.pick(&[0, 0, 1, 100]);
    let shelf = shelf_with(random, size, &kept);
    let inputs: Vec<Vec<u8>> = drafts.iter().map(|draft| any_spelling(random, draft)).collect();
    let one = shuffled(random, &inputs);
    let other = match count {
        2 => vec![one[1].clone(), one[0].clone()],
        _ => shuffled(random, &inputs),
    };
    TwoOrders { shelf, one, other }
}
