//! Asks each operation once of an interchange of each family, for a tool that counts the
//! instructions of the calls (`bench/instructions.pl`): it prints a line for each call, in
//! their order, and times nothing.

use second::generator::Random;

use crate::families::{FAMILIES, SPOILED};
use crate::flavours::{Flavour, FLAVOURS};
use crate::programs::{shelve, Given, Room, OPERATIONS, PROGRAMS};
use crate::surface;

const SEED: u64 = 39;
/// So many bytes have the interchanges, or some more.
const BYTES: usize = 4_000;
/// The flavours that are counted beside the families.
const COUNTED: [&str; 5] = [
    "mixed orders",
    "one segment a line",
    "respelled, outside the level",
    "empty ends in each segment",
    "dense releases",
];

/// The tool counts what happens in here, and knows it by its name.
#[inline(never)]
#[no_mangle]
pub fn bench_counted(ask: &mut dyn FnMut()) {
    ask();
}

fn counted(family: &str, operation: &str, ask: &mut dyn FnMut()) {
    println!("{family}\t{operation}");
    bench_counted(ask);
}

fn input_of(family: &Flavour) -> Vec<u8> {
    family.input_of(&mut Random::new(SEED), BYTES)
}

/// All operations of ours on one accepted interchange.
fn count_all(family: &Flavour) {
    let mut rooms = [Room::new(), Room::new()];
    let given = Given::of(input_of(family));
    shelve(&given, &mut rooms);
    for operation in &OPERATIONS {
        let mut told = None;
        counted(family.name, operation.name, &mut || {
            told = Some((operation.ask)(&PROGRAMS[0], &given, &mut rooms[0]));
        });
        assert!(told.map_or(false, |told| told.is_as_wanted()), "{}", operation.name);
    }
}

/// Judge of what is refused.
fn count_refused(family: &Flavour) {
    for spoiled in &SPOILED {
        let mut input = input_of(family);
        (spoiled.spoil)(&mut input);
        let mut number = 0;
        let name = format!("judge, {}", spoiled.name);
        counted(family.name, &name, &mut || {
            number = surface::judge(&input).err().map_or(0, |refusal| refusal.number);
        });
        assert_eq!(number, spoiled.number, "{name}");
    }
}

pub fn report(_: usize) {
    let flavours = FLAVOURS.iter().filter(|flavour| COUNTED.contains(&flavour.name));
    flavours.clone().chain(&FAMILIES).for_each(count_all);
    flavours.filter(|flavour| !flavour.name.contains("respelled")).for_each(count_refused);
}
