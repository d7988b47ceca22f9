//! Ours, the rival and the second program on the flavours: the shortest times,
//! how they relate, and a file of them for the picture.

use std::time::Instant;

use second::generator::Random;
use second::refusal::LONGEST;

use crate::flavours::FLAVOURS;
use crate::sides::{Buffers, SIDES};
use crate::spellings::{other_spelling, respelled};
use crate::{aims, opaque, passes};

pub const SEED: u64 = 202609;
/// Where the file stands.
const FIGURES: &str = concat!(env!("CARGO_MANIFEST_DIR"), "/../docs/performance.tsv");

/// What is timed of an interchange, its other spelling, and the same respelled.
#[derive(Clone, Copy)]
enum Turn {
    Judge,
    Normalise,
    NormaliseOther,
    NormaliseRespelled,
    Compare,
    CompareEqual,
    CompareRespelled,
}
use Turn::*;
const TURNS: [Turn; 7] =
    [Judge, Normalise, NormaliseOther, NormaliseRespelled, Compare, CompareEqual, CompareRespelled];

/// What the table and the file have of each side.
pub const OPERATIONS: [&str; 7] = [
    "judge",
    "normalise",
    "normalise both",
    "compare",
    "compare equal",
    "normalise both, respelled",
    "compare respelled",
];
pub const JUDGE: usize = 0;
pub const NORMALISE: usize = 1;
pub const NORMALISE_BOTH: usize = 2;
pub const COMPARE: usize = 3;
pub const COMPARE_EQUAL: usize = 4;
pub const NORMALISE_BOTH_RESPELLED: usize = 5;
pub const COMPARE_RESPELLED: usize = 6;

/// For each operation and side the nanoseconds a byte: those of both inputs where
/// the operation has both.
pub type Times = [[f64; SIDES.len()]; OPERATIONS.len()];

/// Over the interchanges of a flavour: their bytes, those of their other spellings and
/// of the same respelled, and the nanoseconds of each turn and side.
#[derive(Clone, Copy, Default)]
struct Sums {
    bytes: [usize; 3],
    times: [[u64; SIDES.len()]; TURNS.len()],
}

impl Sums {
    fn add(&mut self, more: &Sums) {
        self.bytes.iter_mut().zip(more.bytes).for_each(|(sum, more)| *sum += more);
        let more = more.times.iter().flatten();
        self.times.iter_mut().flatten().zip(more).for_each(|(sum, more)| *sum += more);
    }

    fn a_byte(&self) -> Times {
        let [one, other, respelled] = self.bytes;
        let figure = |turns: &[Turn], bytes: usize| {
            std::array::from_fn(|side| {
                let time: u64 = turns.iter().map(|&turn| self.times[turn as usize][side]).sum();
                time as f64 / bytes as f64
            })
        };
        [
            figure(&[Judge], one),
            figure(&[Normalise], one),
            figure(&[Normalise, NormaliseOther], one + other),
            figure(&[Compare], one + other),
            figure(&[CompareEqual], one),
            figure(&[Normalise, NormaliseRespelled], one + respelled),
            figure(&[CompareRespelled], one + respelled),
        ]
    }
}

/// An input, its other spelling, the same respelled, and a copy.
type Inputs<'a> = [&'a [u8]; 4];

fn run(turn: Turn, side: usize, inputs: Inputs, buffers: &mut Buffers) -> bool {
    let [input, other, respelled, copy] = inputs;
    match turn {
        Judge => (SIDES[side].judge)(input),
        Normalise => (SIDES[side].normalise)(input, &mut buffers.0[side]),
        NormaliseOther => (SIDES[side].normalise)(other, &mut buffers.0[side]),
        NormaliseRespelled => (SIDES[side].normalise)(respelled, &mut buffers.0[side]),
        Compare => (SIDES[side].is_same)(input, other),
        CompareEqual => (SIDES[side].is_same)(input, copy),
        CompareRespelled => (SIDES[side].is_same)(input, respelled),
    }
}

/// The shortest of so many rounds, in which all take turns.
fn shortest(inputs: Inputs, rounds: usize, buffers: &mut Buffers) -> Sums {
    let mut least = [[u64::MAX; SIDES.len()]; TURNS.len()];
    let turns = TURNS.len() * SIDES.len();
    for round in 0..rounds {
        for number in 0..turns {
            let number = (number + 9 * round) % turns;
            let (turn, side) = (TURNS[number / SIDES.len()], number % SIDES.len());
            let began = Instant::now();
            let holds = opaque(run(turn, side, opaque(inputs), buffers));
            let time = began.elapsed().as_nanos() as u64;
            assert!(holds, "turn {} of {}", turn as usize, SIDES[side].name);
            let least = &mut least[turn as usize][side];
            *least = time.min(*least);
        }
    }
    Sums { bytes: std::array::from_fn(|number| inputs[number].len()), times: least }
}

fn sums_of(inputs: &[Vec<u8>], rounds: usize, buffers: &mut Buffers) -> Sums {
    let mut sums = Sums::default();
    for input in inputs {
        let (other, respelled, copy) = (other_spelling(input), respelled(input), input.clone());
        let inputs: Inputs = [input, &other, &respelled, &copy];
        assert!(inputs[..3].iter().all(|input| buffers.agreed(input)), "an order is refused");
        sums.add(&shortest(inputs, rounds, buffers));
    }
    sums
}

/// What the table says of a flavour: ratios, then nanoseconds a byte.
fn row(name: &str, times: &Times) -> String {
    let mut row = format!("{name:<29}");
    for [ours, others @ ..] in [JUDGE, NORMALISE, COMPARE].map(|number| &times[number]) {
        row.push_str(" |");
        others.iter().for_each(|other| row.push_str(&format!("{:>6.2}", ours / other)));
    }
    let over_two = times[COMPARE][0] / times[NORMALISE_BOTH][0];
    let respelled = times[COMPARE_RESPELLED][0] / times[NORMALISE_BOTH_RESPELLED][0];
    let over_judge = times[COMPARE_EQUAL][0] / times[JUDGE][0];
    row.push_str(&format!(" |{over_two:>6.2}{respelled:>6.2}{over_judge:>6.2} |"));
    for sides in [JUDGE, NORMALISE].map(|number| &times[number]) {
        sides.iter().for_each(|time| row.push_str(&format!("{time:>6.2}")));
        row.push_str(" |");
    }
    row
}

/// The figures of a flavour, in one line of the file.
fn line(name: &str, times: &Times) -> String {
    let figures = times.iter().flatten().map(|time| format!("\t{time:.3}"));
    name.to_string() + &figures.collect::<String>() + "\n"
}

fn heading() -> String {
    let names = OPERATIONS.iter().flat_map(|operation| {
        SIDES.iter().map(move |side| format!("\t{operation}, {}", side.name))
    });
    "flavour".to_string() + &names.collect::<String>() + "\n"
}

fn print_heading(count: usize, rounds: usize) {
    println!(
        "{count} interchanges of 1 to 30 KB, the shortest of {rounds} rounds. Ours over the rival's, \
         over the rival's by bytes, over the second program's; our Compare over our two Normalises, \
         of the interchange and its normal form, and of the interchange and the same respelled (an \
         advice with `*%!&`, or with `<>=\"` where it has these), of equal bytes over our Judge; ns a \
         byte of all four"
    );
    println!(
        "{:<30}|{:^19}|{:^19}|{:^19}|{:^19}|{:^25}|{:^25}|",
        "", "judge", "normalise", "compare", "form  resp. equal", "judge, ns", "normalise, ns"
    );
}

/// Prints the table, what became of the aims, and what each pass costs in each
/// flavour; stores the figures.
pub fn report(rounds: usize) {
    let mut buffers = Buffers::new(LONGEST);
    let (mut all, mut rows, mut passes) = (Sums::default(), Vec::new(), Vec::new());
    print_heading(FLAVOURS.iter().map(|flavour| flavour.count).sum(), rounds);
    for (number, flavour) in FLAVOURS.iter().enumerate() {
        let inputs = flavour.inputs(&mut Random::new(SEED + number as u64));
        let sums = sums_of(&inputs, rounds, &mut buffers);
        println!("{}", row(flavour.name, &sums.a_byte()));
        all.add(&sums);
        rows.push((flavour.name, sums.a_byte()));
        passes.push((flavour.name, passes::costs(&inputs[..100], rounds, &mut buffers)));
    }
    println!("{}", row("all of them", &all.a_byte()));
    aims::print(&rows);
    passes::print(&passes);
    rows.push(("all of them", all.a_byte()));
    let lines: String = rows.iter().map(|(name, times)| line(name, times)).collect();
    std::fs::write(FIGURES, heading() + &lines).expect("the figures can be stored");
}
