//! All operations that take an interchange, ours over the second program's, on the
//! workload of `flavours`.

use std::time::Instant;

use second::generator::Random;

use crate::flavours::{Flavour, FLAVOURS};
use crate::opaque;
use crate::programs::{shelve, Given, Room, Told, OPERATIONS, PROGRAMS};
use crate::table::SEED;

/// At most so much of the second program's time is to be taken.
const AIM: f64 = 1.0;

/// Over the interchanges of a flavour: their bytes, and the nanoseconds of each
/// operation and program.
#[derive(Clone, Copy, Default)]
struct Sums {
    bytes: usize,
    times: [[u64; PROGRAMS.len()]; OPERATIONS.len()],
}

impl Sums {
    fn add(&mut self, more: &Sums) {
        self.bytes += more.bytes;
        let more = more.times.iter().flatten();
        self.times.iter_mut().flatten().zip(more).for_each(|(sum, more)| *sum += more);
    }

    /// Ours over the second program's, of each operation.
    fn ratios(&self) -> Figures {
        self.times.map(|[ours, second]| ours as f64 / second as f64)
    }

    /// Our nanoseconds for each byte of the interchange, of each operation.
    fn a_byte(&self) -> Figures {
        self.times.map(|[ours, _]| ours as f64 / self.bytes as f64)
    }
}

type Figures = [f64; OPERATIONS.len()];

/// Asks a program for an operation: what it says, and the nanoseconds.
fn timed<'a>(
    operation: usize,
    program: usize,
    given: &'a Given,
    room: &mut Room,
) -> (Told<'a>, u64) {
    let began = Instant::now();
    let told = opaque((OPERATIONS[operation].ask)(&PROGRAMS[program], opaque(given), room));
    (told, began.elapsed().as_nanos() as u64)
}

/// The shortest of so many rounds, in which all take turns. In each of them both programs
/// say the same, and after the first all of their buffers are the same, or the run ends.
fn shortest(given: &Given, rounds: usize, rooms: &mut [Room; 2]) -> Sums {
    let mut times = [[u64::MAX; PROGRAMS.len()]; OPERATIONS.len()];
    shelve(given, rooms);
    for round in 0..rounds {
        for number in 0..OPERATIONS.len() {
            let number = (number + 5 * round) % OPERATIONS.len();
            let mut both = [None; 2];
            for program in [round % 2, 1 - round % 2] {
                let (told, time) = timed(number, program, given, &mut rooms[program]);
                times[number][program] = time.min(times[number][program]);
                both[program] = Some(told);
            }
            assert_eq!(both[0], both[1], "{}", OPERATIONS[number].name);
            assert!(both[0].map_or(false, |told| told.is_as_wanted()), "{both:?}");
        }
        assert!(round > 0 || rooms[0] == rooms[1], "the buffers differ");
    }
    Sums { bytes: given.input.len(), times }
}

fn sums_of(flavour: &Flavour, seed: u64, rounds: usize, rooms: &mut [Room; 2]) -> Sums {
    let mut sums = Sums::default();
    for input in flavour.inputs(&mut Random::new(seed)) {
        sums.add(&shortest(&Given::of(input), rounds, rooms));
    }
    sums
}

/// Prints one line: below each operation's name what it says of it.
fn print_row(name: &str, cells: [String; OPERATIONS.len()]) {
    print!("{name:<29}");
    for (operation, cell) in OPERATIONS.iter().zip(cells) {
        print!("{cell:>width$}", width = operation.name.len().max(4) + 2);
    }
    println!();
}

fn print_figures(name: &str, figures: Figures) {
    print_row(name, figures.map(|figure| format!("{figure:.2}")));
}

fn print_heading() {
    print_row("", std::array::from_fn(|number| OPERATIONS[number].name.to_string()));
}

/// Prints each operation's aim, the highest ratio, and the flavour that has it.
fn print_aims(rows: &[(&str, Sums)]) {
    println!("{:<36}{:>8}{:>8}", "aims", "at most", "is");
    for (number, operation) in OPERATIONS.iter().enumerate() {
        let ratios = rows.iter().map(|(name, sums)| (name, sums.ratios()[number]));
        let highest = ratios.max_by(|one, other| one.1.total_cmp(&other.1));
        let (flavour, ratio) = highest.expect("there are flavours");
        let met = if ratio <= AIM { "" } else { ": not met" };
        let name = format!("{} over the second's", operation.name);
        println!("{name:<36}{AIM:>8.1}{ratio:>8.2}  {flavour}{met}");
    }
}

/// Prints ours over the second program's, what became of the aims, and our times.
pub fn report(rounds: usize) {
    let mut rooms = [Room::new(), Room::new()];
    let (mut all, mut rows) = (Sums::default(), Vec::new());
    println!(
        "Ours over the second program's, the shortest of {rounds} rounds. Compare and Keep: the \
         interchange and its other spelling. Locate: the value in the middle of its list. Write: \
         the list that Read gives. Import: the text that Export gives. Put: a copy, onto a shelf \
         that keeps the interchange. Report: a file of the interchange alone"
    );
    print_heading();
    for (number, flavour) in FLAVOURS.iter().enumerate() {
        let sums = sums_of(flavour, SEED + number as u64, rounds, &mut rooms);
        print_figures(flavour.name, sums.ratios());
        all.add(&sums);
        rows.push((flavour.name, sums));
    }
    print_figures("all of them", all.ratios());
    print_aims(&rows);
    println!("Ours, ns for each byte of the interchange");
    print_heading();
    rows.push(("all of them", all));
    rows.iter().for_each(|(name, sums)| print_figures(name, sums.a_byte()));
}
