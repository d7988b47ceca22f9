//! Times the proved operations, in one run: Judge, Normalise and Compare against
//! the rival's and the second program's, on ten thousand interchanges in flavours;
//! families that stand out, and what is refused; all operations against the second
//! program's, on the same interchanges; what one change to an order costs; Compare on pairs; orders in lines; the shelf's operations
//! against Judge over the kept texts; Report over mailbox files; Write over lists that
//! look dear. A benchmark, not a test.
//!
//! `bench [ROUNDS] [PART]`: the best of so many rounds, in which all that is
//! compared takes turns; of all parts, or of one of those in `PARTS`. `bench count` calls
//! each operation once, for a tool that counts instructions.

mod aims;
mod cliffs;
mod count;
mod families;
mod files;
mod flavours;
mod lines;
mod operations;
mod orders;
mod pairs;
mod passes;
mod programs;
mod shelf;
mod sides;
mod spellings;
mod surface;
mod table;
mod traps;

use std::time::Instant;

use second::generator::{any_input, Random};
use second::refusal::LONGEST;

use sides::Buffers;

const SEED: u64 = 9735;
/// Inputs of the second program's generator, valid and damaged, that only the
/// answers are compared on.
const OTHER_INPUTS: usize = 20_000;
const ROUNDS: usize = 5;

/// The parts by their names.
const PARTS: [(&str, fn(usize)); 10] = [
    ("flavours", table::report),
    ("families", families::report),
    ("refused", families::report_refused),
    ("operations", operations::report),
    ("cliffs", cliffs::report),
    ("pairs", pairs::report),
    ("lines", lines::report),
    ("shelf", shelf::report),
    ("files", files::report),
    ("traps", traps::report),
];

fn main() {
    let mut rounds = ROUNDS;
    let mut part = None;
    for word in std::env::args().skip(1) {
        match word.parse() {
            Ok(number) => rounds = number,
            Err(_) => part = Some(word),
        }
    }
    if part.as_deref() == Some("count") {
        return count::report(rounds);
    }
    let wanted = |name: &str| part.as_ref().map_or(true, |part| part == name);
    assert!(
        rounds > 0 && PARTS.iter().any(|(name, _)| wanted(name)),
        "usage: bench [ROUNDS] [PART]"
    );
    let began = Instant::now();
    hold_to_one_another();
    for (name, report) in PARTS.iter().filter(|(name, _)| wanted(name)) {
        println!("\n{name}");
        report(rounds);
    }
    println!("\n{rounds} rounds, {} seconds", began.elapsed().as_secs());
}

/// Before anything is timed.
fn hold_to_one_another() {
    let mut random = Random::new(SEED);
    let mut buffers = Buffers::new(LONGEST);
    let accepted = (0..OTHER_INPUTS).filter(|_| buffers.agreed(&any_input(&mut random))).count();
    println!(
        "{OTHER_INPUTS} inputs, {accepted} accepted: the answers and buffers are the same on all"
    );
}

/// The value, of which the compiler knows nothing any more: it leaves nothing
/// out for what the value is, or because nobody looks at it.
fn opaque<T: Copy>(value: T) -> T {
    // SAFETY: the reference is to a value that lives, and that may be copied.
    unsafe { std::ptr::read_volatile(&value) }
}
