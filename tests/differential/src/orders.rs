//! Two networks, either order: lists of accepted interchanges are put on a shelf in
//! two random orders, by the surface and by the wrapper, and must leave the same
//! kept texts, bytes held and duplicates figure, and in each order answer what the
//! second program answers and leave the bytes that it leaves.
//!
//! Change request 2026-13, "Two networks, either order".

use second::either_order::{check_orders, After, PutOperation, Sorts};
use second::generator::{two_orders, Random};
use second::refusal::{Answer, Refusal};
use second::shelf::Put;

use crate::shelf::sides::{Operations, SECOND, SURFACE, WRAPPER};

/// What occurred.
#[derive(Default)]
pub struct Counts {
    lists: u64,
    puts: u64,
    copies: u64,
    sorts: Sorts,
}

impl Counts {
    pub fn summary(&self) -> String {
        let Counts { lists, puts, copies, .. } = self;
        format!(
            "{lists} lists in two orders, {puts} puts, {copies} of them of copies: \
             the same texts, bytes held and duplicates"
        )
    }

    /// What the second program answered to a list.
    fn add(&mut self, told: &After) {
        self.puts += told.answers.len() as u64;
        let is_copy = |answer: &&Put| matches!(answer, Put::Found(_));
        self.copies += told.answers.iter().filter(is_copy).count() as u64;
    }
}

/// Puts by one of the sides, with the second program's type for the answer. What is
/// neither new nor a copy is no answer of a slot, and so a refusal, of whatever number.
fn put(side: &Operations, shelf: &mut [u8], input: &[u8]) -> Answer<Put> {
    let told = (side.put)(shelf, input);
    match (told.number, told.added) {
        (0, 1) => Ok(Put::New(told.slot)),
        (0, 0) => Ok(Put::Found(told.slot)),
        (number, _) => Err(Refusal { place: told.place, number }),
    }
}

const SIDES: [(&str, PutOperation); 2] = [
    ("the surface", |shelf, input| put(&SURFACE, shelf, input)),
    ("the wrapper", |shelf, input| put(&WRAPPER, shelf, input)),
];

fn second_put(shelf: &mut [u8], input: &[u8]) -> Answer<Put> {
    put(&SECOND, shelf, input)
}

/// So many lists; what occurred, or the first that is not as it should be.
pub fn run(seed: u64, count: u64) -> Result<Counts, String> {
    run_with(&SIDES, seed, count)
}

fn run_with(sides: &[(&str, PutOperation)], seed: u64, count: u64) -> Result<Counts, String> {
    let mut random = Random::new(seed);
    let mut counts = Counts::default();
    for number in 1..=count {
        let orders = two_orders(&mut random);
        let place = |name: &str, what: String| format!("list {number}, {name}: {what}");
        let second =
            check_orders(second_put, &orders).map_err(|what| place("the second program", what))?;
        for (name, put) in sides {
            let told = check_orders(*put, &orders).map_err(|what| place(name, what))?;
            let both = told.iter().zip(&second);
            for (told, second) in both {
                same(told, second).map_err(|what| place(name, what))?;
            }
        }
        counts.lists += 1;
        second.iter().for_each(|told| counts.add(told));
        counts.sorts.count(&orders, &second)?;
    }
    Ok(counts)
}

/// The same answers, and the same bytes.
fn same(told: &After, second: &After) -> Result<(), String> {
    if told.answers != second.answers {
        return Err(format!("{:?}, the second program {:?}", told.answers, second.answers));
    }
    match told.shelf == second.shelf {
        true => Ok(()),
        false => Err("the second program leaves other bytes".to_string()),
    }
}

#[cfg(test)]
mod tests {
    use super::*;
    use second::either_order::DIFFERENT;

    const COUNT: u64 = 300;

    #[test]
    fn the_second_program_agrees_with_itself_and_every_sort_occurs() {
        let counts = run_with(&[("it", second_put)], 1, COUNT).expect("one side is the other");
        assert!(counts.copies > 0 && counts.copies < counts.puts);
        assert!(counts.sorts.have(2), "{:?}", counts.sorts);
    }

    /// Whether the comparison of the two orders, and nothing else, says of one of
    /// the lists that they leave different things.
    fn orders_differ(put: PutOperation) -> bool {
        let mut random = Random::new(1);
        let mut told = (0..COUNT).map(|_| check_orders(put, &two_orders(&mut random)));
        told.any(|told| told == Err(DIFFERENT.to_string()))
    }

    #[test]
    fn a_text_that_only_the_first_order_keeps_is_seen() {
        // a text of an odd length is not kept where another was put before it
        let put: PutOperation = |shelf, input| {
            let before = shelf.to_vec();
            let told = second_put(shelf, input);
            if input.len() % 2 == 1 && before[5..13].iter().any(|&byte| byte > 0) {
                shelf.copy_from_slice(&before);
            }
            told
        };
        assert!(orders_differ(put));
        assert!(run_with(&[("it", put)], 1, COUNT).is_err());
    }

    #[test]
    fn a_duplicate_that_is_not_counted_is_seen() {
        let put: PutOperation = |shelf, input| {
            let figure = shelf[17..21].to_vec();
            let told = second_put(shelf, input);
            if input.len() % 2 == 1 {
                shelf[17..21].copy_from_slice(&figure);
            }
            told
        };
        assert!(orders_differ(put));
        assert!(run_with(&[("it", put)], 1, COUNT).is_err());
    }

    #[test]
    fn an_answer_that_is_not_the_second_programs_is_seen() {
        // the shelf is left as it should be, and a copy is called new
        let put: PutOperation = |shelf, input| match second_put(shelf, input) {
            Ok(Put::Found(slot)) => Ok(Put::New(slot)),
            told => told,
        };
        let told = run_with(&[("it", put)], 1, COUNT).map(|counts| counts.summary());
        assert!(told.unwrap_err().contains("the second program ["));
    }
}
