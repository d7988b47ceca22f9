//! The sides of the benchmark: the proved operations, the rival in its two ways,
//! the second program; each behind the same functions.

use second::operations::{self, Comparison, Verdict};
use second::refusal::{Answer, Refusal};

use rival::Way;

use crate::surface;

pub struct Side {
    pub name: &'static str,
    pub judge: fn(&[u8]) -> bool,
    pub normalise: fn(&[u8], &mut [u8]) -> bool,
    pub is_same: fn(&[u8], &[u8]) -> bool,
}

pub const SIDES: [Side; 4] = [
    Side {
        name: "ours",
        judge: |input| surface::judge(input).is_ok(),
        normalise: |input, buffer| surface::normalise(input, buffer).is_ok(),
        is_same: surface::is_same,
    },
    Side {
        name: "rival",
        judge: |input| rival::judge(Way::Blocks, input).is_ok(),
        normalise: |input, buffer| rival::normalise(Way::Blocks, input, buffer).is_ok(),
        is_same: |one, other| rival::compare(Way::Blocks, one, other) == SAME,
    },
    Side {
        name: "rival by bytes",
        judge: |input| rival::judge(Way::Bytes, input).is_ok(),
        normalise: |input, buffer| rival::normalise(Way::Bytes, input, buffer).is_ok(),
        is_same: |one, other| rival::compare(Way::Bytes, one, other) == SAME,
    },
    Side {
        name: "second",
        judge: |input| operations::judge(input).is_ok(),
        normalise: |input, buffer| operations::normalise(input, buffer).is_ok(),
        is_same: |first, second| operations::compare(first, second) == Comparison::Same,
    },
];

const SAME: rival::Comparison = rival::Comparison::Same;

fn of_rival(told: rival::Refusal) -> Refusal {
    Refusal { place: told.place, number: told.number }
}

fn same_verdict(told: &Answer<Verdict>, rival: &Result<rival::Verdict, rival::Refusal>) -> bool {
    let numbers = |verdict: &Verdict| rival::Verdict {
        characters: verdict.characters.six(),
        segments: verdict.segments,
        messages: verdict.messages,
        groups: verdict.groups,
        normal_length: verdict.normal_length,
    };
    match (told, rival) {
        (Ok(told), Ok(rival)) => numbers(told) == *rival,
        (Err(told), Err(rival)) => *told == of_rival(*rival),
        _ => false,
    }
}

/// The buffers that Normalise is lent, one for each side; what they hold is kept
/// alike.
pub struct Buffers(pub [Vec<u8>; SIDES.len()]);

impl Buffers {
    pub fn new(length: usize) -> Buffers {
        Buffers(std::array::from_fn(|_| vec![b'#'; length]))
    }

    /// Holds all sides' Judge and Normalise to one another; is it accepted?
    pub fn agreed(&mut self, input: &[u8]) -> bool {
        let [ours, by_blocks, by_bytes, theirs] = &mut self.0;
        let verdict = operations::judge(input);
        let length = operations::normalise(input, theirs);
        assert_eq!(surface::judge(input), verdict);
        assert_eq!(surface::normalise(input, ours), length);
        assert!(ours == theirs, "the buffers differ");
        for (way, buffer) in [(Way::Blocks, by_blocks), (Way::Bytes, by_bytes)] {
            assert!(same_verdict(&verdict, &rival::judge(way, input)), "the rival's verdict");
            assert_eq!(rival::normalise(way, input, buffer).map_err(of_rival), length);
            assert!(buffer == theirs, "the rival's buffer differs");
        }
        verdict.is_ok()
    }
}
