//! Line breaks, with the answers that follow from the input without them: where
//! they may stand only places move, and anywhere else one break is refused as
//! any such byte is.
//!
//! Change request 2026-01, "Line breaks between segments".

use std::collections::BTreeMap;

use hverolda::surface::Verdict;
use second::break_checks::fates;
use second::generator::{any_valid, Broken, Random};
use second::operations::judge;
use second::refusal::{
    Refusal, ADVICE, BEGINNING, LEVEL, LONGEST, NORMAL_LENGTH, OVER_LENGTH, RELEASE, TAG,
};

use crate::limits::refused;

/// Judge's answer after breaks were put where they may stand, from its answer
/// before; and what it is about.
pub fn after_breaks(before: Verdict, broken: &Broken) -> (Verdict, &'static str) {
    if !broken.has_breaks() {
        return (before, "no place for one");
    }
    match before.number {
        OVER_LENGTH => (before, "in an input over 32000 bytes"),
        _ if broken.input.len() > LONGEST => (refused(OVER_LENGTH, 0), "over 32000 bytes by them"),
        0 => (before, "passed over, accepted"),
        NORMAL_LENGTH => (before, "passed over, refused"),
        number => (refused(number, broken.moved(before.place)), "passed over, refused"),
    }
}

/// Where a break stands that has this refusal, the byte before it being this.
fn sort_of(number: u32, before: Option<u8>, terminator: u8) -> &'static str {
    match number {
        ADVICE => "in the advice",
        BEGINNING => "before or in UNB",
        RELEASE => "behind a release character",
        TAG => "in a tag or right behind it",
        LEVEL => "in the level or the version",
        _ if before == Some(terminator) => "behind a released terminator",
        _ => "in a value",
    }
}

/// An interchange with one break where it may not stand, Judge's answer, and
/// where the break stands: of each sort alike, however few its places are.
pub fn misplaced(random: &mut Random) -> (Vec<u8>, Verdict, &'static str) {
    let input = any_valid(random).spelled();
    let characters = judge(&input).expect("a valid draft is accepted").characters;
    let mut sorts: BTreeMap<&'static str, Vec<(usize, Refusal)>> = BTreeMap::new();
    for (place, fate) in fates(&input, &characters).into_iter().enumerate() {
        if let Some(refusal) = fate {
            let before = input[..place].last().copied();
            let sort = sort_of(refusal.number, before, characters.terminator);
            sorts.entry(sort).or_default().push((place, refusal));
        }
    }
    let names: Vec<&'static str> = sorts.keys().copied().collect();
    let name = random.pick(&names);
    let (place, refusal) = random.pick(&sorts[name]);
    let broken = [&input[..place], &[random.pick(b"\r\n")], &input[place..]].concat();
    (broken, refused(refusal.number, refusal.place), name)
}

#[cfg(test)]
mod tests {
    use super::*;
    use second::generator::{any_input, with_breaks};

    /// The second program's answer: the number, and the place of a refusal.
    fn told(input: &[u8]) -> (u32, usize) {
        match judge(input) {
            Ok(_) => (0, 0),
            Err(Refusal { place, number }) => (number, place),
        }
    }

    #[test]
    fn the_second_program_answers_as_it_is_known() {
        let mut sorts: BTreeMap<&'static str, u32> = BTreeMap::new();
        for seed in 0..3_000 {
            let random = &mut Random::new(seed);
            let (input, verdict, name) = misplaced(random);
            *sorts.entry(name).or_default() += 1;
            assert_eq!(told(&input), (verdict.number, verdict.place), "{name}, seed {seed}");
            let plain = any_input(random);
            let broken = with_breaks(random, &plain);
            let (number, place) = told(&plain);
            let before = Verdict { number, place, ..Verdict::default() };
            let (after, name) = after_breaks(before, &broken);
            assert_eq!(told(&broken.input), (after.number, after.place), "{name}, seed {seed}");
        }
        assert!(sorts.len() == 7 && sorts.values().all(|&count| count > 50), "{sorts:?}");
    }
}
