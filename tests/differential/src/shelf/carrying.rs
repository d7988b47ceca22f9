//! Shelves carried over and back by the surface, the wrapper and the second
//! program: the same answers, and the same bytes at exit. What was carried is
//! carried on, there and back.
//!
//! Change request 2026-07, "Old shelves carried over, and back".

use hverolda::surface::{self, Started};
use hverolda::Shelf;
use second::carrying_over;
use second::generator::{any_shelf, Random};
use second::refusal::{Answer, Refusal, NO_ROOM};

use super::counts::Counts;

/// Both directions.
#[derive(Clone, Copy)]
pub struct Carrying {
    pub name: &'static str,
    /// From version 1 to version 2.
    pub over: fn(&mut [u8]) -> Answer<()>,
    /// From version 2 to version 1.
    pub back: fn(&mut [u8]) -> Answer<()>,
}

pub const SECOND: Carrying = Carrying {
    name: "the second program",
    over: carrying_over::carry_over,
    back: carrying_over::carry_back,
};

pub const SURFACE: Carrying = Carrying {
    name: "the surface",
    over: |bytes| answer(surface::shelf_carry(bytes)),
    back: |bytes| answer(surface::shelf_carry_back(bytes)),
};

pub const WRAPPER: Carrying = Carrying {
    name: "the wrapper",
    over: |bytes| told(Shelf::over(bytes).carry()),
    back: |bytes| told(Shelf::over(bytes).carry_back()),
};

fn told(result: Result<(), hverolda::Refusal>) -> Answer<()> {
    result.map_err(|refusal| Refusal { number: refusal.number(), place: refusal.place })
}

fn answer(told: Started) -> Answer<()> {
    match told {
        Started { number: 0, place: 0 } => Ok(()),
        Started { number, place } => Err(Refusal { number, place }),
    }
}

/// What must occur before a run says anything.
const MUST: [(&str, &str); 13] = [
    ("over", "carried"),
    ("over", "refused by 18"),
    ("over", "refused by 19"),
    ("back", "carried"),
    ("back", "refused by 19"),
    ("over", "carried with 8 free bytes"),
    ("over", "carried at 533 bytes"),
    ("over", "carried at 65536 bytes"),
    ("over", "refused by 18 with 7 free bytes"),
    ("over", "refused by 18 at 525 to 532 bytes"),
    ("back", "carried at 65536 bytes"),
    ("round trip", "over and back"),
    ("round trip", "back and over"),
];

/// Bytes before and behind the shelf that nobody may change.
const GUARD: usize = 32;
const GUARD_BYTE: u8 = 0xC3;

/// So many shelves, by the surface and the wrapper; what occurred, or the first
/// difference.
pub fn run(seed: u64, count: u64) -> Result<Counts, String> {
    run_with(&[SURFACE, WRAPPER], seed, count)
}

fn run_with(sides: &[Carrying], seed: u64, count: u64) -> Result<Counts, String> {
    let mut random = Random::new(seed);
    let mut counts = Counts::default();
    for number in 0..count {
        let shelf = any_shelf(&mut random);
        let over_first = random.chance(50);
        let told = carried(sides, shelf, over_first, &mut counts);
        told.map_err(|what| format!("shelf {number}: {what}"))?;
    }
    Ok(counts)
}

/// What must occur and never did.
pub fn gaps(counts: &Counts) -> Vec<String> {
    counts.missing(MUST.iter().copied())
}

/// What was carried, in a line.
pub fn summary(counts: &Counts) -> String {
    let [over, back] = ["over", "back"].map(|way| counts.of((way, "carried")));
    let roomless = counts.of(("over", "refused by 18"));
    let unsound: u64 =
        ["over", "back"].into_iter().map(|way| counts.of((way, "refused by 19"))).sum();
    let [there, here] =
        ["over and back", "back and over"].map(|trip| counts.of(("round trip", trip)));
    format!(
        "{} times carried ({over} over, {back} back, {roomless} refused by 18, {unsound} by 19): \
         answers, bytes and guards as they should be; {} round trips ({there} over and back, \
         {here} back and over): the bytes as before, but for the figure",
        counts.operations,
        there + here
    )
}

/// Four times, to and fro. Two ways that were done one after the other are a round
/// trip, and give the bytes that there were.
fn carried(
    sides: &[Carrying],
    mut shelf: Vec<u8>,
    over_first: bool,
    counts: &mut Counts,
) -> Result<(), String> {
    let ways = if over_first { [true, false, true, false] } else { [false, true, false, true] };
    let mut earlier: Option<Vec<u8>> = None;
    for is_over in ways {
        let name = if is_over { "over" } else { "back" };
        let way = |side: &Carrying| if is_over { side.over } else { side.back };
        let before = shelf.clone();
        let expected = way(&SECOND)(&mut shelf);
        for side in sides {
            same(name, side.name, way(side), &before, expected, &shelf)?;
        }
        counts.operations += 1;
        counts.count(name, how(expected));
        count_edges(name, &before, expected, counts);
        if let (Some(origin), Ok(())) = (&earlier, expected) {
            round_trip(is_over, origin, &shelf, counts)?;
        }
        earlier = expected.ok().map(|()| before);
    }
    Ok(())
}

/// The same bytes, or after the way over four zeros in place of the figure.
fn round_trip(
    is_over: bool,
    origin: &[u8],
    shelf: &[u8],
    counts: &mut Counts,
) -> Result<(), String> {
    let (name, figure): (_, &[u8]) =
        if is_over { ("back and over", &[0; 4]) } else { ("over and back", &origin[17..21]) };
    if shelf[..17] != origin[..17] || shelf[17..21] != *figure || shelf[21..] != origin[21..] {
        return Err(format!("{name} gives other bytes"));
    }
    counts.count("round trip", name);
    Ok(())
}

/// What is answered at the edges: the least and the most sizes, and about eight
/// free bytes, of which the last kept text leaves none that is not zero.
fn count_edges(name: &'static str, before: &[u8], answer: Answer<()>, counts: &mut Counts) {
    let free = before.iter().rev().take_while(|&&byte| byte == 0).count();
    let (carried, roomless) = (answer.is_ok(), how(answer) == "refused by 18");
    let edges = [
        ("carried with 8 free bytes", carried && free == 8),
        ("carried at 533 bytes", carried && before.len() == 533),
        ("carried at 65536 bytes", carried && before.len() == 65_536),
        ("refused by 18 with 7 free bytes", roomless && free == 7),
        ("refused by 18 at 525 to 532 bytes", roomless && before.len() < 533),
    ];
    for (edge, _) in edges.iter().filter(|(_, met)| *met) {
        counts.count(name, edge);
    }
}

/// One side's answer, bytes and guards.
fn same(
    name: &str,
    side: &str,
    carry: fn(&mut [u8]) -> Answer<()>,
    before: &[u8],
    expected: Answer<()>,
    after: &[u8],
) -> Result<(), String> {
    let mut memory = vec![GUARD_BYTE; before.len() + 2 * GUARD];
    let end = GUARD + before.len();
    memory[GUARD..end].copy_from_slice(before);
    let told = carry(&mut memory[GUARD..end]);
    let mut guards = memory[..GUARD].iter().chain(&memory[end..]);
    let what = if told != expected {
        format!("{name}: {told:?} by {side}, and by the second program {expected:?}")
    } else if memory[GUARD..end] != *after {
        format!("the bytes differ after {name} by {side}")
    } else if guards.any(|&byte| byte != GUARD_BYTE) {
        format!("something was stored beside the shelf by {name} of {side}")
    } else {
        return Ok(());
    };
    let bytes: String = before.iter().map(|byte| format!("{byte:02x}")).collect();
    Err(format!("{what}\nthe shelf before: {bytes}"))
}

fn how(answer: Answer<()>) -> &'static str {
    match answer {
        Ok(()) => "carried",
        Err(Refusal { number: NO_ROOM, .. }) => "refused by 18",
        Err(_) => "refused by 19",
    }
}

#[cfg(test)]
mod tests {
    use super::*;

    const COUNT: u64 = 4_000;

    #[test]
    fn the_second_program_agrees_with_itself_and_everything_occurs() {
        let counts = run_with(&[SECOND], 1, COUNT).expect("one side is the other");
        assert_eq!(gaps(&counts), Vec::<String>::new());
    }

    fn complaint(carrying: Carrying) -> String {
        run_with(&[carrying], 1, COUNT).err().expect("this is to be seen")
    }

    #[test]
    fn a_round_trip_gives_the_same_bytes_but_for_the_figure() {
        let mut counts = Counts::default();
        let mut told = |is_over, place: usize| {
            let origin = vec![1; 533];
            let mut shelf = origin.clone();
            shelf[place] = 0;
            round_trip(is_over, &origin, &shelf, &mut counts).is_ok()
        };
        assert!([0, 16, 17, 20, 21, 532].iter().all(|&place| !told(false, place)));
        assert!([0, 16, 17, 20, 21, 532].iter().all(|&place| !told(true, place)));
        let mut origin = vec![1; 533];
        assert_eq!(round_trip(false, &origin, &origin, &mut counts), Ok(()));
        let before = origin.clone();
        origin[17..21].fill(0);
        assert_eq!(round_trip(true, &before, &origin, &mut counts), Ok(()));
    }

    #[test]
    fn a_figure_that_does_not_start_at_0_is_seen() {
        // slot 0's length ends where the figure now ends
        let over = |shelf: &mut [u8]| {
            let before = shelf.to_vec();
            let answer = (SECOND.over)(shelf);
            if answer.is_ok() {
                shelf[20] = before[20];
            }
            answer
        };
        assert!(complaint(Carrying { over, ..SECOND }).contains("bytes"));
    }

    #[test]
    fn seven_free_bytes_that_are_enough_are_seen() {
        let over = |shelf: &mut [u8]| match (SECOND.over)(shelf) {
            Err(Refusal { number: NO_ROOM, .. }) if shelf.ends_with(&[0; 7]) => Ok(()),
            answer => answer,
        };
        assert!(complaint(Carrying { over, ..SECOND }).contains("over"));
    }

    #[test]
    fn what_is_not_zeroed_is_seen() {
        let back = |shelf: &mut [u8]| {
            let before = shelf.to_vec();
            let answer = (SECOND.back)(shelf);
            if let (Ok(()), Some(last)) = (answer, shelf.last_mut()) {
                *last = before[before.len() - 1];
            }
            answer
        };
        assert!(complaint(Carrying { back, ..SECOND }).contains("bytes"));
    }
}
