//! Families of interchanges that partners send and that the flavours leave out: runs of
//! released release characters, CONTRL bodies, other service characters with the standard's
//! in the text, tags with repetition figures. Ours over the rival on them; and what an
//! interchange costs that is refused at its end, over the same one accepted.

use std::time::Instant;

use second::generator::Random;
use second::refusal::{BYTE, COUNT, LEVEL, ORDER, REFERENCE};

use crate::flavours::{dense_segment, Flavour, EACH};
use crate::opaque;
use crate::orders::{element, order_in, order_segment, value, Manner, Segment, OTHERS, PLAIN};
use crate::sides::{Buffers, SIDES};
use crate::table::SEED;

/// At most so much of the rival's time is to be taken on an interchange that is accepted,
const AIM: f64 = 2.0;
/// and of our own time for it where it is refused.
const AIM_REFUSED: f64 = 2.0;

type MakeSegment = fn(&mut Random, usize, bool) -> Segment;

const MADE: Flavour = Flavour { count: 100, ..EACH };

/// An interchange of segments that this function makes.
fn of(segment: MakeSegment, random: &mut Random, target: usize) -> Vec<u8> {
    order_in(Manner { segment, ..PLAIN }, random, target)
}

pub const FAMILIES: [Flavour; 9] = [
    Flavour {
        name: "runs of `?`, 1 to 40",
        share: 60,
        make: |random, target| of(runs_segment, random, target),
        ..MADE
    },
    Flavour {
        name: "eight `?` in a text",
        share: 70,
        make: |random, target| of(eight_segment, random, target),
        ..MADE
    },
    Flavour {
        name: "names that became `?`",
        share: 85,
        make: |random, target| of(lost_segment, random, target),
        ..MADE
    },
    Flavour {
        name: "CONTRL bodies",
        make: |random, target| of(contrl_segment, random, target),
        ..MADE
    },
    Flavour {
        name: "others, one in thirty",
        share: 95,
        make: |random, target| {
            let (characters, segment) = (OTHERS, text_segment as MakeSegment);
            order_in(Manner { characters, advice: true, segment, ..PLAIN }, random, target)
        },
        ..MADE
    },
    Flavour {
        name: "tags with figures",
        make: |random, target| of(figures_segment, random, target),
        ..MADE
    },
    Flavour {
        name: "four fifths released",
        share: 55,
        make: |random, target| of(released_segment, random, target),
        ..MADE
    },
    Flavour {
        name: "AAA::: over and over",
        make: |random, target| of(|_, _, _| vec![element("AAA:::")], random, target),
        ..MADE
    },
    Flavour {
        name: "empty values inside",
        make: |random, target| of(empty_segment, random, target),
        ..MADE
    },
];

/// Two values of `?` alone.
fn runs_segment(random: &mut Random, _: usize, _: bool) -> Segment {
    let mut run = || value("?".repeat(random.between(1, 40)));
    vec![value("FTX"), value("AAI"), run(), run()]
}

fn eight_segment(_: &mut Random, _: usize, _: bool) -> Segment {
    vec![value("FTX"), value("AAI"), value("TEXT ???????? MORE ????????")]
}

/// An order's segment whose names were lost in a conversion.
fn lost_segment(random: &mut Random, line: usize, _: bool) -> Segment {
    let mut segment = order_segment(random, line, false);
    for value in segment.iter_mut().skip(3).flatten().flatten() {
        if value.iter().any(|byte| byte.is_ascii_uppercase()) && value.len() > 3 {
            *value = vec![b'?'; random.between(6, 10)];
        }
    }
    segment
}

/// What a syntax report says of interchanges, messages, segments and values.
fn contrl_segment(random: &mut Random, line: usize, _: bool) -> Segment {
    let number = value(line.to_string());
    match random.below(4) {
        0 => vec![value("UCI"), number, value("5790000000012"), value("4012345000009"), value("7")],
        1 => vec![value("UCM"), number, element("ORDERS:D:96A:UN"), value("4"), value("12")],
        2 => vec![value("UCS"), number, value("13")],
        _ => vec![value("UCD"), value("12"), element("3:1")],
    }
}

/// A text of which one byte in thirty is a service character of the standard.
fn text_segment(random: &mut Random, _: usize, _: bool) -> Segment {
    let count = random.between(20, 90);
    let text: Vec<u8> = (0..count)
        .map(|_| match random.below(30) {
            0 => random.pick(b":+?'"),
            _ => random.pick(b"ABCDEFGHIKLMNOPRSTUVW  0123456789"),
        })
        .collect();
    vec![value("FTX"), value("A"), vec![vec![text, b"X".to_vec()]]]
}

/// An order's segment whose tag has repetition figures.
fn figures_segment(random: &mut Random, line: usize, released: bool) -> Segment {
    let mut segment = order_segment(random, line, released);
    segment[0][0].extend([b"1".to_vec(), b"1".to_vec()]);
    segment
}

/// Nine bytes in ten of its values are released, and it has empty ends.
fn released_segment(random: &mut Random, _: usize, _: bool) -> Segment {
    let mut text =
        |count: usize| -> Vec<u8> { (0..count).map(|_| random.pick(b":+?':+?':A")).collect() };
    let last = vec![vec![text(12), text(9)]];
    vec![value("FTX"), value("AAI"), value(text(24)), last, element(":"), value("")]
}

/// Most of its values are empty, and the last is not.
fn empty_segment(random: &mut Random, _: usize, _: bool) -> Segment {
    let mut segment = vec![value("MOA")];
    segment.extend((0..random.between(4, 12)).map(|_| element(random.pick(&["", "::1", "7"]))));
    segment.push(value("1"));
    segment
}

/// Does something to an accepted interchange so that this number refuses it at its end.
pub struct Spoiled {
    pub name: &'static str,
    pub number: u32,
    pub spoil: fn(&mut Vec<u8>),
}

pub const SPOILED: [Spoiled; 5] = [
    Spoiled { name: "12 at UNZ", number: COUNT, spoil: |input| at_trailer(input, |b| b ^ 1) },
    Spoiled { name: "11 at UNZ", number: REFERENCE, spoil: other_reference },
    Spoiled { name: "9 before UNZ", number: ORDER, spoil: |input| put_before_end(input, "XXX") },
    Spoiled { name: "8 in the last text", number: BYTE, spoil: outside },
    Spoiled { name: "7", number: LEVEL, spoil: other_level },
];

/// Where UNZ stands, which no value of these interchanges spells.
fn trailer(input: &[u8]) -> usize {
    input.windows(3).rposition(|tag| tag == b"UNZ").expect("an interchange ends in UNZ")
}

/// Changes the first figure that UNZ counts.
fn at_trailer(input: &mut [u8], change: fn(u8) -> u8) {
    let at = trailer(input) + 4;
    input[at] = change(input[at]);
}

/// Where the last byte of UNZ's reference stands, before the last terminator.
fn last_byte(input: &[u8]) -> usize {
    input.iter().rposition(u8::is_ascii_alphanumeric).expect("UNZ has a reference")
}

fn other_reference(input: &mut Vec<u8>) {
    let at = last_byte(input);
    input[at] = if input[at] == b'0' { b'1' } else { b'0' };
}

/// A segment of this tag stands before UNZ.
fn put_before_end(input: &mut Vec<u8>, tag: &str) {
    let (at, end) = (trailer(input), input[last_byte(input) + 1]);
    input.splice(at..at, tag.bytes().chain([end]));
}

/// The last byte of a value before UNT is one that is in no level.
fn outside(input: &mut Vec<u8>) {
    let end = input.windows(3).rposition(|tag| tag == b"UNT").expect("it has a message");
    let at = last_byte(&input[..end]);
    input[at] = 127;
}

fn other_level(input: &mut Vec<u8>) {
    let at = input.windows(3).position(|bytes| bytes == b"UNO").expect("it names its level");
    input[at + 3] = b'Y';
}

fn judged(side: usize, input: &[u8]) -> u64 {
    let began = Instant::now();
    opaque((SIDES[side].judge)(opaque(input)));
    began.elapsed().as_nanos() as u64
}

fn normalised(side: usize, input: &[u8], buffers: &mut Buffers) -> u64 {
    let began = Instant::now();
    opaque((SIDES[side].normalise)(opaque(input), &mut buffers.0[side]));
    began.elapsed().as_nanos() as u64
}

/// The shortest times of ours and the rival: Judge, then Normalise.
fn shortest(input: &[u8], rounds: usize, buffers: &mut Buffers) -> [[u64; 2]; 2] {
    let mut least = [[u64::MAX; 2]; 2];
    for round in 0..rounds {
        for side in [round % 2, 1 - round % 2] {
            least[0][side] = least[0][side].min(judged(side, input));
            least[1][side] = least[1][side].min(normalised(side, input, buffers));
        }
    }
    least
}

/// Prints ours over the rival's on each family.
pub fn report(rounds: usize) {
    println!("Ours over the rival's: Judge, Normalise; at most {AIM} each");
    let mut buffers = Buffers::new(second::refusal::LONGEST);
    for (number, family) in FAMILIES.iter().enumerate() {
        let mut sums = [[0; 2]; 2];
        for input in family.inputs(&mut Random::new(SEED + 100 + number as u64)) {
            assert!(buffers.agreed(&input), "{} is accepted", family.name);
            let more = shortest(&input, rounds, &mut buffers);
            sums.iter_mut().flatten().zip(more.into_iter().flatten()).for_each(|(s, m)| *s += m);
        }
        let [judge, normalise] = sums.map(|[ours, rival]| ours as f64 / rival as f64);
        let met = if judge.max(normalise) <= AIM { "" } else { ": not met" };
        println!("{:<29}{judge:>6.2}{normalise:>6.2}{met}", family.name);
    }
}

/// Prints what Judge takes where an interchange is refused at its end, over what it takes
/// where it is accepted.
pub fn report_refused(rounds: usize) {
    println!("Judge, refused over accepted; at most {AIM_REFUSED} each");
    let mut buffers = Buffers::new(second::refusal::LONGEST);
    let dense = Flavour {
        name: "dense releases",
        share: 70,
        make: |random, target| of(dense_segment, random, target),
        ..MADE
    };
    for family in [Flavour { name: "orders", ..MADE }, dense] {
        let inputs = family.inputs(&mut Random::new(SEED));
        for spoiled in &SPOILED {
            let mut times = [0; 2];
            for input in &inputs {
                let mut refused = input.clone();
                (spoiled.spoil)(&mut refused);
                assert!(!buffers.agreed(&refused), "{} is refused", spoiled.name);
                let least = |input: &[u8]| (0..rounds).map(|_| judged(0, input)).min();
                times[0] += least(input).unwrap_or(0);
                times[1] += least(&refused).unwrap_or(0);
            }
            let ratio = times[1] as f64 / times[0] as f64;
            let met = if ratio <= AIM_REFUSED { "" } else { ": not met" };
            println!("{:<16}{:<20}{ratio:>6.2}{met}", family.name, spoiled.name);
        }
    }
}
