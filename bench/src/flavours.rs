//! The workload of change request 2026-09: ten thousand interchanges of 1 to
//! 30 KB in flavours, and ours against the rival and the second program on them.

use std::ops::RangeInclusive;

use second::generator::{in_lines, Random};
use second::service_characters::{
    ServiceCharacters, INFORMATION_SEPARATORS, PRINTABLE, PRINTABLE_4,
};

use crate::orders::{
    element, order, order_in, order_segment, value, Ends, Manner, Segment, Shape, OTHERS, PLAIN,
};

/// Characters that no level has.
const OUTSIDE: ServiceCharacters = ServiceCharacters {
    component: b'|',
    element: b'~',
    mark: b'.',
    release: Some(b'\\'),
    repetition: None,
    terminator: b'^',
};

/// How long an interchange may be.
const BYTES: RangeInclusive<usize> = 1_000..=30_000;

pub struct Flavour {
    pub name: &'static str,
    pub count: usize,
    /// How many of a hundred of the wanted bytes are asked for, where the
    /// spelling takes more.
    pub share: usize,
    pub make: fn(&mut Random, usize) -> Vec<u8>,
}

impl Flavour {
    /// Its interchanges.
    pub fn inputs(&self, random: &mut Random) -> Vec<Vec<u8>> {
        (0..self.count).map(|_| self.input(random)).collect()
    }

    /// One of about so many bytes.
    pub fn input_of(&self, random: &mut Random, bytes: usize) -> Vec<u8> {
        (self.make)(random, bytes * self.share / 100)
    }

    fn input(&self, random: &mut Random) -> Vec<u8> {
        loop {
            let target = random.between(1_000, 30_000) * self.share / 100;
            let input = (self.make)(random, target.max(1_000));
            if BYTES.contains(&input.len()) {
                return input;
            }
        }
    }
}

pub const EACH: Flavour = Flavour { name: "", count: 650, share: 100, make: order };

pub const FLAVOURS: [Flavour; 15] = [
    Flavour { name: "mixed orders", count: 900, ..EACH },
    Flavour {
        name: "nothing to trim",
        make: |random, target| order_in(PLAIN, random, target),
        ..EACH
    },
    Flavour {
        name: "one segment a line",
        share: 93,
        make: |random, target| in_lines(&order(random, target)),
        ..EACH
    },
    Flavour {
        name: "respelled, in the level",
        share: 97,
        make: |random, target| {
            order_in(Manner { characters: OTHERS, advice: true, ..PLAIN }, random, target)
        },
        ..EACH
    },
    Flavour {
        name: "respelled, outside the level",
        share: 97,
        make: |random, target| {
            order_in(Manner { characters: OUTSIDE, advice: true, ..PLAIN }, random, target)
        },
        ..EACH
    },
    Flavour {
        name: "bytes 28 29 31",
        share: 97,
        make: |random, target| {
            order_in(Manner { characters: INFORMATION_SEPARATORS, ..PLAIN }, random, target)
        },
        ..EACH
    },
    Flavour {
        name: "one empty end",
        make: |random, target| order_in(Manner { ends: Ends::One, ..PLAIN }, random, target),
        ..EACH
    },
    Flavour {
        name: "empty ends in each segment",
        make: |random, target| order_in(Manner { ends: Ends::Each, ..PLAIN }, random, target),
        ..EACH
    },
    Flavour {
        name: "dense releases",
        share: 70,
        make: |random, target| order_in(Manner { segment: dense_segment, ..PLAIN }, random, target),
        ..EACH
    },
    Flavour {
        name: "tiny values",
        make: |random, target| order_in(Manner { segment: tiny_segment, ..PLAIN }, random, target),
        ..EACH
    },
    Flavour {
        name: "long values",
        share: 97,
        make: |random, target| order_in(Manner { segment: long_segment, ..PLAIN }, random, target),
        ..EACH
    },
    Flavour {
        name: "many messages",
        make: |random, target| order_in(Manner { shape: Shape::Messages, ..PLAIN }, random, target),
        ..EACH
    },
    Flavour {
        name: "many groups",
        make: |random, target| order_in(Manner { shape: Shape::Groups, ..PLAIN }, random, target),
        ..EACH
    },
    Flavour {
        name: "level B",
        make: |random, target| {
            let (characters, segment) =
                (PRINTABLE, small_letters as fn(&mut Random, usize, bool) -> _);
            order_in(Manner { syntax: "UNOB:2", characters, segment, ..PLAIN }, random, target)
        },
        ..EACH
    },
    Flavour {
        name: "version 4 with repeats",
        make: |random, target| {
            let (characters, segment) =
                (PRINTABLE_4, repeated as fn(&mut Random, usize, bool) -> _);
            order_in(Manner { syntax: "UNOA:4", characters, segment, ..PLAIN }, random, target)
        },
        ..EACH
    },
];

/// One byte in two of its values is a service character of the standard.
pub fn dense_segment(random: &mut Random, _: usize, _: bool) -> Segment {
    let mut text =
        |count: usize| -> Vec<u8> { (0..count).map(|_| random.pick(b"AB12:+?'")).collect() };
    vec![value("FTX"), value("AAI"), value(text(24)), vec![vec![text(12), text(9)]]]
}

/// Values of one byte.
fn tiny_segment(random: &mut Random, _: usize, _: bool) -> Segment {
    let mut segment = vec![value("MEA")];
    for _ in 0..random.between(3, 9) {
        let text = ["1", "7", "A", "1:K", "2:3:X"];
        segment.push(element(random.pick(&text)));
    }
    segment
}

/// One value of some hundred bytes.
fn long_segment(random: &mut Random, _: usize, _: bool) -> Segment {
    let words = ["GOODS ", "AS DESCRIBED ", "IN 40 BAGS, ", "NOT STACKABLE ", "SEE (7) ", "DRY "];
    let mut text = String::new();
    for _ in 0..random.between(20, 60) {
        text.push_str(random.pick(&words));
    }
    vec![value("FTX"), value("AAI"), value(text)]
}

/// A segment of an order whose values are in small letters but for the first.
fn small_letters(random: &mut Random, line: usize, released: bool) -> Segment {
    let mut segment = order_segment(random, line, released);
    for value in segment.iter_mut().skip(1).flatten().flatten() {
        value.iter_mut().skip(1).for_each(|byte| byte.make_ascii_lowercase());
    }
    segment
}

/// A segment of an order, of whose elements some are two or three repeats.
fn repeated(random: &mut Random, line: usize, released: bool) -> Segment {
    let mut segment = order_segment(random, line, released);
    for element in segment.iter_mut().skip(1).filter(|element| !element[0][0].is_empty()) {
        if random.chance(30) {
            let repeat = element[0].clone();
            (0..random.between(1, 2)).for_each(|_| element.push(repeat.clone()));
        }
    }
    segment
}
