//! Write over lists that look as if they were dear: all records name the same
//! bytes, or bytes that overlap, or bytes between service characters; against a list
//! of as many records and as many bytes whose values stand end to end.

use std::time::Instant;

use second::operations;
use second::value_list::{NEW_ELEMENT, NEW_SEGMENT};

use crate::{opaque, surface};

/// As many as a table may have.
const RECORDS: u32 = 32_000;
const SERVICE: [(&str, &[u8; 6]); 2] = [("release", b":+.? '"), ("no release", b":+.  '")];
/// How many bytes are lent.
const SIZES: [u32; 3] = [32_000, 256_000, 10_000_000];
/// A list that takes longer than so many milliseconds is not tried with more bytes.
const SLOW: f64 = 500.0;
/// So many service characters stand among the bytes, where any do.
const APART: u32 = 1_024;

/// A kind of list by its name: start and length of a record, by its number and
/// the bytes lent; and do service characters stand among them?
struct Kind {
    name: &'static str,
    record: fn(u32, u32) -> (u32, u32),
    apart: bool,
}

const fn kind(name: &'static str, record: fn(u32, u32) -> (u32, u32)) -> Kind {
    Kind { name, record, apart: false }
}

const KINDS: [Kind; 7] = [
    kind("values end to end", |number, size| (number * (size / RECORDS), size / RECORDS)),
    kind("all bytes in each value", |_, size| (0, size)),
    kind("the first half in each value", |_, size| (0, size / 2)),
    kind("overlapping values", |number, size| (number % (size / 2), size / 2)),
    Kind {
        apart: true,
        ..kind("values between service characters", |number, size| {
            let gap = size / APART;
            (number % APART * gap + 1, gap - 1)
        })
    },
    Kind {
        apart: true,
        ..kind("the bytes after one service character", |_, size| (1, size / APART - 1))
    },
    kind("values of four times the bytes in all", |number, size| {
        let length = size / (RECORDS / 4);
        (number % (size - length), length)
    }),
];

impl Kind {
    fn table(&self, size: u32) -> Vec<u32> {
        let record = |number: u32| {
            let (start, length) = (self.record)(number, size);
            [if number == 0 { NEW_SEGMENT } else { NEW_ELEMENT }, start, length]
        };
        (0..RECORDS).flat_map(record).collect()
    }

    fn values(&self, size: u32) -> Vec<u8> {
        let byte = |at: u32| match self.apart && at % (size / APART) == 0 {
            true => b'+',
            false => b"ABCDEFGH 0123456"[at as usize % 16],
        };
        (0..size).map(byte).collect()
    }
}

/// The shortest time in milliseconds, and the number that refuses the list, or 0; no
/// longer than some seconds are spent on one.
fn shortest(service: &[u8], values: &[u8], table: &[u32], rounds: usize) -> (f64, u32) {
    let mut output = vec![0; 32_000];
    let (mut least, mut spent, mut number) = (f64::INFINITY, 0.0, 0);
    for _ in 0..rounds {
        let began = Instant::now();
        let told = opaque(surface::write(service, opaque(values), opaque(table), &mut output));
        let time = began.elapsed().as_secs_f64() * 1e3;
        (least, spent) = (least.min(time), spent + time);
        number = told.err().map_or(0, |refusal| refusal.number);
        if spent > 3_000.0 {
            break;
        }
    }
    (least, number)
}

/// Holds our answer and output to the second program's.
fn hold(service: &[u8], values: &[u8], table: &[u32]) {
    let (mut ours, mut theirs) = (vec![1; 9], vec![1; 9]);
    let told = surface::write(service, values, table, &mut ours);
    assert_eq!(told, operations::write(service, values, table, &mut theirs));
    assert!(ours == theirs, "the outputs differ");
}

/// Prints for each list the shortest time, and its ratio to the ordinary list's.
/// The second program, which is slow on such lists, answers the smaller ones.
pub fn report(rounds: usize) {
    println!("Write, {RECORDS} records; milliseconds, over values that stand end to end, and what refuses it");
    for (name, service) in SERVICE {
        let mut slow = KINDS.map(|_| false);
        for size in SIZES {
            let mut ordinary = 0.0;
            for (kind, slow) in KINDS.iter().zip(&mut slow).filter(|(_, slow)| !**slow) {
                let (table, values) = (kind.table(size), kind.values(size));
                if size == SIZES[0] {
                    hold(service, &values, &table);
                }
                let (time, number) = shortest(service, &values, &table, rounds);
                if ordinary == 0.0 {
                    ordinary = time;
                }
                *slow = time > SLOW;
                let list = format!("{}, {size} bytes, {name}", kind.name);
                println!("  {list:<60}{time:>10.3}{:>10.1}{number:>4}", time / ordinary);
            }
        }
    }
}
