//! Report over mailbox files of 65,536 bytes: ordinary ones, and others that look as if
//! they were dear.
//!
//! Change request 2026-02, "Mailbox files and the morning figures".

use std::time::Instant;

use second::generator::Random;
use second::mailbox::LONGEST_FILE;

use crate::{opaque, orders, surface};

const SEED: u64 = 202602;
/// For each round of the other parts.
const TURNS: usize = 20;

/// The file's bytes over and over, up to the longest file's.
fn filled(unit: &[u8]) -> Vec<u8> {
    unit.iter().copied().cycle().take(LONGEST_FILE).collect()
}

/// Orders end to end, then line feeds.
fn ordinary(target: usize) -> Vec<u8> {
    let mut random = Random::new(SEED);
    let mut file = Vec::new();
    loop {
        let order = orders::order(&mut random, target);
        if file.len() + order.len() > LONGEST_FILE {
            file.resize(LONGEST_FILE, b'\n');
            return file;
        }
        file.extend(order);
    }
}

/// One piece that ends in its UNZ: what stands before it, a filler, and what stands behind it.
fn one_piece(before: &[u8], unit: &[u8], behind: &[u8]) -> Vec<u8> {
    let room = LONGEST_FILE - before.len() - behind.len();
    let filler: Vec<u8> =
        unit.iter().copied().cycle().take(room / unit.len() * unit.len()).collect();
    [before, &filler, behind].concat()
}

fn files() -> Vec<(&'static str, Vec<u8>)> {
    let before = b"UNB+UNOA:1+A+B+1+R'UNH+1+M'";
    let behind = b"UNT+2+1'UNZ+1+R'";
    let tiny = b"UNB+UNOA:1++++R'UNH+1'UNT+2+1'UNZ+1+R'";
    let mut unended = ordinary(2_000);
    unended.truncate(LONGEST_FILE - 1);
    unended.splice(..0, *b"A");
    vec![
        ("orders of some 2 KB", ordinary(2_000)),
        ("orders of some 30 KB", ordinary(29_000)),
        ("65,536 terminators", filled(b"'")),
        ("UNZ' over and over", filled(b"UNZ'")),
        ("UNB+' and UNZ' over and over", filled(b"UNB+'UNZ'")),
        ("the smallest interchanges", filled(tiny)),
        (
            "the smallest interchanges, in lines",
            filled(b"UNB+UNOA:1++++R'\r\nUNH+1'\r\nUNT+2+1'\r\nUNZ+1+R'\r\n"),
        ),
        ("one piece of empty segments", one_piece(before, b"AAA'", behind)),
        ("one piece of released bytes", one_piece(before, b"AAA+?+'", behind)),
        ("one piece without a UNZ", one_piece(before, b"AAA+B'", b"")),
        ("one piece of line feeds", one_piece(before, b"\n", behind)),
        ("one order, then line feeds", one_piece(tiny, b"\n", b"")),
        ("orders behind a stray byte", unended),
    ]
}

/// Prints for each file the shortest time, and its ratio to the first's.
pub fn report(rounds: usize) {
    let mut ordinary = 0.0;
    println!(
        "Report over mailbox files of {LONGEST_FILE} bytes; microseconds, and over the first's"
    );
    for (name, file) in files() {
        assert_eq!(surface::report(&file), second::mailbox::report(&file), "{name}");
        let shortest = (0..rounds * TURNS).map(|_| {
            let began = Instant::now();
            let _ = opaque(surface::report(opaque(&file)));
            began.elapsed().as_nanos() as f64 / 1000.0
        });
        let time = shortest.fold(f64::INFINITY, f64::min);
        if ordinary == 0.0 {
            ordinary = time;
        }
        println!("  {name:<40}{:>7} bytes{time:>10.1}{:>8.2}", file.len(), time / ordinary);
    }
}
