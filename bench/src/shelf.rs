//! The operations of full shelves of 65,536 bytes, against Judge over the same
//! bytes: the kept texts, and what is put.
//!
//! Change requests 2026-04, "The shelf", and 2026-06, "A shelf that knows its
//! own sums".

use std::time::Instant;

use second::generator::Random;
use second::refusal::{LONGEST, NO_ROOM, NO_SLOT};
use second::shelf::{self, Put, LARGEST, SLOTS, SMALLEST};

use crate::{opaque, orders, surface};

const SEED: u64 = 2026;
/// For each round of the other parts.
const TURNS: usize = 40;

/// A full shelf by its name: its texts, and one that is new to it.
struct Full {
    name: &'static str,
    texts: Vec<Vec<u8>>,
    new: Vec<u8>,
}

/// The normal form of an order of about so many bytes, of at most so many.
fn order(random: &mut Random, target: usize, most: usize) -> Vec<u8> {
    loop {
        let order = orders::order(random, target);
        let mut form = vec![0; LONGEST];
        if let Ok(length) = surface::normalise(&order, &mut form) {
            form.truncate(length);
            if length <= most {
                return form;
            }
        }
    }
}

/// So many orders, each of its share of the bytes that are left.
fn orders(name: &'static str, count: usize, longest: usize) -> Full {
    let mut random = Random::new(SEED);
    let (mut room, mut texts) = (LARGEST - SMALLEST, Vec::new());
    for left in (1..=count).rev() {
        let share = (room / left).min(longest);
        let text = order(&mut random, share - 60, share);
        room -= text.len();
        texts.push(text);
    }
    let new = order(&mut random, 1_200, LONGEST);
    Full { name, texts, new }
}

/// Texts of one length that differ in these ends only.
fn alike(name: &'static str, length: usize, ends: &[String]) -> Full {
    let text = |end: &String| {
        let mut text = b"UNA:+.? 'UNB+UNOB:1++++1'UNH+1'".to_vec();
        let (trailer, value) = (format!("UNT+3+1'UNZ+1+1+{end}'"), "FTX+");
        let filler = length - text.len() - value.len() - 1 - trailer.len();
        text.extend(value.bytes());
        text.extend((0..filler).map(|number| b"SAY WHAT IT IS "[number % 15]));
        text.push(b'\'');
        text.extend(trailer.bytes());
        text
    };
    let mut texts: Vec<Vec<u8>> = ends[..=SLOTS].iter().map(text).collect();
    let new = texts.pop().expect("one more");
    Full { name, texts, new }
}

/// Ends of one byte.
fn last_bytes() -> Vec<String> {
    let bytes = ('0'..='9').chain('A'..='Z').chain('a'..='z').chain("=/()".chars());
    bytes.map(String::from).collect()
}

/// Ends of three bytes, all with the same sum.
fn last_sums() -> Vec<String> {
    let letters = || 'A'..='Z';
    let all = letters().flat_map(|one| letters().map(move |two| (one, two)));
    let third = |(one, two): (char, char)| {
        let third = 3 * u32::from('M') - u32::from(one) - u32::from(two);
        char::from_u32(third)
            .filter(char::is_ascii_uppercase)
            .map(|three| [one, two, three].iter().collect())
    };
    all.filter_map(third).collect()
}

fn full_shelves() -> [Full; 5] {
    let share = (LARGEST - SMALLEST) / SLOTS;
    [
        orders("3 long orders", 3, LONGEST),
        orders("64 orders", SLOTS, LONGEST),
        alike("64 that differ in their last byte", share, &last_bytes()),
        alike("64 with one sum, by three bytes", share, &last_sums()),
        alike("64 short ones with one sum", 70, &last_sums()),
    ]
}

/// The shelf with these texts, as both programs make it.
fn filled(full: &Full) -> Vec<u8> {
    let (mut ours, mut second) = (vec![1; LARGEST], vec![2; LARGEST]);
    assert_eq!(surface::start(&mut ours), shelf::start(&mut second));
    for (slot, text) in full.texts.iter().enumerate() {
        assert_eq!(surface::put(&mut ours, text), Ok(Put::New(slot)), "{}", full.name);
        assert_eq!(shelf::put(&mut second, text), Ok(Put::New(slot)));
    }
    assert!(ours == second, "the shelves differ");
    ours
}

const NAMES: [&str; 10] = [
    "judge, the kept texts",
    "judge, the copy",
    "judge, the new text",
    "normalise, the copy",
    "put, a copy",
    "put, a new text",
    "get",
    "remove",
    "sums",
    "slots",
];

/// The shortest time of each.
fn least(full: &Full, shelf: &mut [u8], rounds: usize) -> [u64; NAMES.len()] {
    let bytes = full.texts.iter().map(Vec::len).sum();
    let last = full.texts.len() - 1;
    let copy = &full.texts[last];
    let mut other = shelf.to_vec();
    let mut form = vec![0; LONGEST];
    let mut least = [u64::MAX; NAMES.len()];
    let refused = if full.texts.len() == SLOTS { NO_SLOT } else { NO_ROOM };
    for turn in 0..rounds * TURNS * NAMES.len() {
        let function = (turn + turn / NAMES.len()) % NAMES.len();
        other.copy_from_slice(shelf);
        let began = Instant::now();
        let holds = match function {
            0 => full.texts.iter().all(|text| opaque(surface::judge(opaque(text))).is_ok()),
            1 => opaque(surface::judge(opaque(copy))).is_ok(),
            2 => opaque(surface::judge(opaque(&full.new))).is_ok(),
            3 => opaque(surface::normalise(opaque(copy), &mut form)).is_ok(),
            4 => opaque(surface::put(shelf, opaque(copy))) == Ok(Put::Found(last)),
            5 => {
                let told = opaque(surface::put(shelf, opaque(&full.new)));
                told.err().map(|told| told.number) == Some(refused)
            }
            6 => opaque(surface::get(opaque(shelf), last)).is_ok(),
            7 => opaque(surface::remove(&mut other, 0)) == Ok(full.texts[0].len()),
            8 => opaque(surface::sums(opaque(shelf))).map(|(held, _)| held) == Ok(bytes),
            _ => opaque(surface::slots(opaque(shelf))).is_ok(),
        };
        least[function] = least[function].min(began.elapsed().as_nanos() as u64);
        assert!(holds, "{}: {}", full.name, NAMES[function]);
    }
    least
}

/// Prints, for each shelf, the best time of each operation, and its ratio to Judge
/// over the kept texts and what is put; then what finding the copy adds to judging
/// the shelf and making the copy's normal form.
pub fn report(rounds: usize) {
    for full in full_shelves() {
        let mut shelf = filled(&full);
        let bytes: usize = full.texts.iter().map(Vec::len).sum();
        println!("{}: {bytes} bytes in {} texts", full.name, full.texts.len());
        let least = least(&full, &mut shelf, rounds);
        let [texts, copy, new, form, put, .., slots] = least;
        for (number, name) in NAMES.iter().enumerate() {
            let judged = match number {
                4 => texts + copy,
                5 => texts + new,
                _ => texts,
            };
            let time = least[number] as f64;
            println!("  {name:<22}{:>10.1} us{:>10.2}", time / 1e3, time / judged as f64);
        }
        let without = (slots + form) as f64;
        println!("  {:<22}{:>23.2}", "finding the copy", (put as f64 - without) / without);
    }
}
