//! Interchanges whose last message has UNS segments, each with the answer that
//! the request gives it: a section for each, D or S, once, and D before S. The
//! messages before it have sections too, which say nothing about the last one.
//!
//! Change request 2026-03, "Section markers".

use second::generator::Random;
use second::refusal::ORDER;

use crate::limits::{accepted, refused, Limit};

/// What the message has: its name, what follows the tag in each UNS, which of
/// them breaks the rule, and how many bytes trimming takes from them.
pub type Plan = (&'static str, &'static [&'static str], Option<usize>, usize);

pub const PLANS: [Plan; 16] = [
    ("none", &[], None, 0),
    ("D", &["+D"], None, 0),
    ("S", &["+S"], None, 0),
    ("D and S", &["+D", "+S"], None, 0),
    ("D with empty ends", &["+D:+", "+S::"], None, 4),
    ("D and another element", &["+D+S:X"], None, 0),
    ("D twice", &["+D", "+D"], Some(1), 0),
    ("S twice", &["+D", "+S", "+S"], Some(2), 0),
    ("S and then D", &["+S", "+D"], Some(1), 0),
    ("D after D and S", &["+D", "+S", "+D"], Some(2), 0),
    ("no section named", &["+D", ""], Some(1), 0),
    ("an empty one", &["+:+"], Some(0), 0),
    ("two components", &["+D:S"], Some(0), 0),
    ("in the second component", &["+:D"], Some(0), 0),
    ("in the second element", &["++D"], Some(0), 0),
    ("another letter", &["+X"], Some(0), 0),
];

/// The text of one message with this reference, where each UNS begins in it,
/// and how many segments it has.
fn message(random: &mut Random, markers: &[&str], reference: usize) -> (String, Vec<usize>, usize) {
    let mut text = format!("UNH+{reference}'");
    let (mut starts, mut count) = (Vec::new(), 2);
    for marker in markers {
        for _ in 0..random.below(3) {
            text.push_str("LIN+1'");
            count += 1;
        }
        starts.push(text.len());
        text.push_str(&format!("UNS{marker}'"));
        count += 1;
    }
    text.push_str(&format!("UNT+{count}+{reference}'"));
    (text, starts, count)
}

pub fn section(random: &mut Random) -> Limit {
    let (name, markers, broken, trimmed) = random.pick(&PLANS);
    let mut text = random.pick(&["UNA:+.? '", ""]).to_string();
    let advice = text.len();
    text.push_str("UNB+UNOA:1++++1'");
    let before = random.below(3);
    let mut segments = 2;
    for reference in 0..before {
        let sections = random.pick(&[&["+D", "+S"][..], &["+D"], &["+S"], &[]]);
        let (one, _, count) = message(random, sections, reference);
        text.push_str(&one);
        segments += count;
    }
    let (last, starts, count) = message(random, markers, before);
    let place = broken.map(|number| text.len() + starts[number]);
    text.push_str(&last);
    text.push_str(&format!("UNZ+{}+1'", before + 1));
    let length = text.len() - advice + 9 - trimmed;
    let verdict = match place {
        Some(place) => refused(ORDER, place),
        None => accepted((segments + count) as u32, before as u32 + 1, length),
    };
    Limit { input: text.into_bytes(), verdict, name }
}
