//! Soups: short strings of significant bytes, of words, and of whole segments
//! in any order.
//!
//! Paper, clauses "From bytes to values" and "Refusals by number": these meet
//! the places between the rules.

use super::random::Random;

/// Any few bytes that matter.
pub fn byte_soup(random: &mut Random) -> Vec<u8> {
    let length = random.below(14);
    (0..length).map(|_| random.pick(b"UNAUNBUNZ+:*'?. ,14\x1d")).collect()
}

const WORDS: [&str; 28] = [
    "UNB", "UNH", "UNT", "UNZ", "UNG", "UNE", "UNS", "BGM", "UNA", "+", "+", ":", "'", "'", "?",
    "??", "?+", "?'", "1", "R1", "UNOA:1", "A", "b", "", "*", "*", "?*", "UNOA:4",
];

/// A beginning and then words that matter.
pub fn word_soup(random: &mut Random) -> Vec<u8> {
    let beginnings = [
        "UNB+UNOA:4",
        "UNB+UNOB:4+",
        "UNB+UNOC:4+",
        "UNB+UNOA:4++++1'UNH+1'",
        "UNA:+.?*'UNB+",
        "UNA:+.?*'UNB+UNOB:4++++1'",
        "UNA:+.?*'UNB+UNOA:1++++1'",
        "UNA:+.? 'UNB+UNOA:4++++1'",
        "UNB+",
        "UNB+UNOA:1+",
        "UNB+UNOB:2+A+B+C+R1'",
        "UNB+UNOA:1++++1'UNH+1'",
        "UNA:+.? 'UNB+",
        "UNA:+,  'UNB+UNOA:2++++1'",
        "UNB+UNOA:1++++1'",
    ];
    let mut text = random.pick(&beginnings).to_string();
    for _ in 0..random.below(16) {
        text.push_str(random.pick(&WORDS));
    }
    if random.chance(50) {
        text.push('\'');
    }
    text.into_bytes()
}

const SEGMENTS: [&str; 36] = [
    "UNH+1'",
    "UNH+1'",
    "UNH+1+X:1'",
    "UNT+2+1'",
    "UNT+2+1'",
    "UNT+3+1'",
    "UNT+02+1'",
    "UNG+1+1+1+1+1'",
    "UNG+++++1'",
    "UNE+1+1'",
    "UNE+2+1'",
    "UNZ+1+1'",
    "UNZ+2+1'",
    "UNS+D'",
    "BGM'",
    "LIN:1:2+A'",
    "UNT+2'",
    "UNH+'",
    "UNZ++1'",
    "BGM++:'",
    "UNB+UNOA:1++++1'",
    "UNT+2+1:'",
    "UNS+D'",
    "UNS+S'",
    "UNS+S:+X'",
    "UNS'",
    "UNT+2*+1'",
    "UNT+2+1*:'",
    "UNT+2*2+1'",
    "UNH+1*1'",
    "UNZ+1+*1'",
    "UNS+D*+X*Y'",
    "UNS+D*S'",
    "BGM*1'",
    "LIN:1*'",
    "LIN+A*B:C**D*+*'",
];

/// UNB and then segments in any order, mostly with true control elements; half
/// the time of version 4.
pub fn segment_soup(random: &mut Random) -> Vec<u8> {
    let headers = [
        "UNB+UNOA:1++++1'",
        "UNB+UNOA:1++++1'",
        "UNB+UNOB:4++++1'",
        "UNB+UNOA:4*++++1'",
        "UNA:+.? 'UNB+UNOA:4++++1'",
        "UNA:+.?*'UNB+UNOA:2++++1'",
    ];
    let mut text = random.pick(&headers).to_string();
    let plans: [&[usize]; 9] = [
        &[0, 3, 11],
        &[7, 0, 3, 9, 11],
        &[0, 14, 5, 11],
        &[0, 3, 0, 3, 12],
        &[8, 0, 3, 1, 4, 10, 11],
        &[0, 13, 5, 11],
        &[0, 23, 5, 0, 13, 5, 12],
        &[0, 26, 11],
        &[0, 35, 5, 0, 31, 5, 12],
    ];
    let mut plan = random.pick(&plans).to_vec();
    for _ in 0..random.below(4) {
        let place = random.below(plan.len());
        let other = random.below(SEGMENTS.len());
        match random.below(3) {
            0 => plan[place] = other,
            1 => plan.insert(place, other),
            _ => plan.push(other),
        }
    }
    for number in plan {
        text.push_str(SEGMENTS[number]);
    }
    text.into_bytes()
}
