//! Interchanges to put on a shelf: small ones in several spellings, some
//! longer, and some that Judge refuses.

use std::collections::HashMap;

use second::generator::{any_input, any_valid, same_contents, with_breaks, Draft, Random};
use second::level::Level;
use second::operations::{judge, normalise};
use second::refusal::LONGEST;
use second::service_characters::{PRINTABLE, PRINTABLE_4};

/// How an input spells its text.
pub const NORMAL: &str = "the normal form itself";
pub const NO_ADVICE: &str = "without an advice";
pub const CHARACTERS: &str = "under other service characters";
pub const BREAKS: &str = "with line breaks";
pub const EMPTY_ENDS: &str = "with empty ends";

pub struct Spelling {
    pub input: Vec<u8>,
    pub name: &'static str,
}

/// A normal form and interchanges that have it.
pub struct Text {
    pub form: Vec<u8>,
    pub spellings: Vec<Spelling>,
}

pub struct Pool {
    /// So small that 64 of them are judged in no time.
    pub small: Vec<Text>,
    pub middle: Vec<Text>,
    /// Up to the longest normal form.
    pub long: Vec<Text>,
    /// Inputs that Judge refuses.
    refused: Vec<Vec<u8>>,
    long_refused: Vec<Vec<u8>>,
    small_numbers: HashMap<Vec<u8>, usize>,
}

const SMALL: usize = 110;
const MIDDLE: usize = 24;

type Segment = Vec<Vec<Vec<Vec<u8>>>>;

/// A segment whose elements have one value each.
fn segment(values: &[&str]) -> Segment {
    values.iter().map(|value| vec![vec![value.as_bytes().to_vec()]]).collect()
}

/// An interchange of one message, the text of which has some 50 bytes.
fn small_draft(random: &mut Random, number: usize) -> Draft {
    let width = random.pick(&[3, 3, 3, 4, 5, 14]);
    let reference = format!("{number:0width$}");
    let mut header = segment(&["UNB", "UNOA", "", "", "", &reference]);
    let version = random.pick(&["1", "2", "4"]);
    header[1][0].push(version.into());
    let mut segments = vec![header, segment(&["UNH", "1"])];
    if random.chance(30) {
        let length = random.pick(&[1, 5, 12]);
        let value = "+:?'A".chars().cycle().take(length).collect::<String>();
        let mut order = segment(&["BGM", &value]);
        if version == "4" && random.chance(50) {
            order[1].push(vec![b"A*B".to_vec()]);
        }
        segments.push(order);
    }
    let count = segments.len().to_string();
    segments.extend([segment(&["UNT", &count, "1"]), segment(&["UNZ", "1", &reference])]);
    let comma = random.chance(20);
    let mut characters = if version == "4" { PRINTABLE_4 } else { PRINTABLE };
    characters.mark = if comma { b',' } else { b'.' };
    Draft { characters, advice: comma, level: Level::A, segments }
}

/// One value of so many bytes, every third of which is released.
fn long_draft(bytes: usize) -> Draft {
    let mut draft = small_draft(&mut Random::new(0), 0);
    let value = "AB+".chars().cycle().take(bytes).collect::<String>();
    draft.segments.insert(2, segment(&["FTX", &value]));
    let count = (draft.segments.len() - 2).to_string();
    let trailer = draft.segments.len() - 2;
    draft.segments[trailer][1][0][0] = count.into();
    draft
}

fn normal_form(input: &[u8]) -> Vec<u8> {
    let mut form = vec![0; LONGEST];
    let length = normalise(input, &mut form).expect("what goes on a shelf is accepted");
    form.truncate(length);
    form
}

fn text(random: &mut Random, draft: &Draft) -> Text {
    let plain = draft.spelled();
    let form = normal_form(&plain);
    let mut padded = draft.clone();
    let last = padded.segments.len() - 1;
    padded.segments[random.between(1, last)].push(vec![vec![Vec::new(); 2]]);
    let mut spellings = vec![
        Spelling { input: form.clone(), name: NORMAL },
        Spelling { input: with_breaks(random, &form).input, name: BREAKS },
        Spelling { input: padded.spelled(), name: EMPTY_ENDS },
    ];
    if !draft.advice {
        spellings.push(Spelling { input: plain, name: NO_ADVICE });
    }
    for _ in 0..2 {
        let other = same_contents(random, draft);
        if other.characters != draft.characters {
            spellings.push(Spelling { input: other.spelled(), name: CHARACTERS });
        }
    }
    spellings.retain(|spelling| spelling.input.len() <= LONGEST);
    Text { form, spellings }
}

/// Up to four inputs of each number that Judge refuses with.
fn refused_inputs(random: &mut Random) -> Vec<Vec<u8>> {
    let mut refused = vec![vec![b'A'; LONGEST + 1]];
    let mut met = [0; 14];
    for _ in 0..4_000 {
        let input = any_input(random);
        if let Err(refusal) = judge(&input) {
            let count = &mut met[refusal.number as usize];
            *count += 1;
            if *count <= 4 {
                refused.push(input);
            }
        }
    }
    refused
}

impl Pool {
    pub fn new(random: &mut Random) -> Pool {
        let mut small: Vec<Text> = Vec::new();
        let mut small_numbers = HashMap::new();
        for number in 0..SMALL {
            let draft = small_draft(random, number);
            let text = text(random, &draft);
            small_numbers.insert(text.form.clone(), number);
            small.push(text);
        }
        let middle = (0..MIDDLE)
            .map(|_| {
                let draft = any_valid(random);
                text(random, &draft)
            })
            .collect();
        let long = [2_000, 12_000, 23_940]
            .map(|bytes| text(random, &long_draft(bytes)))
            .into_iter()
            .collect();
        let (refused, long_refused) =
            refused_inputs(random).into_iter().partition(|input| input.len() < 1_000);
        Pool { small, middle, long, refused, long_refused, small_numbers }
    }

    /// The number of a small text.
    pub fn number_of(&self, form: &[u8]) -> Option<usize> {
        self.small_numbers.get(form).copied()
    }

    /// An input that Judge refuses; seldom a long one.
    pub fn any_refused(&self, random: &mut Random) -> &[u8] {
        let list = if random.below(100) == 0 { &self.long_refused } else { &self.refused };
        &list[random.below(list.len())]
    }
}
