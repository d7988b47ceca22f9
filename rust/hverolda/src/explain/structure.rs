//! Refusals 21 and 22: which rule an entry of a table breaks, and what a table allows where
//! a message leaves it.

use super::{counted, explain, explained, is_tag, shown, Context, Explanation, Reason};
use crate::refusal::{Fault, Refusal};
use crate::MOST_ENTRIES;

/// Explains how [`judge_by_table`](crate::judge_by_table()) refused this input by this table.
///
/// ```
/// let input = b"UNB+UNOA:1+AA+BB++R1'UNH+1+ORDERS:1:901:UN'DTM+1'UNT+3+1'UNZ+1+R1'";
/// let table = b"BGMM\0\x01\0\0DTMC\0\x09\0\0";
/// let refusal = hverolda::judge_by_table(table, input).unwrap_err();
/// assert_eq!(
///     hverolda::explain_by_table(table, input, refusal).sentence,
///     "DTM stands in message 1 (segment 2) where the table allows BGM"
/// );
/// ```
#[must_use]
pub fn explain_by_table(table: &[u8], input: &[u8], refusal: Refusal) -> Explanation {
    match refusal.fault {
        Fault::Table => explained(None, refusal, Some(unsound(table, refusal.place))),
        Fault::Body => {
            let context = Context::of(input);
            let reason = context.as_ref().and_then(|context| left(table, context, refusal.place));
            explained(context.as_ref(), refusal, reason)
        }
        _ => explain(input, refusal),
    }
}

#[derive(Clone, Copy)]
struct Entry {
    tag: [u8; 3],
    status: u8,
    repeats: usize,
    under: usize,
}

impl Entry {
    fn is_group(&self) -> bool {
        self.tag == [0; 3]
    }
}

fn entries(table: &[u8]) -> Vec<Entry> {
    let number = |high: u8, low: u8| usize::from(u16::from_be_bytes([high, low]));
    let entry = |row: &[u8]| Entry {
        tag: [row[0], row[1], row[2]],
        status: row[3],
        repeats: number(row[4], row[5]),
        under: number(row[6], row[7]),
    };
    table.chunks_exact(8).map(entry).collect()
}

/// 21: the rule that this entry breaks.
fn unsound(table: &[u8], place: usize) -> Reason {
    let all = entries(table);
    let (found, expected) = match all.get(place) {
        _ if place >= MOST_ENTRIES => {
            (format!("{} entries", all.len()), format!("at most {MOST_ENTRIES} entries"))
        }
        None => {
            (counted(table.len() % 8, "byte", "bytes"), "eight bytes for each entry".to_string())
        }
        Some(entry) => row_fault(entry)
            .or_else(|| trigger_fault(&all, place))
            .or_else(|| group_fault(&all, place))
            .unwrap_or_default(),
    };
    let sentence = format!(
        "the table's entry {place}, from 0, is not sound: it has {found}; asked for: {expected}"
    );
    Reason::new(found, expected, sentence)
}

fn row_fault(entry: &Entry) -> Option<(String, String)> {
    let told = |found: String, expected: &str| Some((found, expected.to_string()));
    let tag = shown(&entry.tag);
    match entry {
        _ if !entry.is_group() && !is_tag(&entry.tag) => {
            told(format!("the tag {tag}"), "three of A to Z and 0 to 9")
        }
        _ if entry.tag.starts_with(b"UN") && &entry.tag != b"UNS" => {
            told(format!("the tag {tag}"), "a user segment's tag or UNS")
        }
        Entry { status, .. } if !matches!(status, b'M' | b'C') => told(
            format!("the status {}", shown(&[*status])),
            "M for mandatory or C for conditional",
        ),
        Entry { repeats, .. } if !(1..=999).contains(repeats) => {
            told(format!("{repeats} repeats"), "1 to 999 repeats")
        }
        Entry { under, .. } if entry.is_group() && *under == 0 => {
            told("nothing under a group".to_string(), "one entry or more")
        }
        Entry { under, .. } if !entry.is_group() && *under > 0 => told(
            format!("{} under a segment", counted(*under, "entry", "entries")),
            "none, since only groups have entries under them",
        ),
        _ => None,
    }
}

/// A group's first entry is a segment, mandatory and once.
fn trigger_fault(all: &[Entry], place: usize) -> Option<(String, String)> {
    let group = place.checked_sub(1).and_then(|before| all.get(before))?;
    if !group.is_group() || group.under == 0 {
        return None;
    }
    let entry = all[place];
    let found = match entry {
        _ if entry.is_group() => "a group as a group's first entry".to_string(),
        Entry { status: b'C', .. } => {
            format!("C for {}, a group's first segment", shown(&entry.tag))
        }
        Entry { repeats, .. } if repeats > 1 => {
            format!("{repeats} repeats for {}, a group's first segment", shown(&entry.tag))
        }
        _ => return None,
    };
    Some((found, "a segment, M and 1".to_string()))
}

/// Groups stand in one another at most eight deep, and end within what holds them.
fn group_fault(all: &[Entry], place: usize) -> Option<(String, String)> {
    let holders =
        (0..place).filter(|&group| all[group].is_group() && group + all[group].under >= place);
    let depth = holders.clone().count() + 1;
    let end = place + all[place].under;
    let limit = holders.map(|group| group + all[group].under).min().unwrap_or(all.len() - 1);
    match () {
        () if depth > 8 => Some((format!("a group {depth} deep"), "at most eight".to_string())),
        () if end > limit => Some((
            format!("{} under it", counted(all[place].under, "entry", "entries")),
            format!("at most {}, within what holds it", limit - place),
        )),
        () => None,
    }
}

/// A walk through a table that knows which tags it looked for since it last went on.
struct Walk<'a> {
    entries: &'a [Entry],
    tags: Vec<&'a [u8]>,
    at: usize,
    looked: Vec<[u8; 3]>,
    full: Option<usize>,
}

impl Walk<'_> {
    /// Goes through the entries from `start` to before `end`; false where a mandatory one
    /// cannot be met.
    fn through(&mut self, start: usize, end: usize) -> Option<bool> {
        let mut entry = start;
        while entry < end {
            if !self.one(entry)? {
                return Some(false);
            }
            entry += 1 + self.entries[entry].under;
        }
        Some(true)
    }

    fn one(&mut self, number: usize) -> Option<bool> {
        let entry = *self.entries.get(number)?;
        let tag = if entry.is_group() { self.entries.get(number + 1)?.tag } else { entry.tag };
        for taken in 0.. {
            let stands = self.tags.get(self.at) == Some(&&tag[..]);
            if stands && taken == entry.repeats {
                self.full = Some(taken);
            }
            if taken == entry.repeats {
                break;
            }
            if !stands {
                self.looked.push(tag);
                return Some(taken > 0 || entry.status == b'C');
            }
            self.at += 1;
            self.looked.clear();
            self.full = None;
            if entry.is_group() && !self.through(number + 2, number + 1 + entry.under)? {
                return Some(false);
            }
        }
        Some(true)
    }
}

/// 22: what the table allows where a message leaves it.
fn left(table: &[u8], context: &Context, place: usize) -> Option<Reason> {
    let number = context.number_at(place)?;
    let header = context.segments[..number].iter().rposition(|segment| segment.tag() == b"UNH")?;
    let of_message =
        context.segments[header + 1..].iter().take_while(|segment| segment.tag() != b"UNT");
    let entries = entries(table);
    let tags = of_message.map(|segment| segment.tag()).collect();
    let mut walk = Walk { entries: &entries, tags, at: 0, looked: Vec::new(), full: None };
    let met = walk.through(0, entries.len())?;
    let mut allowed: Vec<String> = Vec::new();
    for tag in walk.looked.iter().map(|tag| shown(tag)).chain(met.then(|| "UNT".to_string())) {
        if !allowed.contains(&tag) {
            allowed.push(tag);
        }
    }
    let expected = allowed.join(" or ");
    let (found, message) = (shown(context.segments[number].tag()), message(context, header));
    let sentence = match (walk.full, &found[..]) {
        (_, "UNT") => format!("{message} ends where the table still wants {expected}"),
        (Some(most), _) => format!(
            "{found} stands in {message} once more than the {most} times \
            that the table allows there; it allows {expected}"
        ),
        _ => format!("{found} stands in {message} where the table allows {expected}"),
    };
    Some(Reason::new(found, expected, sentence))
}

fn message(context: &Context, header: usize) -> String {
    let reference = shown(context.segments[header].element(1).component(0).spelled());
    format!("message {reference} (segment {})", header + 1)
}
