//! Tables of message structures, and whether one is sound.
//!
//! Change request 2026-08, "Message structures": eight big-endian bytes an
//! entry, which are a three-byte tag (zeros for a group's own), `M` mandatory or
//! `C` conditional, a 16-bit largest number of repeats (1 to 999), and a 16-bit
//! number of entries under it at any depth (1 or more for a group, else 0).
//! Entries are numbered from 0.

use crate::refusal::{refuse, Answer, TABLE};

/// Bytes an entry.
pub const ENTRY: usize = 8;

pub const MOST_ENTRIES: usize = 999;
pub const MOST_REPEATS: usize = 999;

/// Groups within groups; an outermost one has depth 1.
pub const DEEPEST: usize = 8;

#[derive(Clone, Copy, Debug, PartialEq, Eq)]
pub struct Entry {
    pub tag: [u8; 3],
    /// `M` or `C`.
    pub status: u8,
    pub repeats: usize,
    /// How many entries are under it, at any depth.
    pub under: usize,
}

impl Entry {
    /// The entry that eight bytes spell.
    fn of(bytes: &[u8]) -> Entry {
        let number = |place: usize| usize::from(bytes[place]) * 256 + usize::from(bytes[place + 1]);
        Entry {
            tag: [bytes[0], bytes[1], bytes[2]],
            status: bytes[3],
            repeats: number(4),
            under: number(6),
        }
    }

    pub fn is_group(&self) -> bool {
        self.tag == [0, 0, 0]
    }

    pub fn is_mandatory(&self) -> bool {
        self.status == b'M'
    }
}

/// The entries of a sound table, or 21 at the lowest entry at fault.
pub fn entries_of(table: &[u8]) -> Answer<Vec<Entry>> {
    let entries: Vec<Entry> = table.chunks_exact(ENTRY).map(Entry::of).collect();
    let fault = (0..entries.len()).find(|&number| is_at_fault(&entries, number));
    let not_whole = table.len() % ENTRY != 0;
    match fault {
        Some(number) => refuse(TABLE, number),
        None if not_whole => refuse(TABLE, entries.len()),
        None => Ok(entries),
    }
}

/// Is this entry at fault? Asked only where no entry before it is, so that the
/// groups before it end where they should.
fn is_at_fault(entries: &[Entry], number: usize) -> bool {
    let entry = &entries[number];
    let is_trigger = number > 0 && entries[number - 1].is_group();
    number >= MOST_ENTRIES
        || !matches!(entry.status, b'M' | b'C')
        || !(1..=MOST_REPEATS).contains(&entry.repeats)
        || (is_trigger && !may_be_trigger(entry))
        || match entry.is_group() {
            true => !group_ends_within(entries, number) || depth_of(entries, number) > DEEPEST,
            false => entry.under != 0 || !keeps_tag_rule(&entry.tag),
        }
}

/// A group's first entry is a segment, mandatory and once.
fn may_be_trigger(entry: &Entry) -> bool {
    !entry.is_group() && entry.is_mandatory() && entry.repeats == 1
}

/// Rule 6, and UNS is the only tag beginning `UN`.
fn keeps_tag_rule(tag: &[u8; 3]) -> bool {
    let may_stand = |byte: &u8| byte.is_ascii_uppercase() || byte.is_ascii_digit();
    tag.iter().all(may_stand) && (!tag.starts_with(b"UN") || tag == b"UNS")
}

/// The groups before this entry that hold it, the outermost first.
fn holders(entries: &[Entry], number: usize) -> Vec<usize> {
    let holds =
        |group: &usize| entries[*group].is_group() && group + entries[*group].under >= number;
    (0..number).filter(holds).collect()
}

/// A group has an entry or more, and ends within the group or table that holds
/// it: its last entry is one of theirs.
fn group_ends_within(entries: &[Entry], number: usize) -> bool {
    let last = number + entries[number].under;
    let last_allowed = match holders(entries, number).last() {
        Some(&holder) => holder + entries[holder].under,
        None => entries.len() - 1,
    };
    last > number && last <= last_allowed
}

fn depth_of(entries: &[Entry], number: usize) -> usize {
    holders(entries, number).len() + 1
}
