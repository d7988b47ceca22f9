//! The walk of a message's segments through a table.
//!
//! Change request 2026-08, "Message structures": each entry takes as many
//! segments or group repeats as it can before the next entry has its turn;
//! wherever its trigger stands, a group is gone through the same way, one level
//! deeper. The walk stops at a mandatory entry that can't be met, or at a
//! segment left over after the last entry. It never goes back.

use crate::message_table::Entry;

/// The walk cannot go on from where it stands.
struct Stopped;

/// The tags of a message's segments, and the number of the next one.
struct Walk<'a> {
    tags: &'a [&'a [u8]],
    at: usize,
}

/// The number of the segment before which the walk stopped, which is the number
/// of all segments where that is the UNT behind them; None where they match.
/// The entries are those of a sound table.
pub fn stopped_before(entries: &[Entry], tags: &[&[u8]]) -> Option<usize> {
    let mut walk = Walk { tags, at: 0 };
    let through = walk.go_through(entries).is_ok();
    let all = walk.at == tags.len();
    (!through || !all).then_some(walk.at)
}

impl Walk<'_> {
    /// One entry after the other, those under a group with their group.
    fn go_through(&mut self, entries: &[Entry]) -> Result<(), Stopped> {
        let mut rest = entries;
        while let Some((entry, behind)) = rest.split_first() {
            let (under, next) = behind.split_at(entry.under);
            self.take(entry, under)?;
            rest = next;
        }
        Ok(())
    }

    /// As many segments or group repeats as the entry can take.
    fn take(&mut self, entry: &Entry, under: &[Entry]) -> Result<(), Stopped> {
        let mut taken = 0;
        while taken < entry.repeats && self.next_is(&first_tag(entry, under)) {
            match entry.is_group() {
                true => self.go_through(under)?,
                false => self.at += 1,
            }
            taken += 1;
        }
        match taken == 0 && entry.is_mandatory() {
            true => Err(Stopped),
            false => Ok(()),
        }
    }

    fn next_is(&self, tag: &[u8; 3]) -> bool {
        self.tags.get(self.at).map_or(false, |next| next == tag)
    }
}

/// The tag with which a repeat of this entry begins: its own, or its trigger's.
fn first_tag(entry: &Entry, under: &[Entry]) -> [u8; 3] {
    match under.first() {
        Some(trigger) => trigger.tag,
        None => entry.tag,
    }
}
