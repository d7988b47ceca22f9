//! What is left of a shelf that is not sound: the bytes that its pairs name.

use std::fs::{self, File, OpenOptions};
use std::io::{self, ErrorKind, Write};
use std::path::{Path, PathBuf};

use super::{trouble, ShelfTrouble};
use crate::{judge, Interchange, Refusal, LARGEST_SHELF, SLOTS};

/// What a pair of a shelf says, whether it is true or not.
#[derive(Clone, Copy, Debug, PartialEq, Eq)]
pub struct Pair {
    /// Whose pair it is.
    pub slot: usize,
    /// Whether the map calls the slot occupied.
    pub occupied: bool,
    /// Where the text is said to start.
    pub start: usize,
    /// How many bytes it is said to have.
    pub length: usize,
}

/// A text that was written out.
#[derive(Clone, Debug)]
pub struct Salvaged {
    /// The pair that named it.
    pub pair: Pair,
    /// Its file.
    pub path: PathBuf,
    /// How many bytes it has: fewer than the pair says where the shelf ends before.
    pub length: usize,
    /// What Judge says of it.
    pub judged: Result<Interchange, Refusal>,
}

/// Where the map stands, and where the pairs of versions 1 and 2 do.
const MAP: usize = 5;
const PAIRS: [usize; 2] = [13, 21];

fn number(bytes: &[u8]) -> usize {
    bytes.iter().fold(0, |number, byte| number << 8 | *byte as usize)
}

/// The pairs that name bytes of the shelf, where they begin at this place.
fn pairs(shelf: &[u8], first: usize) -> Vec<Pair> {
    let map = number(shelf.get(MAP..MAP + 8).unwrap_or(&[]));
    let pair = |slot: usize| {
        let place = first + 8 * slot;
        let pair = shelf.get(place..place + 8)?;
        let (start, length) = (number(&pair[..4]), number(&pair[4..]));
        let occupied = map >> slot & 1 == 1;
        Some(Pair { slot, occupied, start, length })
    };
    let names = |pair: &Pair| pair.length > 0 && pair.start < shelf.len();
    (0..SLOTS).filter_map(pair).filter(names).collect()
}

fn text<'a>(shelf: &'a [u8], pair: &Pair) -> &'a [u8] {
    let end = shelf.len().min(pair.start.saturating_add(pair.length)).min(LARGEST_SHELF);
    shelf.get(pair.start..end).unwrap_or(&[])
}

/// The pairs of the version under which more of them name what begins as a normal form
/// does; where as many do, of the version that the shelf says, or else of version 2.
pub(super) fn named(shelf: &[u8]) -> Vec<Pair> {
    let [old, new] = PAIRS.map(|first| pairs(shelf, first));
    let sound =
        |pairs: &[Pair]| pairs.iter().filter(|pair| text(shelf, pair).starts_with(b"UNA")).count();
    let says_old = shelf.get(4) == Some(&1);
    let is_old = sound(&old) > sound(&new) || (sound(&old) == sound(&new) && says_old);
    if is_old {
        old
    } else {
        new
    }
}

pub(super) fn write(shelf: &[u8], folder: &Path) -> Result<Vec<Salvaged>, ShelfTrouble> {
    match fs::create_dir(folder) {
        Err(error) if error.kind() == ErrorKind::AlreadyExists && folder.is_dir() => {}
        made => made.map_err(trouble(folder))?,
    }
    let salvage = |pair: Pair| -> Result<Salvaged, ShelfTrouble> {
        let path = folder.join(format!("{}.edi", pair.slot));
        let text = text(shelf, &pair);
        keep(&path, text).map_err(trouble(&path))?;
        Ok(Salvaged { pair, path, length: text.len(), judged: judge(text) })
    };
    let salvaged = named(shelf).into_iter().map(salvage).collect::<Result<Vec<_>, _>>()?;
    File::open(folder).and_then(|folder| folder.sync_all()).map_err(trouble(folder))?;
    Ok(salvaged)
}

fn keep(path: &Path, text: &[u8]) -> io::Result<()> {
    let mut file = OpenOptions::new().write(true).create_new(true).open(path)?;
    file.write_all(text)?;
    file.sync_all()
}
