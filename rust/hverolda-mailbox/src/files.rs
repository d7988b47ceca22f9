//! Files: their bytes, their pieces, and keeping these in batches.

use std::fs::File;
use std::io::Read;
use std::path::Path;
use std::sync::Arc;

use hverolda::pieces;
use memmap2::Mmap;

use crate::delivery::Delivery;
use crate::error::{Error, Result};
use crate::keeping::{Answer, Item};
use crate::mailbox::Mailbox;

/// The most items of a batch, and the most bytes.
const BATCH: usize = 1000;
const BATCH_BYTES: usize = 8 << 20;

/// Files over this size are mapped, so that their size costs no memory.
const READ: u64 = 1 << 20;

/// The bytes of a file of any length, which has interchanges end to end.
pub struct Source(Bytes);

enum Bytes {
    Read(Vec<u8>),
    Mapped(Mmap),
}

impl Source {
    /// Opens a file of this name.
    ///
    /// # Errors
    ///
    /// Where it cannot be read.
    pub fn open(path: &Path) -> Result<Source> {
        let told = Error::of_file(path);
        let mut file = File::open(path).map_err(&told)?;
        let about = file.metadata().map_err(&told)?;
        if about.is_file() && about.len() > READ {
            return map(&file).map_err(&told);
        }
        let mut bytes = Vec::new();
        file.read_to_end(&mut bytes).map_err(&told)?;
        Ok(Source(Bytes::Read(bytes)))
    }

    /// These bytes, as of a file.
    #[must_use]
    pub fn of(bytes: Vec<u8>) -> Source {
        Source(Bytes::Read(bytes))
    }

    /// All of them.
    #[must_use]
    pub fn bytes(&self) -> &[u8] {
        match &self.0 {
            Bytes::Read(bytes) => bytes,
            Bytes::Mapped(bytes) => bytes,
        }
    }

    /// The pieces, as items of a delivery. What is kept is a copy of its own, whatever others do
    /// to the file in the meantime: of a piece, as far as it can be judged.
    pub fn items(&self, delivery: Delivery) -> impl Iterator<Item = Item> + '_ {
        let delivery = Arc::new(delivery);
        pieces(self.bytes()).enumerate().map(move |(at, piece)| Item {
            delivery: Arc::clone(&delivery),
            piece: at as u64,
            offset: piece.range.start as u64,
            bytes: piece.bytes[..piece.bytes.len().min(hverolda::LONGEST + 1)].to_vec(),
        })
    }
}

#[allow(unsafe_code)]
fn map(file: &File) -> std::io::Result<Source> {
    // SAFETY: the bytes are only read. Whoever cuts the file short in the meantime ends this
    // program by a signal, which loses nothing that was answered; whoever changes it changes where
    // it is cut, and no piece after it was copied.
    unsafe { Mmap::map(file) }.map(|bytes| Source(Bytes::Mapped(bytes)))
}

/// Keeps items in batches, each of which is a transaction.
pub struct Keeper<'a> {
    mailbox: &'a mut Mailbox,
    most: usize,
    items: Vec<Item>,
    bytes: usize,
}

impl<'a> Keeper<'a> {
    /// A keeper for this mailbox, with batches of at most so many items, and of some 8 MB; 0 is
    /// for 1,000.
    #[must_use]
    pub fn new(mailbox: &'a mut Mailbox, most: usize) -> Keeper<'a> {
        let most = if most == 0 { BATCH } else { most };
        Keeper { mailbox, most, items: Vec::new(), bytes: 0 }
    }

    /// Takes an item; where that makes a batch, keeps it, and answers for all of its items.
    ///
    /// # Errors
    ///
    /// As [`Mailbox::keep`].
    pub fn add(&mut self, item: Item) -> Result<Vec<(Item, Answer)>> {
        self.bytes += item.bytes.len();
        self.items.push(item);
        match self.items.len() >= self.most || self.bytes >= BATCH_BYTES {
            true => self.flush(),
            false => Ok(Vec::new()),
        }
    }

    /// Keeps what was taken and not kept yet.
    ///
    /// # Errors
    ///
    /// As [`Mailbox::keep`].
    pub fn flush(&mut self) -> Result<Vec<(Item, Answer)>> {
        if self.items.is_empty() {
            return Ok(Vec::new());
        }
        let answers = self.mailbox.keep(&self.items)?;
        self.bytes = 0;
        Ok(self.items.drain(..).zip(answers).collect())
    }
}
