//! What can go wrong.

use std::fmt;
use std::io;
use std::path::{Path, PathBuf};

/// Why a mailbox did not do what it was asked. Whatever is answered by one of these was not
/// done, or can be asked again with the same deliveries: what was kept is then told as such.
#[derive(Debug)]
#[non_exhaustive]
pub enum Error {
    /// There is no mailbox; `start` makes one.
    NotStarted(String),
    /// There is a mailbox, or something else, where one was to be started.
    Occupied(String),
    /// The tables are of another layout than this crate's.
    Layout {
        /// The number that stands in the store.
        store: u64,
        /// The number that this crate knows.
        ours: u64,
    },
    /// What is kept was judged and digested by other rules; `upgrade` judges it anew.
    Rules {
        /// The number that stands in the store.
        store: u64,
        /// The number that the linked library follows.
        ours: u64,
    },
    /// A network, a delivery or a date is not named as one can be.
    Name(String),
    /// The store says this.
    Store(String),
    /// The store says this, and the same may succeed when it is tried again: a writer was in the
    /// way, or a connection is lost. It was tried again, for as long as there was patience.
    Passing(String),
    /// A file cannot be read or moved.
    File(PathBuf, io::Error),
}

/// What a mailbox answers.
pub type Result<T> = std::result::Result<T, Error>;

impl Error {
    /// Whether the same may succeed when it is tried again.
    pub(crate) fn passes(&self) -> bool {
        matches!(self, Error::Passing(_))
    }

    pub(crate) fn of_file(path: &Path) -> impl Fn(io::Error) -> Error + '_ {
        move |error| Error::File(path.to_path_buf(), error)
    }
}

impl fmt::Display for Error {
    fn fmt(&self, f: &mut fmt::Formatter) -> fmt::Result {
        match self {
            Error::NotStarted(place) => write!(f, "{place}: there is no mailbox; start makes one"),
            Error::Occupied(place) => write!(f, "{place}: there is something already"),
            Error::Layout { store, ours } => {
                write!(f, "the store's tables have layout {store}, and this program knows {ours}")
            }
            Error::Rules { store, ours } => write!(
                f,
                "the store was kept by rules {store}, and these are rules {ours}: \
                 check --upgrade judges it anew"
            ),
            Error::Name(why) | Error::Store(why) | Error::Passing(why) => f.write_str(why),
            Error::File(path, error) => write!(f, "{}: {error}", path.display()),
        }
    }
}

impl std::error::Error for Error {}
