//! What a shelf's file asks of the system. It is a trait, so that a test can stand in the
//! system's place: a disk that forgets what was not synced, an operator who renames files
//! between any two calls.

use std::fs::{self, File, OpenOptions};
use std::io::{self, Read, Write};
use std::os::unix::fs::{MetadataExt, OpenOptionsExt};
use std::path::{Path, PathBuf};
use std::thread;
use std::time::{Duration, Instant};

use super::linux;
use crate::LARGEST_SHELF;

/// How long a run waits for a lock: until this moment, or without end.
pub(crate) type Deadline = Option<Instant>;

/// Who may read a file that is made.
#[derive(Clone, Copy, Debug, PartialEq, Eq)]
pub(crate) enum Readers {
    /// Whoever the user's mask and the folder let.
    Usual,
    /// Nobody else, until it is dressed as another file.
    Nobody,
}

pub(crate) trait System {
    /// An open file, or folder. Its lock goes when it is dropped.
    type File;

    /// The name without links, as `realpath` gives it.
    fn resolve(&self, name: &Path) -> io::Result<PathBuf>;
    /// A regular file, to be read, or to be read and changed.
    fn open(&self, path: &Path, change: bool) -> io::Result<Self::File>;
    fn open_folder(&self, path: &Path) -> io::Result<Self::File>;
    /// A file where there is no name.
    fn create(&self, path: &Path, readers: Readers) -> io::Result<Self::File>;
    /// Locks a file against every other run: true where it has the lock, false where the
    /// moment passed.
    fn lock(&self, file: &Self::File, deadline: Deadline) -> io::Result<bool>;
    fn unlock(&self, file: &Self::File) -> io::Result<()>;
    /// Whether the path is a name of this file; a path that is no name is none.
    fn is_named(&self, file: &Self::File, path: &Path) -> io::Result<bool>;
    fn read(&self, file: &Self::File) -> io::Result<Vec<u8>>;
    fn write(&self, file: &Self::File, bytes: &[u8]) -> io::Result<()>;
    /// Gives a file another's owner, permissions and attributes; trouble where it cannot.
    fn dress(&self, file: &Self::File, like: &Self::File) -> io::Result<()>;
    /// What the file, or the folder, holds is on the disk when this returns.
    fn sync(&self, file: &Self::File) -> io::Result<()>;
    /// Each name becomes the other's, at once. False where the file system cannot do that.
    fn exchange(&self, one: &Path, other: &Path) -> io::Result<bool>;
    /// The file gets this name, and whatever had it loses it.
    fn rename(&self, from: &Path, to: &Path) -> io::Result<()>;
    /// The file gets this name too, which none has.
    fn link(&self, from: &Path, to: &Path) -> io::Result<()>;
    fn unlink(&self, path: &Path) -> io::Result<()>;
}

/// The system that there is.
pub(crate) struct Linux;

impl System for Linux {
    type File = File;

    fn resolve(&self, name: &Path) -> io::Result<PathBuf> {
        fs::canonicalize(name)
    }

    /// Opening a pipe would wait for whoever writes to it.
    fn open(&self, path: &Path, change: bool) -> io::Result<File> {
        match fs::metadata(path)?.is_file() {
            true => OpenOptions::new().read(true).write(change).open(path),
            false => Err(io::Error::new(io::ErrorKind::InvalidInput, "it is no regular file")),
        }
    }

    fn open_folder(&self, path: &Path) -> io::Result<File> {
        File::open(path)
    }

    fn create(&self, path: &Path, readers: Readers) -> io::Result<File> {
        let mode = if readers == Readers::Usual { 0o666 } else { 0o600 };
        OpenOptions::new().read(true).write(true).create_new(true).mode(mode).open(path)
    }

    fn lock(&self, file: &File, deadline: Deadline) -> io::Result<bool> {
        let deadline = match deadline {
            None => return linux::lock(file, true),
            Some(deadline) => deadline,
        };
        loop {
            if linux::lock(file, false)? {
                return Ok(true);
            }
            let left = deadline.saturating_duration_since(Instant::now());
            if left == Duration::ZERO {
                return Ok(false);
            }
            thread::sleep(left.min(Duration::from_millis(5)));
        }
    }

    fn unlock(&self, file: &File) -> io::Result<()> {
        linux::unlock(file)
    }

    fn is_named(&self, file: &File, path: &Path) -> io::Result<bool> {
        let held = file.metadata()?;
        match fs::metadata(path) {
            Ok(there) => Ok((held.dev(), held.ino()) == (there.dev(), there.ino())),
            Err(error) if error.kind() == io::ErrorKind::NotFound => Ok(false),
            Err(error) => Err(error),
        }
    }

    /// A byte more than the largest shelf is enough to see that a file is none.
    fn read(&self, file: &File) -> io::Result<Vec<u8>> {
        let mut bytes = Vec::new();
        file.take(LARGEST_SHELF as u64 + 1).read_to_end(&mut bytes)?;
        Ok(bytes)
    }

    fn write(&self, mut file: &File, bytes: &[u8]) -> io::Result<()> {
        file.write_all(bytes)
    }

    fn dress(&self, file: &File, like: &File) -> io::Result<()> {
        linux::dress(file, like)
    }

    /// Some file systems know no such thing of a folder, and say that what was asked is
    /// invalid.
    fn sync(&self, file: &File) -> io::Result<()> {
        match file.sync_all() {
            Err(error) if error.kind() == io::ErrorKind::InvalidInput => Ok(()),
            done => done,
        }
    }

    fn exchange(&self, one: &Path, other: &Path) -> io::Result<bool> {
        linux::exchange(one, other)
    }

    fn rename(&self, from: &Path, to: &Path) -> io::Result<()> {
        fs::rename(from, to)
    }

    fn link(&self, from: &Path, to: &Path) -> io::Result<()> {
        fs::hard_link(from, to)
    }

    fn unlink(&self, path: &Path) -> io::Result<()> {
        fs::remove_file(path)
    }
}
