//! A shelf in a file, which many runs may change at once. The file is replaced as a whole
//! by one that was written beside it, so that it holds the old shelf or the new one whatever
//! stops a run; and what is answered is on the disk.

mod linux;
#[cfg(test)]
mod model;
mod salvage;
mod system;

use std::error::Error;
use std::ffi::{OsStr, OsString};
use std::fmt;
use std::io::{self, ErrorKind};
use std::path::{Path, PathBuf};
use std::time::{Duration, Instant};

pub use salvage::{Pair, Salvaged};
use system::{Deadline, Linux, Readers, System};

use crate::{Refusal, Shelf, Shelved};

/// A shelf in a file of this name.
///
/// Runs that change one shelf wait for each other by a lock of the kernel, which goes with
/// the run that has it, however it ends. Whoever gets the lock asks whether the name is still
/// that file's, and asks again, under the folder's lock, when the new file takes its place:
/// so a shelf may be moved away, or removed, at any moment.
///
/// ```no_run
/// use hverolda::shelf_file::ShelfFile;
/// use hverolda::Shelved;
///
/// let shelf = ShelfFile::new("mailbox");
/// shelf.start(65_536)?;
/// let text = b"UNB+UNOA:1++++1'UNH+1'UNT+2+1'UNZ+1+1'";
/// assert_eq!(shelf.put(text)?, Shelved::New(0));
/// assert_eq!(shelf.find(text)?, Some(0));
/// # Ok::<(), hverolda::shelf_file::ShelfTrouble>(())
/// ```
#[derive(Clone, Debug)]
pub struct ShelfFile {
    name: PathBuf,
    wait: Option<Duration>,
}

/// Why something was not done with a shelf's file. Where it is not said otherwise, nothing
/// has changed.
#[derive(Debug)]
pub enum ShelfTrouble {
    /// The shelf refuses it.
    Refused(Refusal),
    /// This file, or folder, is in trouble. Where it is the folder that could not be brought
    /// to the disk, the change is made, but may be lost if the power fails.
    File(PathBuf, io::Error),
}

impl fmt::Display for ShelfTrouble {
    fn fmt(&self, f: &mut fmt::Formatter) -> fmt::Result {
        match self {
            ShelfTrouble::Refused(refusal) => refusal.fmt(f),
            ShelfTrouble::File(path, error) => write!(f, "{}: {error}", path.display()),
        }
    }
}

impl Error for ShelfTrouble {}

impl From<Refusal> for ShelfTrouble {
    fn from(refusal: Refusal) -> ShelfTrouble {
        ShelfTrouble::Refused(refusal)
    }
}

/// What [`ShelfFile::remove_text`] did.
#[derive(Clone, Copy, Debug, PartialEq, Eq)]
pub enum Removed {
    /// The text is gone; it had so many bytes.
    Gone(usize),
    /// The slot does not keep that interchange, and nothing has changed; this one does, if
    /// any.
    NotThere(Option<usize>),
}

impl ShelfFile {
    /// The shelf in the file of this name. A link is followed, but by
    /// [`start`](ShelfFile::start).
    pub fn new(name: impl Into<PathBuf>) -> ShelfFile {
        ShelfFile { name: name.into(), wait: None }
    }

    /// The same, but each operation waits for others only so long: then it is in trouble.
    #[must_use]
    pub fn waiting(self, wait: Duration) -> ShelfFile {
        ShelfFile { wait: Some(wait), ..self }
    }

    fn work(&self) -> Work<'_, Linux> {
        let deadline = self.wait.and_then(|wait| Instant::now().checked_add(wait));
        Work { system: &Linux, name: &self.name, deadline }
    }

    /// Makes the file, an empty shelf of this size.
    ///
    /// # Errors
    ///
    /// 19 where no shelf has that size; trouble where there is a file of that name.
    pub fn start(&self, size: usize) -> Result<(), ShelfTrouble> {
        // a byte more than the largest is enough to be refused
        let shelf = Shelf::start(vec![0; size.min(crate::LARGEST_SHELF + 1)])?;
        self.work().start(shelf.as_bytes())
    }

    /// The shelf as it is now, to be looked at. It may be changed meanwhile, and what it
    /// holds need not be on the disk yet.
    ///
    /// # Errors
    ///
    /// Trouble where the file cannot be read.
    pub fn read(&self) -> Result<Shelf<Vec<u8>>, ShelfTrouble> {
        let (_, file) = self.work().open_to_read()?;
        Linux.read(&file).map(Shelf::over).map_err(trouble(&self.name))
    }

    /// Does something to the shelf while no other run does. It may be done again, where
    /// the shelf was moved away meanwhile, on the one that is then there.
    ///
    /// # Errors
    ///
    /// What the change refuses; trouble with the file.
    pub fn change<T>(
        &self,
        change: impl Fn(&mut Shelf<Vec<u8>>) -> Result<T, Refusal>,
    ) -> Result<T, ShelfTrouble> {
        self.work().change(change)
    }

    /// [`Shelf::put`], after which the shelf with it is on the disk.
    ///
    /// # Errors
    ///
    /// Those of [`Shelf::put`]; trouble with the file.
    pub fn put(&self, interchange: &[u8]) -> Result<Shelved, ShelfTrouble> {
        self.change(|shelf| shelf.put(interchange))
    }

    /// [`Shelf::find`]; what it found, or did not, is so on the disk.
    ///
    /// # Errors
    ///
    /// Those of [`Shelf::find`]; trouble with the file.
    pub fn find(&self, interchange: &[u8]) -> Result<Option<usize>, ShelfTrouble> {
        self.work().look(|shelf| shelf.find(interchange))
    }

    /// [`Shelf::remove`], after which the shelf without it is on the disk. Do not repeat it
    /// where the answer was lost: the slot may keep another text by then. See
    /// [`remove_text`](ShelfFile::remove_text).
    ///
    /// # Errors
    ///
    /// Those of [`Shelf::remove`]; trouble with the file.
    pub fn remove(&self, slot: usize) -> Result<usize, ShelfTrouble> {
        self.change(|shelf| shelf.remove(slot))
    }

    /// The same, but only where the slot keeps that interchange: it may be repeated.
    ///
    /// # Errors
    ///
    /// Those of [`Shelf::find`]; trouble with the file.
    pub fn remove_text(&self, slot: usize, interchange: &[u8]) -> Result<Removed, ShelfTrouble> {
        self.change(|shelf| match shelf.find(interchange)? {
            Some(found) if found == slot => shelf.remove(slot).map(Removed::Gone),
            found => Ok(Removed::NotThere(found)),
        })
    }

    /// Gives the file the name `new`, and puts an empty shelf of the same size, owner,
    /// permissions and attributes in its place, at once: at every moment each text is in
    /// one file and in no other. It may be damaged, but has to have a shelf's size. Its size
    /// is returned.
    ///
    /// The name must be free, or that of an empty shelf of the same size, which is all that
    /// a run leaves that was stopped before it was done.
    ///
    /// # Errors
    ///
    /// 19 where the file has not the size of a shelf; trouble with the file, with the new
    /// name, or where the file system cannot exchange two names.
    pub fn move_to(&self, new: impl AsRef<Path>) -> Result<usize, ShelfTrouble> {
        self.work().move_to(new.as_ref())
    }

    /// Writes what the pairs of a shelf name into files of a folder, whether it is sound or
    /// not and whatever Judge says of it: `3.edi` is what the pair of slot 3 names. The folder
    /// is made where it is not there, and no file of it is written over.
    ///
    /// # Errors
    ///
    /// Trouble with the file, the folder or a file in it.
    pub fn salvage(&self, folder: impl AsRef<Path>) -> Result<Vec<Salvaged>, ShelfTrouble> {
        salvage::write(self.read()?.as_bytes(), folder.as_ref())
    }
}

fn trouble(path: &Path) -> impl Fn(io::Error) -> ShelfTrouble + '_ {
    move |error| ShelfTrouble::File(path.to_path_buf(), error)
}

/// An operation on the shelf's file of a name.
struct Work<'a, S> {
    system: &'a S,
    name: &'a Path,
    deadline: Deadline,
}

/// The shelf's file, which this run has locked, and its name without links.
struct Held<S: System> {
    at: PathBuf,
    file: S::File,
}

/// A file beside it, of this run's own, which has locked it too: by that others see that
/// the run lives.
struct New<S: System> {
    path: PathBuf,
    file: S::File,
}

struct Folder<S: System> {
    path: PathBuf,
    file: S::File,
}

/// How many numbers are looked at for files that killed runs left.
const CLEARED: usize = 8;

impl<S: System> Work<'_, S> {
    fn start(&self, bytes: &[u8]) -> Result<(), ShelfTrouble> {
        let folder = self.folder(self.name)?;
        let new = self.written(&folder, self.name, bytes, None)?;
        let done = self.lock(&folder.file, &folder.path).and_then(|()| {
            // unlike a renaming, a link fails where there is a file
            self.system.link(&new.path, self.name).map_err(trouble(self.name))
        });
        self.discard(&new, &new.path);
        done.and_then(|()| self.sync(&folder))
    }

    fn open_to_read(&self) -> Result<(PathBuf, S::File), ShelfTrouble> {
        let at = self.system.resolve(self.name).map_err(trouble(self.name))?;
        let file = self.system.open(&at, false).map_err(trouble(self.name))?;
        Ok((at, file))
    }

    /// Needs no lock: a file that was opened stays what it was when another takes its place.
    /// That one's name may not be on the disk yet, so that the folder is synced.
    fn look<T>(
        &self,
        look: impl Fn(&Shelf<Vec<u8>>) -> Result<T, Refusal>,
    ) -> Result<T, ShelfTrouble> {
        let (at, file) = self.open_to_read()?;
        let shelf = self.system.read(&file).map(Shelf::over).map_err(trouble(self.name))?;
        let told = look(&shelf)?;
        self.settle(&file, &at)?;
        Ok(told)
    }

    fn change<T>(
        &self,
        change: impl Fn(&mut Shelf<Vec<u8>>) -> Result<T, Refusal>,
    ) -> Result<T, ShelfTrouble> {
        loop {
            let held = self.open()?;
            let bytes = self.system.read(&held.file).map_err(trouble(self.name))?;
            let mut shelf = Shelf::over(bytes.clone());
            let told = change(&mut shelf);
            if shelf.as_bytes() == bytes {
                // the run that made it so may have been killed before it was on the disk
                self.settle(&held.file, &held.at)?;
                return Ok(told?);
            }
            if self.replace(&held, shelf.as_bytes())? {
                return Ok(told?);
            }
        }
    }

    fn move_to(&self, to: &Path) -> Result<usize, ShelfTrouble> {
        loop {
            let held = self.open()?;
            let size = self.system.read(&held.file).map_err(trouble(self.name))?.len();
            let empty = Shelf::start(vec![0; size])?;
            let (folder, new_folder) = (self.folder(&held.at)?, self.folder(to)?);
            let like = Some(&held.file);
            let new = self.written(&folder, &held.at, empty.as_bytes(), like)?;
            let done = self
                .lock(&folder.file, &folder.path)
                .and_then(|()| self.move_held(&held, &new, to, empty.as_bytes()));
            self.discard(&new, &new.path);
            if done? {
                self.sync(&new_folder)?;
                self.sync(&folder)?;
                return Ok(size);
            }
        }
    }

    /// Waits until no other run has it, and looks whether the name is its own still.
    fn open(&self) -> Result<Held<S>, ShelfTrouble> {
        loop {
            let at = self.system.resolve(self.name).map_err(trouble(self.name))?;
            let file = self.system.open(&at, true).map_err(trouble(self.name))?;
            self.lock(&file, self.name)?;
            let held = Held { at, file };
            if self.is_still(&held)? {
                return Ok(held);
            }
        }
    }

    /// Whether the name still names it, by whatever links.
    fn is_still(&self, held: &Held<S>) -> Result<bool, ShelfTrouble> {
        match self.system.resolve(self.name) {
            Ok(at) if at == held.at => {
                self.system.is_named(&held.file, &at).map_err(trouble(self.name))
            }
            Err(error) if error.kind() != ErrorKind::NotFound => Err(trouble(self.name)(error)),
            _ => Ok(false),
        }
    }

    fn lock(&self, file: &S::File, path: &Path) -> Result<(), ShelfTrouble> {
        match self.system.lock(file, self.deadline) {
            Ok(true) => Ok(()),
            Ok(false) => {
                let late = "another run has its lock, and did not give it back in time";
                Err(trouble(path)(io::Error::new(ErrorKind::TimedOut, late)))
            }
            Err(error) => Err(trouble(path)(error)),
        }
    }

    fn folder(&self, path: &Path) -> Result<Folder<S>, ShelfTrouble> {
        let path = match path.parent() {
            Some(parent) if parent != Path::new("") => parent,
            _ => Path::new("."),
        };
        let file = self.system.open_folder(path).map_err(trouble(path))?;
        Ok(Folder { path: path.to_path_buf(), file })
    }

    fn sync(&self, folder: &Folder<S>) -> Result<(), ShelfTrouble> {
        self.system.sync(&folder.file).map_err(trouble(&folder.path))
    }

    /// A file that was only looked at, and its name, are on the disk when this returns.
    fn settle(&self, file: &S::File, at: &Path) -> Result<(), ShelfTrouble> {
        self.system.sync(file).map_err(trouble(self.name))?;
        self.sync(&self.folder(at)?)
    }

    /// Puts these bytes in its place; false where the name was another file's by then, and
    /// nothing has changed.
    fn replace(&self, held: &Held<S>, bytes: &[u8]) -> Result<bool, ShelfTrouble> {
        let folder = self.folder(&held.at)?;
        let new = self.written(&folder, &held.at, bytes, Some(&held.file))?;
        let done =
            self.lock(&folder.file, &folder.path).and_then(|()| self.exchange_held(held, &new));
        self.discard(&new, &new.path);
        if done? {
            self.sync(&folder)?;
            return Ok(true);
        }
        Ok(false)
    }

    /// Under the folder's lock, so that no other run renames meanwhile. Another program may,
    /// since it knows of no lock: hence the two names are exchanged, which fails where the
    /// name is gone, and undone where it turns out to have been another file's.
    fn exchange_held(&self, held: &Held<S>, new: &New<S>) -> Result<bool, ShelfTrouble> {
        if !self.is_still(held)? {
            return Ok(false);
        }
        match self.system.exchange(&new.path, &held.at) {
            Ok(true) => {}
            Ok(false) => {
                let done = self.system.rename(&new.path, &held.at);
                return done.map(|()| true).map_err(trouble(&new.path));
            }
            Err(error) if error.kind() == ErrorKind::NotFound => return Ok(false),
            Err(error) => return Err(trouble(&new.path)(error)),
        }
        if self.system.is_named(&held.file, &new.path).map_err(trouble(&new.path))? {
            let _ = self.system.unlink(&new.path);
            return Ok(true);
        }
        self.system.exchange(&new.path, &held.at).map_err(trouble(&new.path))?;
        Ok(false)
    }

    /// The empty one gets the new name; then the two names are exchanged. A run that is
    /// stopped between them leaves an empty shelf under the new name, and nothing else.
    fn move_held(
        &self,
        held: &Held<S>,
        new: &New<S>,
        to: &Path,
        empty: &[u8],
    ) -> Result<bool, ShelfTrouble> {
        if !self.is_still(held)? {
            return Ok(false);
        }
        self.make_way(held, to, empty)?;
        self.system.link(&new.path, to).map_err(trouble(to))?;
        self.discard(new, &new.path);
        let done = match self.system.exchange(&held.at, to) {
            Ok(true) if self.system.is_named(&held.file, to).map_err(trouble(to))? => {
                return Ok(true);
            }
            // as in `exchange_held`
            Ok(true) => self.system.exchange(&held.at, to).map(|_| false).map_err(trouble(to)),
            Ok(false) => {
                let why = "this file system cannot exchange two names";
                Err(trouble(to)(io::Error::new(ErrorKind::Unsupported, why)))
            }
            Err(error) if error.kind() == ErrorKind::NotFound => Ok(false),
            Err(error) => Err(trouble(to)(error)),
        };
        self.discard(new, to);
        done
    }

    /// An empty shelf, of which no other run has the lock, is what a stopped move left.
    fn make_way(&self, held: &Held<S>, to: &Path, empty: &[u8]) -> Result<(), ShelfTrouble> {
        let there = || io::Error::from_raw_os_error(libc::EEXIST);
        let left = match self.system.open(to, false) {
            Ok(left) => left,
            Err(error) if error.kind() == ErrorKind::NotFound => return Ok(()),
            Err(_) => return Err(trouble(to)(there())),
        };
        let is_free = self.system.lock(&left, Some(Instant::now())).map_err(trouble(to))?;
        let is_left = is_free
            && self.system.is_named(&left, to).map_err(trouble(to))?
            && !self.system.is_named(&held.file, to).map_err(trouble(to))?
            && self.system.read(&left).map_err(trouble(to))? == empty;
        match is_left {
            true => self.system.unlink(to).map_err(trouble(to)),
            false => Err(trouble(to)(there())),
        }
    }

    /// A file beside it of these bytes, which are on the disk.
    fn written(
        &self,
        folder: &Folder<S>,
        at: &Path,
        bytes: &[u8],
        like: Option<&S::File>,
    ) -> Result<New<S>, ShelfTrouble> {
        let readers = if like.is_some() { Readers::Nobody } else { Readers::Usual };
        self.lock(&folder.file, &folder.path)?;
        let new = self.beside(folder, at, readers);
        self.system.unlock(&folder.file).map_err(trouble(&folder.path))?;
        let new = new?;
        let dress = || match like {
            Some(like) => self.system.dress(&new.file, like).map_err(trouble(self.name)),
            None => Ok(()),
        };
        let written = self.system.write(&new.file, bytes).map_err(trouble(&new.path));
        let synced = || self.system.sync(&new.file).map_err(trouble(&new.path));
        let done = written.and_then(|()| dress()).and_then(|()| synced());
        if done.is_err() {
            self.discard(&new, &new.path);
        }
        done.map(|()| new)
    }

    /// Makes a file beside it under the lowest number that no living run has. Files of runs
    /// that live no more go first.
    fn beside(
        &self,
        folder: &Folder<S>,
        at: &Path,
        readers: Readers,
    ) -> Result<New<S>, ShelfTrouble> {
        self.clear(at);
        for number in 0..1_000 {
            let path = hidden(at, &number.to_string());
            match self.system.create(&path, readers) {
                Ok(file) => {
                    self.lock(&file, &path)?;
                    return Ok(New { path, file });
                }
                Err(error) if error.kind() == ErrorKind::AlreadyExists => {}
                Err(error) => {
                    let why = format!("no file can be made in this folder: {error}");
                    return Err(trouble(&folder.path)(io::Error::new(error.kind(), why)));
                }
            }
        }
        let why = "too many files were left beside the shelf, and cannot be removed";
        Err(trouble(&folder.path)(io::Error::new(ErrorKind::AlreadyExists, why)))
    }

    /// Removes what killed runs left: a file that can be locked is no living run's, since
    /// one is made and locked, and looked at here, under the folder's lock alone. The two last
    /// names are those that earlier versions gave.
    fn clear(&self, at: &Path) {
        let numbers = (0..CLEARED).map(|number| number.to_string());
        for ending in numbers.chain(["new", "start"].map(str::to_string)) {
            let path = hidden(at, &ending);
            let left = self.system.open(&path, false);
            let is_left = left.and_then(|left| self.system.lock(&left, Some(Instant::now())));
            if let Ok(true) = is_left {
                let _ = self.system.unlink(&path);
            }
        }
    }

    /// Takes a name from a file of this run; one that is another's by now stays.
    fn discard(&self, new: &New<S>, path: &Path) {
        if let Ok(true) = self.system.is_named(&new.file, path) {
            let _ = self.system.unlink(path);
        }
    }
}

/// The hidden name beside a shelf with this ending.
fn hidden(path: &Path, ending: &str) -> PathBuf {
    let mut name = OsString::from(".");
    name.push(path.file_name().unwrap_or_else(|| OsStr::new("")));
    name.push(".hverolda-");
    name.push(ending);
    path.with_file_name(name)
}
