//! The calls of Linux that Rust's library has no names for.

use std::collections::BTreeMap;
use std::ffi::{CString, OsString};
use std::fs::File;
use std::io;
use std::os::unix::ffi::OsStrExt;
use std::os::unix::fs::{MetadataExt, PermissionsExt};
use std::os::unix::io::AsRawFd;
use std::path::Path;

use xattr::FileExt;

/// Asks for the lock of an open file, which goes with the last descriptor, and waits for it
/// where that is wanted; false where another has it.
pub(super) fn lock(file: &File, wait: bool) -> io::Result<bool> {
    let operation = if wait { libc::LOCK_EX } else { libc::LOCK_EX | libc::LOCK_NB };
    match flock(file, operation) {
        Ok(()) => Ok(true),
        Err(error) if !wait && error.kind() == io::ErrorKind::WouldBlock => Ok(false),
        Err(error) => Err(error),
    }
}

pub(super) fn unlock(file: &File) -> io::Result<()> {
    flock(file, libc::LOCK_UN)
}

#[allow(unsafe_code)]
fn flock(file: &File, operation: i32) -> io::Result<()> {
    loop {
        // SAFETY: flock takes any numbers, and reads and writes no memory of ours.
        if unsafe { libc::flock(file.as_raw_fd(), operation) } == 0 {
            return Ok(());
        }
        let error = io::Error::last_os_error();
        if error.kind() != io::ErrorKind::Interrupted {
            return Err(error);
        }
    }
}

/// Exchanges two names; false where the file system, or the kernel, knows no such thing.
#[allow(unsafe_code)]
pub(super) fn exchange(one: &Path, other: &Path) -> io::Result<bool> {
    let [one, other] = [one, other].map(|path| CString::new(path.as_os_str().as_bytes()));
    let (one, other, here) = (one?, other?, libc::AT_FDCWD);
    // SAFETY: both are strings that end with a zero byte and live until the call is over.
    let done =
        unsafe { libc::renameat2(here, one.as_ptr(), here, other.as_ptr(), libc::RENAME_EXCHANGE) };
    if done == 0 {
        return Ok(true);
    }
    let error = io::Error::last_os_error();
    match error.raw_os_error() {
        Some(libc::EINVAL | libc::ENOSYS | libc::EOPNOTSUPP) => Ok(false),
        _ => Err(error),
    }
}

/// Gives a file another's owner, group, access control list, extended attributes and
/// permissions, in this order: nobody may read it meanwhile who may not read the other. Then
/// it looks whether they are there, since some file systems forget what they cannot keep.
pub(super) fn dress(file: &File, like: &File) -> io::Result<()> {
    let other = like.metadata()?;
    let (owner, group) = (other.uid(), other.gid());
    let of_owner = || format!("its owner {owner} and group {group}");
    let now = file.metadata()?;
    if (now.uid(), now.gid()) != (owner, group) {
        own(file, owner, group).map_err(|error| unkept(&of_owner(), &error))?;
    }
    let wanted = attributes(like)?;
    let set = give(file, &wanted);
    set.map_err(|(name, error)| unkept(&format!("its attribute {name}"), &error))?;
    file.set_permissions(other.permissions())?;
    let now = file.metadata()?;
    let forgotten = io::Error::new(io::ErrorKind::Other, "the file system does not take it");
    if (now.uid(), now.gid()) != (owner, group) {
        return Err(unkept(&of_owner(), &forgotten));
    }
    if now.permissions().mode() != other.permissions().mode() {
        return Err(unkept(&format!("its mode {:o}", other.mode() & 0o7777), &forgotten));
    }
    match attributes(file)? == wanted {
        true => Ok(()),
        false => Err(unkept("its attributes", &forgotten)),
    }
}

/// What cannot be kept, and why.
fn unkept(what: &str, error: &io::Error) -> io::Error {
    let why = format!("{what} cannot be kept, so nothing is changed: {error}");
    io::Error::new(error.kind(), why)
}

#[allow(unsafe_code)]
fn own(file: &File, owner: u32, group: u32) -> io::Result<()> {
    // SAFETY: as in `flock`.
    match unsafe { libc::fchown(file.as_raw_fd(), owner, group) } {
        0 => Ok(()),
        _ => Err(io::Error::last_os_error()),
    }
}

type Attributes = BTreeMap<OsString, Vec<u8>>;

/// The extended attributes, of which one is the access control list; none where the file
/// system knows none.
fn attributes(file: &File) -> io::Result<Attributes> {
    let names = match file.list_xattr() {
        Err(error) if error.raw_os_error() == Some(libc::EOPNOTSUPP) => {
            return Ok(Attributes::new())
        }
        names => names?,
    };
    let mut all = Attributes::new();
    for name in names {
        // one that is gone meanwhile is none
        if let Some(value) = file.get_xattr(&name)? {
            all.insert(name, value);
        }
    }
    Ok(all)
}

/// Makes these its attributes, and no others: a folder may give a new file a list of its own.
fn give(file: &File, wanted: &Attributes) -> Result<(), (String, io::Error)> {
    let named = |name: &OsString| name.to_string_lossy().into_owned();
    let now = attributes(file).map_err(|error| ("list".to_string(), error))?;
    for name in now.keys().filter(|name| !wanted.contains_key(*name)) {
        file.remove_xattr(name).map_err(|error| (named(name), error))?;
    }
    for (name, value) in wanted.iter().filter(|(name, value)| now.get(*name) != Some(*value)) {
        file.set_xattr(name, value).map_err(|error| (named(name), error))?;
    }
    Ok(())
}
