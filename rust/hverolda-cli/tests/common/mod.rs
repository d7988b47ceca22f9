//! What the tests of the command share: a folder of their own, the command as another
//! program runs it, interchanges.

#![allow(dead_code)]

use std::collections::BTreeMap;
use std::ffi::OsStr;
use std::fs;
use std::io::Write;
use std::path::{Path, PathBuf};
use std::process::{self, Command, Output};
use std::sync::atomic::{AtomicUsize, Ordering};

pub const HVEROLDA: &str = env!("CARGO_BIN_EXE_hverolda");

/// A folder that is removed at the end of a test.
pub struct Folder(PathBuf);

impl Folder {
    pub fn new() -> Folder {
        static COUNT: AtomicUsize = AtomicUsize::new(0);
        let number = COUNT.fetch_add(1, Ordering::Relaxed);
        let name = format!("hverolda-test-{}-{number}", process::id());
        let path = std::env::temp_dir().join(name);
        fs::create_dir(&path).unwrap();
        Folder(fs::canonicalize(path).unwrap())
    }

    pub fn path(&self) -> &Path {
        &self.0
    }

    pub fn file(&self, name: &str) -> PathBuf {
        self.0.join(name)
    }

    /// Interchange of this number, in a file.
    pub fn interchange(&self, number: usize) -> PathBuf {
        let path = self.file(&format!("{number}.edi"));
        fs::write(&path, interchange(number)).unwrap();
        path
    }

    /// A shelf of this size that was started.
    pub fn shelf(&self, name: &str, size: usize) -> PathBuf {
        let path = self.file(name);
        let size = size.to_string();
        said(&path, &["start", &size], 0, &format!("started {size}\n"), "");
        path
    }

    /// The names in it that begin with a dot.
    pub fn hidden(&self) -> Vec<String> {
        let names = fs::read_dir(&self.0).unwrap();
        let name = |entry: fs::DirEntry| entry.file_name().into_string().unwrap();
        let mut names: Vec<String> = names.map(|entry| name(entry.unwrap())).collect();
        names.retain(|name| name.starts_with('.'));
        names.sort();
        names
    }
}

impl Drop for Folder {
    fn drop(&mut self) {
        let _ = fs::remove_dir_all(&self.0);
    }
}

pub fn interchange(number: usize) -> String {
    format!(
        "UNB+UNOA:1+AA+BB+260105:0930+R{number}'UNH+1+ORDERS:1:901:UN'\
         BGM+220+A?+B'UNT+3+1'UNZ+1+R{number}'"
    )
}

/// Its normal form.
pub fn normal(number: usize) -> String {
    format!("UNA:+.? '{}", interchange(number))
}

/// `hverolda shelf SHELF WORDS..`.
pub fn shelf<W: AsRef<OsStr>>(shelf: &Path, words: &[W]) -> Output {
    let mut command = Command::new(HVEROLDA);
    command.arg("shelf").arg(shelf).args(words).stdin(process::Stdio::null());
    command.output().unwrap()
}

pub fn streams(output: &Output) -> (Option<i32>, String, String) {
    let text = |bytes: &[u8]| String::from_utf8_lossy(bytes).into_owned();
    (output.status.code(), text(&output.stdout), text(&output.stderr))
}

/// Whether the lines are these; of one that ends with `..` the beginning.
fn are_like(lines: &str, wanted: &str) -> bool {
    let is_like = |(line, wanted): (&str, &str)| match wanted.strip_suffix("..") {
        Some(beginning) => line.starts_with(beginning),
        None => line == wanted,
    };
    lines.lines().count() == wanted.lines().count()
        && lines.ends_with('\n') == wanted.ends_with('\n')
        && lines.lines().zip(wanted.lines()).all(is_like)
}

/// That the command ends with this status, prints lines like these, and complains by what has
/// all these parts, which are separated by `..`.
pub fn said<W: AsRef<OsStr>>(on: &Path, words: &[W], status: i32, out: &str, err: &str) {
    let (code, printed, complained) = streams(&shelf(on, words));
    let words: Vec<_> = words.iter().map(|word| word.as_ref().to_string_lossy()).collect();
    let as_wanted = err.split("..").all(|part| complained.contains(part))
        && err.is_empty() == complained.is_empty();
    assert!(
        code == Some(status) && are_like(&printed, out) && as_wanted,
        "shelf {} {words:?}: status {code:?} for {status}\n{printed}for\n{out}\n{complained}for\n{err}",
        on.display()
    );
}

/// The texts that a shelf keeps, by their slots.
pub fn texts(on: &Path) -> BTreeMap<usize, String> {
    let (code, list, complained) = streams(&shelf(on, &["list"]));
    assert_eq!(code, Some(0), "{}: {complained}", on.display());
    let slot = |line: &str| line.split(' ').next().unwrap().parse::<usize>().ok();
    let text = |slot: usize| (slot, streams(&shelf(on, &["get", &slot.to_string()])).1);
    list.lines().filter_map(slot).map(text).collect()
}

/// How often something is done: as the variable says, or so often; where the processor is
/// emulated a tenth.
pub fn count(variable: &str, usual: usize) -> usize {
    let emulated = std::env::var_os("EMULATED").is_some();
    let usual = if emulated { (usual / 10).max(3) } else { usual };
    std::env::var(variable).map_or(usual, |value| value.parse().expect("a number"))
}

/// What a machine lacks is said; the gate reads it from the file that LEFT_OUT names.
pub fn left_out(what: &str) {
    println!("left out: {what}");
    if let Some(path) = std::env::var_os("LEFT_OUT") {
        let mut file = fs::OpenOptions::new().append(true).create(true).open(path).unwrap();
        writeln!(file, "{what}").unwrap();
    }
}
