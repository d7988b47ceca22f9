//! What was answered is on the disk: the order of the calls by which it gets there, as
//! `strace` records them; and a device whose bytes are copied after each answer, as a power
//! cut would leave them, and mounted.
//!
//! POWER_CUTS says how many answers, FILE_SYSTEMS which ones; by hand: `POWER_CUTS=200
//! FILE_SYSTEMS="ext4 xfs btrfs" cargo test -p hverolda-cli --release --test disk --
//! --nocapture`, as root.

mod common;

use std::collections::BTreeSet;
use std::fs;
use std::path::{Path, PathBuf};
use std::process::{Command, Stdio};

use common::{count, left_out, said, shelf, streams, texts, Folder, HVEROLDA};

fn word(path: &Path) -> &str {
    path.to_str().unwrap()
}

// ---- the order of the calls

const NO_STRACE: &str =
    "the order of a shelf's calls by strace: it is not there, or sees those of an emulator";

/// What a call of the system did to the files that matter.
#[derive(Clone, Copy, Debug, PartialEq, Eq)]
enum Did {
    /// Wrote to the file beside the shelf.
    Wrote,
    /// Brought the file beside the shelf to the disk.
    Synced,
    /// Gave it the shelf's name.
    Named,
    /// Brought the folder to the disk.
    SyncedFolder,
    /// Brought the shelf itself, which it had only looked at, to the disk.
    SyncedShelf,
    Answered,
}

/// A line of strace, with the paths of descriptors.
fn did(line: &str, on: &str, folder: &str) -> Option<Did> {
    let call = line.split('(').next()?;
    let of = |path: &str| line.contains(&format!("<{path}>"));
    let beside = format!("{folder}/.mailbox.hverolda-");
    let renames = ["rename", "renameat", "renameat2", "link", "linkat"].contains(&call);
    match call {
        _ if line.contains(") = -1") => None,
        "write" if line.contains(&format!("<{beside}")) => Some(Did::Wrote),
        "write" if line.starts_with("write(1<") || line.contains("<pipe:") => Some(Did::Answered),
        "fsync" if line.contains(&format!("<{beside}")) => Some(Did::Synced),
        "fsync" if of(folder) => Some(Did::SyncedFolder),
        "fsync" if of(on) => Some(Did::SyncedShelf),
        _ if renames && line.contains(&format!("\"{on}\"")) => Some(Did::Named),
        _ => None,
    }
}

/// What a run did, in its order, without repetitions.
fn recorded(folder: &Folder, on: &Path, words: &[&str]) -> Option<Vec<Did>> {
    let log = folder.file("calls");
    let traced = "trace=write,writev,pwrite64,fsync,fdatasync,sync,syncfs,sync_file_range,rename,\
                  renameat,renameat2,link,linkat";
    let mut command = Command::new("strace");
    command.args(["-y", "-s", "4096", "-e", traced, "-o", word(&log), HVEROLDA, "shelf", word(on)]);
    let output = command.args(words).stdin(Stdio::null()).output().ok()?;
    assert!(matches!(output.status.code(), Some(0 | 1)), "{words:?}: {:?}", streams(&output));
    let log = fs::read_to_string(log).unwrap();
    let folder = word(folder.path());
    let mut all: Vec<Did> = log.lines().filter_map(|line| did(line, word(on), folder)).collect();
    all.dedup();
    Some(all)
}

#[test]
fn written_synced_named_folder_synced_answered() {
    if std::env::var_os("EMULATED").is_some() || Command::new("strace").arg("-V").output().is_err()
    {
        return left_out(NO_STRACE);
    }
    let folder = Folder::new();
    let on = folder.file("mailbox");
    let [first, second] = [10, 11].map(|number| folder.interchange(number));
    let old = folder.file("old");
    let replaced = [Did::Wrote, Did::Synced, Did::Named, Did::SyncedFolder, Did::Answered];
    let looked_at = [Did::SyncedShelf, Did::SyncedFolder, Did::Answered];
    let runs: [(&[&str], &[Did]); 10] = [
        (&["start", "1000"], &replaced),
        (&["put", word(&first)], &replaced),
        (&["put", word(&second)], &replaced),
        (&["put", word(&first)], &replaced),
        (&["find", word(&first)], &looked_at),
        (&["remove", "0", word(&first)], &replaced),
        (&["remove", "0", word(&first)], &looked_at),
        (&["carry-back"], &replaced),
        (&["carry"], &replaced),
        (&["move", word(&old)], &replaced),
    ];
    for (words, wanted) in runs {
        assert_eq!(recorded(&folder, &on, words).unwrap(), wanted, "{words:?}");
    }
}

/// A move from one folder into another brings both to the disk before it answers.
#[test]
fn a_move_syncs_both_folders() {
    if std::env::var_os("EMULATED").is_some() || Command::new("strace").arg("-V").output().is_err()
    {
        return left_out(NO_STRACE);
    }
    let folder = Folder::new();
    let on = folder.shelf("mailbox", 1_000);
    let sub = folder.file("sub");
    fs::create_dir(&sub).unwrap();
    recorded(&folder, &on, &["move", word(&sub.join("old"))]).unwrap();
    let log = fs::read_to_string(folder.file("calls")).unwrap();
    let place = |what: &str| log.find(what).unwrap_or_else(|| panic!("no {what} in\n{log}"));
    let synced = |path: &Path| {
        let line = log
            .lines()
            .find(|line| line.starts_with("fsync(") && line.contains(&format!("<{}>", word(path))));
        place(line.unwrap_or_else(|| panic!("{} is not synced\n{log}", path.display())))
    };
    let (exchanged, answered) = (place("RENAME_EXCHANGE"), place("moved 1000"));
    assert!(exchanged < synced(&sub) && synced(&sub) < answered);
    assert!(exchanged < synced(folder.path()) && synced(folder.path()) < answered);
}

// ---- a device, copied after each answer

fn ran(program: &str, words: &[&str]) -> Result<(), String> {
    let output = Command::new(program).args(words).stdin(Stdio::null()).output();
    match output.map_err(|error| format!("{program}: {error}"))? {
        output if output.status.success() => Ok(()),
        output => Err(format!("{program} {words:?}: {}", streams(&output).2)),
    }
}

/// A file system in a file, mounted.
struct Mounted {
    image: PathBuf,
    at: PathBuf,
}

impl Mounted {
    fn new(kind: &str, image: PathBuf, at: PathBuf) -> Result<Mounted, String> {
        fs::create_dir_all(&at).unwrap();
        // what is not synced stays off the disk as long as can be asked for
        let options = match kind {
            "ext4" => "loop,commit=300,noauto_da_alloc",
            "xfs" => "loop,nouuid",
            _ => "loop,commit=300",
        };
        ran("mount", &["-t", kind, "-o", options, word(&image), word(&at)])?;
        Ok(Mounted { image, at })
    }
}

impl Drop for Mounted {
    fn drop(&mut self) {
        let _ = ran("umount", &[word(&self.at)]);
    }
}

fn formatted(folder: &Folder, kind: &str) -> Result<PathBuf, String> {
    let image = folder.file("image");
    // no less is taken
    let megabytes = match kind {
        "ext4" => 8,
        "btrfs" => 128,
        _ => 320,
    };
    fs::File::create(&image).and_then(|file| file.set_len(megabytes << 20)).unwrap();
    let quiet = if kind == "ext4" { "-qF" } else { "-q" };
    ran(&format!("mkfs.{kind}"), &[quiet, word(&image)])?;
    Ok(image)
}

/// What shelves hold: of each its texts, by their slots, and its duplicates.
fn held(folder: &Path, names: &BTreeSet<String>) -> Vec<String> {
    let one = |name: &String| {
        let path = folder.join(name);
        let (code, list, complained) = streams(&shelf(&path, &["list"]));
        assert_eq!(code, Some(0), "{name}: {complained}");
        format!("{name} {list} {:?}", texts(&path))
    };
    names.iter().map(one).collect()
}

/// The words of the operation of this number: texts come, some twice, and go; now and then
/// the shelf is moved away.
fn operation(folder: &Folder, at: &Path, number: usize) -> Vec<String> {
    let file = |number: usize| word(&folder.interchange(1_000 + number)).to_string();
    let words = |words: &[&str]| words.iter().map(|word| word.to_string()).collect::<Vec<_>>();
    match number % 10 {
        3 => words(&["put", &file(number - 1)]),
        5 => words(&["remove", "0"]),
        7 => words(&["carry-back"]),
        8 => words(&["carry"]),
        9 => words(&["move", word(&at.join("sub").join(format!("old.{number}")))]),
        _ => words(&["put", &file(number)]),
    }
}

fn power_cuts(kind: &str) -> Result<usize, String> {
    let folder = Folder::new();
    let disk = Mounted::new(kind, formatted(&folder, kind)?, folder.file("disk"))?;
    let on = disk.at.join("mailbox");
    fs::create_dir(disk.at.join("sub")).unwrap();
    said(&on, &["start", "4096"], 0, "started 4096\n", "");
    let mut names = BTreeSet::from(["mailbox".to_string()]);
    let cuts = count("POWER_CUTS", 20);
    for number in 0..cuts {
        let words = operation(&folder, &disk.at, number);
        let (code, out, complained) = streams(&shelf(&on, &words));
        assert!(matches!(code, Some(0 | 1)), "{words:?}: {out}{complained}");
        if words[0] == "move" {
            names.insert(format!("sub/old.{number}"));
        }
        // as it lies on the device when the answer is there
        let copy = folder.file("copy");
        ran("cp", &["--sparse=always", word(&disk.image), word(&copy)])?;
        if words[0] != "carry-back" {
            let cut = Mounted::new(kind, copy.clone(), folder.file("cut"))?;
            let told = held(&cut.at, &names);
            assert_eq!(told, held(&disk.at, &names), "{kind}: after {words:?}");
        }
        fs::remove_file(copy).unwrap();
    }
    Ok(cuts)
}

#[test]
fn what_was_answered_is_on_a_device_that_is_cut_off() {
    let kinds = std::env::var("FILE_SYSTEMS").unwrap_or_else(|_| "ext4".to_string());
    for kind in kinds.split(' ') {
        match power_cuts(kind) {
            Ok(cuts) => println!("{kind}: the device copied after {cuts} answers, nothing lost"),
            Err(why) => left_out(&format!("a shelf on a {kind} device that is cut off: {why}")),
        }
    }
}
