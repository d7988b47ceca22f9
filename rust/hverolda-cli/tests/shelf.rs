//! What `hverolda shelf` answers, and with which status; who may read the file afterwards.

mod common;

use std::fs;
use std::os::unix::fs::{MetadataExt, PermissionsExt};
use std::path::{Path, PathBuf};
use std::process::{Command, Stdio};
use std::time::{Duration, Instant};

use common::{interchange, left_out, normal, said, shelf, streams, texts, Folder, HVEROLDA};

fn word(path: &Path) -> &str {
    path.to_str().unwrap()
}

/// An interchange that Judge refuses by 12.
fn wrong(folder: &Folder) -> PathBuf {
    let path = folder.file("wrong.edi");
    fs::write(&path, interchange(10).replace("UNT+3", "UNT+4")).unwrap();
    path
}

/// A shelf that keeps interchanges 10 to 73: it has no free slot.
fn full(folder: &Folder) -> PathBuf {
    let path = folder.shelf("full", 65_536);
    for number in 10..74 {
        let file = folder.interchange(number);
        said(&path, &["put", word(&file)], 0, &format!("new {}\n", number - 10), "");
    }
    path
}

/// A shelf that keeps interchanges 10 and 11, but that a byte of the second is another.
fn damaged(folder: &Folder) -> PathBuf {
    let path = folder.shelf("damaged", 1_000);
    for number in [10, 11] {
        let file = folder.interchange(number);
        said(&path, &["put", word(&file)], 0, &format!("new {}\n", number - 10), "");
    }
    let mut bytes = fs::read(&path).unwrap();
    bytes[533 + 95 + 9] = b'V';
    fs::write(&path, bytes).unwrap();
    path
}

const UNSOUND: &str = "refused 19 0: ";

// ---- remove SLOT FILE

#[test]
fn a_remove_that_names_its_text_can_be_repeated() {
    let folder = Folder::new();
    let on = folder.shelf("mailbox", 1_000);
    let [first, second] = [10, 11].map(|number| folder.interchange(number));
    said(&on, &["put", word(&first)], 0, "new 0\n", "");
    said(&on, &["remove", "0", word(&first)], 0, "removed 95\n", "");
    // the slot is used again at once
    said(&on, &["put", word(&second)], 0, "new 0\n", "");
    let gone = "absent 0 no slot keeps this interchange\n";
    said(&on, &["remove", "0", word(&first)], 1, gone, "");
    assert_eq!(texts(&on).into_values().collect::<Vec<_>>(), [normal(11)]);
    // in another slot it is another's to deliver
    said(&on, &["put", word(&first)], 0, "new 1\n", "");
    said(&on, &["remove", "0", word(&first)], 1, "absent 0 slot 1 keeps it\n", "");
    said(&on, &["remove", "7", word(&first)], 1, "absent 7 slot 1 keeps it\n", "");
    let refused = "refused 12 68: ..\n";
    said(&on, &["remove", "0", word(&wrong(&folder))], 3, refused, "");
    said(&on, &["remove", "0", word(&folder.file("none"))], 2, "", "none: No such file");
    // what get handed out is the text too
    let text = folder.file("text");
    fs::write(&text, normal(10)).unwrap();
    said(&on, &["remove", "1", word(&text)], 0, "removed 95\n", "");
    said(&on, &["remove", "1"], 1, "refused 20 1: ..\n", "");
    assert_eq!(texts(&on).into_values().collect::<Vec<_>>(), [normal(11)]);
}

// ---- who may read it

fn ran(program: &str, words: &[&str]) -> Option<String> {
    let output = Command::new(program).args(words).stderr(Stdio::null()).output().ok()?;
    output.status.success().then(|| String::from_utf8_lossy(&output.stdout).into_owned())
}

/// The list and the attributes as the tools tell them.
fn rights(path: &Path) -> (u32, u32, u32, Option<String>, Option<String>) {
    let file = fs::metadata(path).unwrap();
    let list = ran("getfacl", &["-pn", word(path)]);
    let attributes =
        ran("getfattr", &["-d", "-m", "-", "-e", "hex", "--absolute-names", word(path)]);
    (file.uid(), file.gid(), file.mode(), list, attributes)
}

/// Changes of the shelf of every sort, after each of which its rights are looked at.
fn keeps_its_rights(folder: &Folder, on: &Path) {
    let wanted = rights(on);
    let file = folder.interchange(10);
    let old = folder.file("old");
    let changes: [&[&str]; 6] = [
        &["put", word(&file)],
        &["put", word(&file)],
        &["remove", "0"],
        &["carry-back"],
        &["carry"],
        &["move", word(&old)],
    ];
    for words in changes {
        let (code, _, complained) = streams(&shelf(on, words));
        assert!(code == Some(0) || code == Some(1), "{words:?}: {complained}");
        assert_eq!(rights(on), wanted, "after {words:?}");
    }
    let moved = rights(&old);
    assert_eq!((moved.0, moved.1, moved.2), (wanted.0, wanted.1, wanted.2));
}

#[test]
fn mode_and_owner_are_kept() {
    for mode in [0o600, 0o640, 0o664, 0o4640, 0o2660] {
        let folder = Folder::new();
        let on = folder.shelf("mailbox", 1_000);
        // root may give a file away
        ran("chown", &["1234:2345", word(&on)]);
        fs::set_permissions(&on, fs::Permissions::from_mode(mode)).unwrap();
        keeps_its_rights(&folder, &on);
    }
}

#[test]
fn the_access_control_list_is_kept() {
    let folder = Folder::new();
    let on = folder.shelf("mailbox", 1_000);
    fs::set_permissions(&on, fs::Permissions::from_mode(0o600)).unwrap();
    let list = "u:1234:rw-,u:2345:r--,g::---,g:3456:r--,m::rw-";
    if ran("setfacl", &["-m", list, word(&on)]).is_none() {
        return left_out("access control lists: no setfacl, or a file system without them");
    }
    let told = rights(&on).3.unwrap();
    assert!(told.contains("user:1234:rw-") && told.contains("group::---"), "{told}");
    keeps_its_rights(&folder, &on);
}

/// A folder may give each new file a list: the file that takes a shelf's place has the
/// shelf's, and no other.
#[test]
fn the_folders_own_list_is_not_taken_over() {
    let folder = Folder::new();
    let on = folder.shelf("mailbox", 1_000);
    fs::set_permissions(&on, fs::Permissions::from_mode(0o600)).unwrap();
    if ran("setfacl", &["-d", "-m", "u:1234:rw-", word(folder.path())]).is_none() {
        return left_out("access control lists: no setfacl, or a file system without them");
    }
    keeps_its_rights(&folder, &on);
}

#[test]
fn extended_attributes_are_kept() {
    let folder = Folder::new();
    let on = folder.shelf("mailbox", 1_000);
    if ran("setfattr", &["-n", "user.origin", "-v", "site 7", word(&on)]).is_none() {
        return left_out("extended attributes: no setfattr, or a file system without them");
    }
    assert!(rights(&on).4.unwrap().contains("user.origin="));
    keeps_its_rights(&folder, &on);
}

const NO_OTHER_USER: &str = "the shelf's file under another user: no setpriv, or no root";

/// What another user's command says, who may not give files away; none where no such user
/// can run it.
fn as_nobody(folder: &Folder, on: &Path, words: &[&str]) -> Option<(Option<i32>, String, String)> {
    // where it was built others may not look
    let command = folder.file("hverolda");
    if !command.exists() {
        fs::copy(HVEROLDA, &command).unwrap();
    }
    let mut all = vec!["--reuid", "65534", "--regid", "65534", "--clear-groups", word(&command)];
    all.extend(["shelf", word(on)]);
    all.extend(words);
    loop {
        let mut command = Command::new("setpriv");
        let output = command.args(&all).stdin(Stdio::null()).output().ok()?;
        let told = streams(&output);
        // another test's process may still have the copy open that was written here
        if !told.2.contains("Text file busy") {
            return (output.status.success() || told.2.contains("hverolda: ")).then_some(told);
        }
    }
}

/// Who may write the file and the folder, but may not give files away.
#[test]
fn an_owner_who_cannot_be_kept_is_trouble_before_anything_changes() {
    let folder = Folder::new();
    let on = folder.shelf("mailbox", 1_000);
    let file = folder.interchange(10);
    for (path, mode) in [(folder.path(), 0o777), (&on, 0o666), (&file, 0o644)] {
        fs::set_permissions(path, fs::Permissions::from_mode(mode)).unwrap();
    }
    let own = word(&on).to_string();
    let other = |words: &[&str]| as_nobody(&folder, &on, words);
    if other(&["list"]).is_none() {
        return left_out(NO_OTHER_USER);
    }
    let (before, wanted) = (fs::read(&on).unwrap(), rights(&on));
    let old = folder.file("old");
    for words in [&["put", word(&file)][..], &["move", word(&old)]] {
        let (code, out, err) = other(words).unwrap();
        assert_eq!((code, out.as_str()), (Some(2), ""), "{words:?}");
        let why = format!("hverolda: {own}: its owner 0 and group 0 cannot be kept, so nothing");
        assert!(err.starts_with(&why), "{err}");
        assert_eq!((fs::read(&on).unwrap(), rights(&on)), (before.clone(), wanted.clone()));
        assert!(!old.exists() && folder.hidden().is_empty());
    }
    said(&on, &["put", word(&file)], 0, "new 0\n", "");
}

// ---- the statuses

#[test]
fn put_0_new_1_copy_3_refused_2_trouble() {
    let folder = Folder::new();
    let on = folder.shelf("mailbox", 1_000);
    let [first, second] = [10, 11].map(|number| folder.interchange(number));
    let (wrong, none) = (wrong(&folder), folder.file("none"));
    let refused = "refused 12 68: ..\n";
    said(&on, &["put", word(&first)], 0, "new 0\n", "");
    said(&on, &["put", word(&first)], 1, "copy 0\n", "");
    said(&on, &["put", word(&wrong)], 3, refused, "");
    said(&on, &["put", word(&none)], 2, "", "none: No such file");
    // of several the gravest: 2 before 3 before 1, wherever it stands
    let [new, copy, wrong, none] = [&second, &first, &wrong, &none].map(|path| word(path));
    let line = |name: &str, said: &str| format!("{name}: {said}\n");
    let (copied, not_kept) = (line(copy, "copy 0"), line(wrong, refused.trim_end()));
    said(&on, &["put", new, copy], 1, &(line(new, "new 1") + &copied), "");
    said(&on, &["put", wrong, copy], 3, &(not_kept.clone() + &copied), "");
    said(&on, &["put", copy, wrong], 3, &(copied.clone() + &not_kept), "");
    said(&on, &["put", none, wrong, copy], 2, &(not_kept.clone() + &copied), "none: No such");
    said(&on, &["put", wrong, copy, none], 2, &(not_kept + &copied), "none: No such");
}

#[test]
fn a_full_shelf_is_trouble_that_says_what_to_do() {
    let folder = Folder::new();
    let on = full(&folder);
    let before = fs::read(&on).unwrap();
    let next = folder.interchange(74);
    let what_to_do = "it is not kept: remove texts that were delivered, or move the shelf away \
        by hverolda shelf SHELF move NEW, and put it again";
    let seventeen = format!("74.edi: refused 17 64: ..; {what_to_do}");
    said(&on, &["put", word(&next)], 2, "", &seventeen);
    assert_eq!(fs::read(&on).unwrap(), before);
    let small = folder.shelf("small", 600);
    let eighteen = format!("74.edi: refused 18 95: ..; {what_to_do}");
    said(&small, &["put", word(&next)], 2, "", &eighteen);
    // a copy needs no room, and so is an answer; with a new one it is trouble all the same
    let kept = folder.interchange(30);
    said(&on, &["put", word(&kept)], 1, "copy 20\n", "");
    let both = format!("{}: copy 20\n", word(&kept));
    said(&on, &["put", word(&next), word(&kept)], 2, &both, "refused 17 64: ");
    // as it says
    let old = folder.file("old");
    said(&on, &["move", word(&old)], 0, "moved 65536\n", "");
    said(&on, &["put", word(&next)], 0, "new 0\n", "");
    assert_eq!(texts(&old).len(), 64);
}

#[test]
fn a_shelf_that_is_not_sound_is_trouble_for_all() {
    let folder = Folder::new();
    let on = damaged(&folder);
    let before = fs::read(&on).unwrap();
    let file = folder.interchange(10);
    let whole = format!("{}: {UNSOUND}", word(&on));
    let asked: [&[&str]; 8] = [
        &["put", word(&file)],
        &["find", word(&file)],
        &["get", "0"],
        &["remove", "0"],
        &["remove", "0", word(&file)],
        &["list"],
        &["carry"],
        &["carry-back"],
    ];
    for words in asked {
        said(&on, words, 2, "", &whole);
    }
    assert_eq!(fs::read(&on).unwrap(), before);
    said(&folder.file("other"), &["start", "532"], 2, "", UNSOUND);
    said(&on, &["start"], 2, "", "damaged: File exists");
    // it can be moved away
    let old = folder.file("old");
    said(&on, &["move", word(&old)], 0, "moved 1000\n", "");
    assert_eq!(fs::read(&old).unwrap(), before);
    said(&on, &["put", word(&file)], 0, "new 0\n", "");
}

#[test]
fn an_empty_slot_is_status_1() {
    let folder = Folder::new();
    let on = folder.shelf("mailbox", 1_000);
    said(&on, &["get", "3"], 1, "", "refused 20 3: ");
    said(&on, &["remove", "3"], 1, "refused 20 3: ..\n", "");
}

#[test]
fn the_help_has_a_table_of_the_statuses() {
    let (_, help, _) = streams(&Command::new(HVEROLDA).args(["shelf", "--help"]).output().unwrap());
    let table = help.split("Exit status: ").nth(1).expect("a table");
    let verbs = ["start", "put", "find", "get", "remove", "list", "move", "salvage", "carry"];
    for verb in verbs {
        assert!(table.contains(&format!("\n  {verb}")), "{verb} has no line");
    }
}

// ---- find

#[test]
fn find_tells_the_slot_and_changes_nothing() {
    let folder = Folder::new();
    let on = full(&folder);
    let before = (fs::read(&on).unwrap(), fs::metadata(&on).unwrap().ino());
    let (kept, other) = (folder.interchange(40), folder.interchange(90));
    let lines = folder.file("lines.edi");
    fs::write(&lines, interchange(41).replace("'", "'\r\n")).unwrap();
    said(&on, &["find", word(&kept)], 0, "kept 30\n", "");
    said(&on, &["find", word(&lines)], 0, "kept 31\n", "");
    said(&on, &["find", word(&other)], 1, "absent\n", "");
    let refused = "refused 12 68: ..\n";
    said(&on, &["find", word(&wrong(&folder))], 3, refused, "");
    said(&on, &["find", word(&folder.file("none"))], 2, "", "none: No such file");
    let all = format!("{}: kept 30\n{}: absent\n", word(&kept), word(&other));
    said(&on, &["find", word(&kept), word(&other)], 1, &all, "");
    assert_eq!((fs::read(&on).unwrap(), fs::metadata(&on).unwrap().ino()), before);
    // also in a small shelf that has no free bytes for it
    let small = folder.shelf("small", 600);
    said(&small, &["find", word(&other)], 1, "absent\n", "");
}

// ---- a wait that ends

/// Somebody who has the lock until it is dropped.
struct Holder(std::process::Child);

impl Holder {
    fn of(path: &Path) -> Option<Holder> {
        let script = "echo locked; cat";
        let mut child = Command::new("flock")
            .args([word(path), "sh", "-c", script])
            .stdin(Stdio::piped())
            .stdout(Stdio::piped())
            .spawn()
            .ok()?;
        let mut told = [0; 7];
        std::io::Read::read_exact(child.stdout.as_mut().unwrap(), &mut told).ok()?;
        Some(Holder(child))
    }
}

impl Drop for Holder {
    fn drop(&mut self) {
        drop(self.0.stdin.take());
        self.0.wait().unwrap();
    }
}

/// Whether a run ends by itself; one that does not within a minute never will.
fn ends(on: &Path, words: &[&str]) -> bool {
    let mut command = Command::new(HVEROLDA);
    command.arg("shelf").arg(on).args(words).stdin(Stdio::null()).stderr(Stdio::null());
    let mut child = command.spawn().unwrap();
    let began = Instant::now();
    while began.elapsed() < Duration::from_secs(60) {
        if child.try_wait().unwrap().is_some() {
            return true;
        }
        std::thread::sleep(Duration::from_millis(10));
    }
    child.kill().unwrap();
    child.wait().unwrap();
    false
}

#[test]
fn a_wait_ends() {
    let folder = Folder::new();
    let on = folder.shelf("mailbox", 1_000);
    let file = folder.interchange(10);
    for (locked, named) in [(on.clone(), "mailbox"), (folder.path().to_path_buf(), "")] {
        let holder = match Holder::of(&locked) {
            Some(holder) => holder,
            None => return left_out("a wait that ends: no flock"),
        };
        let before = fs::read(&on).unwrap();
        let late = format!("hverolda: {}: another run has its lock", folder.file(named).display());
        let late = late.replace("/: another", ": another");
        for wait in ["0", "1"] {
            let began = Instant::now();
            assert!(ends(&on, &["put", word(&file), "--wait", wait]), "it waits without end");
            assert!(began.elapsed() >= Duration::from_secs(wait.parse().unwrap()));
            let began = Instant::now();
            said(&on, &["put", word(&file), "--wait", wait], 2, "", &late);
            // no less than was asked for; how much more depends on the machine
            assert!(began.elapsed() >= Duration::from_secs(wait.parse().unwrap()));
        }
        assert_eq!(fs::read(&on).unwrap(), before);
        // who only looks needs no lock
        said(&on, &["find", word(&file), "--wait", "0"], 1, "absent\n", "");
        drop(holder);
    }
    said(&on, &["put", word(&file), "--wait", "0"], 0, "new 0\n", "");
    said(&on, &["put", word(&file), "--wait"], 2, "", "--wait <SECONDS> wants a value");
    said(&on, &["put", word(&file), "--wait", "x"], 2, "", "'x' is not taken for --wait <SECONDS>");
}

/// What a killed run left goes; a living run's file, which that run has locked, does not.
#[test]
fn a_living_runs_file_stays() {
    let folder = Folder::new();
    let on = folder.shelf("mailbox", 1_000);
    let [living, left] =
        ["0", "1"].map(|number| folder.file(&format!(".mailbox.hverolda-{number}")));
    fs::write(&living, "a living run's").unwrap();
    fs::write(&left, "a killed run's").unwrap();
    let holder = match Holder::of(&living) {
        Some(holder) => holder,
        None => return left_out("a living run's file: no flock"),
    };
    said(&on, &["put", word(&folder.interchange(10))], 0, "new 0\n", "");
    assert_eq!(folder.hidden(), [".mailbox.hverolda-0"]);
    assert_eq!(fs::read_to_string(&living).unwrap(), "a living run's");
    drop(holder);
    said(&on, &["put", word(&folder.interchange(11))], 0, "new 1\n", "");
    assert!(folder.hidden().is_empty());
}

// ---- salvage

#[test]
fn salvage_writes_out_what_the_pairs_name() {
    let folder = Folder::new();
    let on = damaged(&folder);
    let out = folder.file("out");
    let told = "0 95 occupied whole accepted\n1 95 occupied whole refused 3 9\n";
    said(&on, &["salvage", word(&out)], 1, told, "");
    assert_eq!(fs::read_to_string(out.join("0.edi")).unwrap(), normal(10));
    let second = normal(11).replacen("UNB", "VNB", 1);
    assert_eq!(fs::read_to_string(out.join("1.edi")).unwrap(), second);
    // nothing is written over
    said(&on, &["salvage", word(&out)], 2, "", "out/0.edi: File exists");
}

#[test]
fn salvage_of_what_is_cut_and_of_another_version() {
    let folder = Folder::new();
    let on = damaged(&folder);
    let whole = fs::read(&on).unwrap();
    // the map is gone, and the end; a pair that names nothing is passed over
    let mut bytes = whole[..533 + 95 + 50].to_vec();
    bytes[..13].fill(0);
    bytes[21 + 8 * 5..21 + 8 * 6].fill(0xFF);
    fs::write(&on, bytes).unwrap();
    let out = folder.file("cut");
    let told = "0 95 free whole accepted\n1 50 free cut refused 3 9\n";
    said(&on, &["salvage", word(&out)], 1, told, "");
    assert_eq!(fs::read(out.join("1.edi")).unwrap(), &whole[533 + 95..533 + 95 + 50]);
    // a sound one of version 1, whether it says so or not
    let old = folder.shelf("old", 1_000);
    said(&old, &["put", word(&folder.interchange(10))], 0, "new 0\n", "");
    said(&old, &["carry-back"], 0, "carried back\n", "");
    for (version, out) in [(1, folder.file("one")), (2, folder.file("two"))] {
        let mut bytes = fs::read(&old).unwrap();
        bytes[4] = version;
        fs::write(&old, bytes).unwrap();
        said(&old, &["salvage", word(&out)], 0, "0 95 occupied whole accepted\n", "");
        assert_eq!(fs::read_to_string(out.join("0.edi")).unwrap(), normal(10));
    }
    // nothing there, and nowhere to write
    let empty = folder.shelf("empty", 1_000);
    said(&empty, &["salvage", word(&folder.file("nothing"))], 1, "", "");
    said(&empty, &["salvage", word(&folder.file("a/b"))], 2, "", "a/b: No such file");
    said(&empty, &["salvage", word(&on)], 2, "", "damaged: File exists");
}

// ---- trouble is named where it is

#[test]
fn the_file_and_the_folder_are_named() {
    let folder = Folder::new();
    let on = folder.shelf("mailbox", 1_000);
    let file = folder.interchange(10);
    said(&folder.file("none"), &["put", word(&file)], 2, "", "/none: No such file");
    said(&folder.file("a/b"), &["start"], 2, "", "/a: No such file");
    said(&on, &["move", word(&folder.file("a/b"))], 2, "", "/a: No such file");
    said(&on, &["move", word(&file)], 2, "", "/10.edi: File exists");
    said(&on, &["move", word(&on)], 2, "", "/mailbox: File exists");
    assert_eq!(fs::read_to_string(&file).unwrap(), interchange(10));
    // a folder in which nothing can be made; root may, so that this is asked of another user
    fs::set_permissions(folder.path(), fs::Permissions::from_mode(0o755)).unwrap();
    ran("chown", &["65534:65534", word(&on)]);
    match as_nobody(&folder, &on, &["put", word(&file)]) {
        Some((code, out, err)) => {
            assert_eq!((code, out.as_str()), (Some(2), ""));
            let why = format!("{}: no file can be made in this folder: Perm", word(folder.path()));
            assert!(err.contains(&why), "{err}");
        }
        None => left_out(NO_OTHER_USER),
    }
}

#[test]
fn a_link_is_followed_and_asked_again() {
    let folder = Folder::new();
    let on = folder.shelf("mailbox", 1_000);
    let link = folder.file("link");
    std::os::unix::fs::symlink("mailbox", &link).unwrap();
    said(&link, &["put", word(&folder.interchange(10))], 0, "new 0\n", "");
    assert!(fs::symlink_metadata(&link).unwrap().file_type().is_symlink());
    assert_eq!(texts(&on).len(), 1);
    let old = folder.file("old");
    said(&link, &["move", word(&old)], 0, "moved 1000\n", "");
    assert!(fs::symlink_metadata(&link).unwrap().file_type().is_symlink());
    assert_eq!((texts(&on).len(), texts(&old).len()), (0, 1));
}
