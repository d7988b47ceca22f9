//! Habits of the hand: names, lists of files, folders, JSON, colours, spreadsheets, tables.
//! One alone: `cargo test --test habits files_from`.

use std::fs;
use std::path::{Path, PathBuf};

use assert_cmd::assert::Assert;
use assert_cmd::Command;
use serde_json::Value;

fn root() -> PathBuf {
    PathBuf::from(concat!(env!("CARGO_MANIFEST_DIR"), "/../.."))
}

/// A run at the root of the project.
fn hverolda(words: &[&str]) -> Command {
    let mut command = Command::cargo_bin("hverolda").expect("the command");
    command.current_dir(root()).args(words);
    command
}

fn run(words: &[&str]) -> Assert {
    hverolda(words).assert()
}

fn output(assert: &Assert) -> String {
    String::from_utf8_lossy(&assert.get_output().stdout).to_string()
}

fn errors(assert: &Assert) -> String {
    String::from_utf8_lossy(&assert.get_output().stderr).to_string()
}

/// A folder of this test's own, which is empty.
fn room(name: &str) -> PathBuf {
    let path = Path::new(env!("CARGO_TARGET_TMPDIR")).join(name);
    let _ = fs::remove_dir_all(&path);
    fs::create_dir_all(&path).expect("a folder");
    path
}

fn text(path: &Path) -> &str {
    path.to_str().expect("a plain name")
}

const X: &str = "tests/cases/01-x.edi";
const WRONG: &str = "tests/cases/02-unt-count-4.edi";

#[test]
fn one_file_with_its_name() {
    run(&["judge", X]).success().stdout("accepted 5 1 0 93\n");
    run(&["judge", "-H", X]).success().stdout(format!("{X}: accepted 5 1 0 93\n"));
    run(&["judge", X, "--with-filename"]).success().stdout(format!("{X}: accepted 5 1 0 93\n"));
    run(&["judge", "--no-filename", X, X]).success().stdout("accepted 5 1 0 93\n".repeat(2));
}

#[test]
fn files_from_a_list() {
    let lines = format!("{X}\n{X}\n");
    let both = format!("{X}: accepted 5 1 0 93\n").repeat(2);
    hverolda(&["judge", "--files-from", "-"])
        .write_stdin(lines)
        .assert()
        .success()
        .stdout(both.clone());
    let zeros = format!("{X}\0{X}\0");
    hverolda(&["judge", "-0", "--files-from=-"]).write_stdin(zeros).assert().success().stdout(both);
    hverolda(&["judge", "--files-from", "-", "-"]).write_stdin("").assert().code(2);
    run(&["judge", "-0", X]).code(2).stdout("");
    run(&["judge", "--files-from", "tests/none"]).code(2).stdout("");
    hverolda(&["judge", "--files-from", "-"]).write_stdin("").assert().success().stdout("");
}

#[test]
fn folders_are_gone_through() {
    let folder = room("folders");
    fs::create_dir(folder.join("b")).expect("a folder");
    for name in ["c.edi", "b/2.edi", "a.edi", "b/1.edi"] {
        fs::copy(root().join(X), folder.join(name)).expect("a copy");
    }
    let names = ["a.edi", "b/1.edi", "b/2.edi", "c.edi"];
    let lines: String =
        names.iter().map(|name| format!("{}/{name}: accepted 5 1 0 93\n", text(&folder))).collect();
    run(&["judge", "-r", text(&folder)]).success().stdout(lines);
    let refused = run(&["judge", text(&folder)]).code(2).stdout("");
    assert!(errors(&refused).contains("-r goes through"), "{}", errors(&refused));
}

#[test]
fn quiet_tells_by_the_status_alone() {
    run(&["-q", "judge", X]).code(0).stdout("").stderr("");
    run(&["judge", "--quiet", WRONG]).code(1).stdout("").stderr("");
    run(&["normalise", "-q", WRONG]).code(1).stdout("").stderr("");
    let trouble = run(&["judge", "-q", "tests/none"]).code(2).stdout("");
    assert!(errors(&trouble).contains("No such file"));
}

#[test]
fn names_can_be_used_again() {
    use std::ffi::OsStr;
    use std::os::unix::ffi::OsStrExt;
    let folder = room("names");
    for name in [&b"a b.edi"[..], b"it's", b"line\nfeed", b"caf\xe9.edi", b"$(ls)`", b"back\\slash"]
    {
        fs::copy(root().join(X), folder.join(OsStr::from_bytes(name))).expect("a copy");
    }
    let printed = output(&run(&["judge", "-r", text(&folder)]).success());
    for line in printed.lines() {
        let name = line.strip_suffix(": accepted 5 1 0 93").expect("a name");
        // a shell takes the name as it was printed
        Command::new("bash").arg("-c").arg(format!("test -f {name}")).assert().success();
    }
    assert_eq!(printed.lines().count(), 6);
}

/// The objects that a run prints.
fn objects(words: &[&str], status: i32) -> Vec<Value> {
    let printed = output(&run(words).code(status));
    printed.lines().map(|line| serde_json::from_str(line).expect("an object")).collect()
}

#[test]
fn json_of_judge() {
    let all = objects(&["judge", "--json", X, WRONG], 1);
    assert_eq!(all[0]["file"], X);
    assert_eq!(all[0]["verdict"], "accepted");
    assert_eq!((&all[0]["segments"], &all[0]["normal_length"]), (&5.into(), &93.into()));
    for object in &all {
        assert_eq!(
            [&object["sender"], &object["recipient"], &object["reference"]],
            ["AA", "BB", "R1"]
        );
    }
    let refused = &all[1];
    assert_eq!(refused["verdict"], "refused");
    assert_eq!([&refused["number"], &refused["place"], &refused["segment"]], [12, 67, 4]);
    assert_eq!([&refused["tag"], &refused["found"], &refused["expected"]], ["UNT", "4", "3"]);
    assert_eq!(refused["explanation"], "UNT says 4, there are 3 segments from UNH (segment 2)");
}

#[test]
fn json_of_every_command() {
    let folder = room("json");
    let (columns, values) = (folder.join("columns"), folder.join("values"));
    fs::write(&columns, output(&run(&["export", X]))).expect("columns");
    fs::write(&values, output(&run(&["read", X]))).expect("values");
    let shelf = folder.join("shelf");
    let (columns, values, shelf) = (text(&columns), text(&values), text(&shelf));
    let six = ";*.! ~";
    for (words, status, verdict) in [
        (&["normalise", X][..], 0, "accepted"),
        (&["normalise", WRONG], 1, "refused"),
        (&["compare", X, "tests/cases/13-respelled.edi"], 0, "same"),
        (&["compare", X, "tests/cases/11-plain-plus.edi"], 1, "different"),
        (&["compare", X, WRONG], 1, "refused"),
        (&["keep", X, "tests/cases/13-respelled.edi"], 0, "keep"),
        (&["locate", "2", "2", "0", "0", X], 0, "at"),
        (&["locate", "9", "2", "0", "0", X], 1, "absent"),
        (&["read", X], 0, "accepted"),
        (&["write", six, values], 0, "accepted"),
        (&["write", six, columns], 2, ""),
        (&["respell", six, X], 0, "accepted"),
        (&["acknowledge", "--reference", "A1", X], 0, "accepted"),
        (&["acknowledge", "--reference", "A1", "tests/words/09-empty.edi"], 1, "refused"),
        (&["export", X], 0, "accepted"),
        (&["import", "--service", six, columns], 0, "accepted"),
        (&["import", "--service", six, X], 1, "refused"),
        (&["report", X], 0, "counted"),
        (&["shelf", shelf, "start"], 0, "started"),
        (&["shelf", shelf, "put", X], 0, "new"),
        (&["shelf", shelf, "put", X], 1, "copy"),
        (&["shelf", shelf, "list"], 0, "listed"),
        (&["shelf", shelf, "get", "9"], 1, "refused"),
        (&["shelf", shelf, "remove", "0"], 0, "removed"),
        (&["table", "tests/tables/orders.txt"], 0, "accepted"),
    ] {
        let printed = objects(&[&["--json"], words].concat(), status);
        match verdict {
            "" => assert!(printed.is_empty(), "{words:?}"),
            _ => assert_eq!(printed[0]["verdict"], verdict, "{words:?}"),
        }
    }
    assert_eq!(objects(&["explain", "--json", "12"], 0)[0]["number"], 12);
}

#[test]
fn colours_are_for_terminals() {
    run(&["judge", X]).stdout("accepted 5 1 0 93\n");
    run(&["judge", "--colour", "always", X]).stdout("\x1b[32maccepted\x1b[0m 5 1 0 93\n");
    run(&["judge", "--color=never", X]).stdout("accepted 5 1 0 93\n");
    run(&["judge", "--colour=sometimes", X]).code(2).stdout("");
}

#[test]
fn bytes_are_shown_into_a_pipe() {
    let shown = output(&run(&["judge", "--show", WRONG]).code(1));
    let lines: Vec<&str> = shown.lines().collect();
    assert_eq!(lines.len(), 3);
    let mark = lines[2].find('^').expect("a mark");
    assert!(lines[1][mark..].starts_with("UNT+4+1'"));
    assert_eq!(output(&run(&["judge", WRONG])).lines().count(), 1);
}

#[test]
fn all_faults_of_a_kind() {
    let printed =
        output(&run(&["judge", "--all", "tests/words/22-small-letters-under-unoa.edi"]).code(1));
    let lines: Vec<&str> = printed.lines().collect();
    assert!(lines[0].starts_with("refused 8 170: l is in level B"));
    assert!(lines[1].starts_with("  and 8 171: e is in level B"));
    assert_eq!(lines.len(), 17);
}

#[test]
fn a_number_is_explained() {
    let printed = output(&run(&["explain", "12"]).success());
    assert!(
        printed.starts_with("12: the trailer's count is wrong\n  Means    UNT counts"),
        "{printed}"
    );
    assert!(printed.lines().all(|line| line.len() <= 100));
    assert_eq!(output(&run(&["explain"]).success()).matches("  Place ").count(), 24);
    let unknown = run(&["explain", "25"]).code(2).stdout("");
    assert!(errors(&unknown).contains("there is no refusal 25: they are 1 to 24"));
    let list = output(&run(&["help", "refusals"]).success());
    assert!(list.contains("\n  12  the trailer's count is wrong\n"));
}

#[test]
fn help_says_first_what_is_taken() {
    for words in [&["--help"][..], &["-h"], &["help"], &["judge", "--help"]] {
        let printed = output(&run(words).success());
        let beginning: Vec<&str> = printed.lines().take(5).collect();
        let beginning = beginning.join(" ");
        for what in ["UNOA", "UNOB", "32000 bytes"] {
            assert!(beginning.contains(what), "{words:?}: {beginning}");
        }
    }
}

#[test]
fn a_spreadsheet_that_rewrote_values_is_told() {
    let folder = room("like");
    let (original, columns) = (folder.join("original.edi"), folder.join("columns.tsv"));
    let input =
        "UNB+UNOA:1+AA+BB+260105:0930+007'UNH+1+ORDERS:1:901:UN'MOA+12.50+=1?+1'UNT+3+1'UNZ+1+007'";
    fs::write(&original, input).expect("an interchange");
    let exported = output(&run(&["export", text(&original)]).success());
    let saved = exported.replace("\t0930\n", "\t930\n").replace("\t12.50\n", "\t12.5\n");
    let saved = saved.replace("\t007\n", "\t7\n").replace("\t=1+1\n", "\t2\n");
    fs::write(&columns, saved).expect("columns");
    let told = run(&["import", "--like", text(&original), text(&columns)]).success();
    assert!(
        output(&told).starts_with("UNA:+.? 'UNB+UNOA:1+AA+BB+260105:930+7'"),
        "{}",
        output(&told)
    );
    let lines = errors(&told);
    assert_eq!(lines.lines().count(), 5, "{lines}");
    assert!(
        lines.contains("line 8: 930, where")
            && lines.contains("has 0930 (the same number: a spreadsheet"),
        "{lines}"
    );
    assert!(lines.contains("has =1+1 (a spreadsheet may have run it as a formula)"), "{lines}");
    fs::write(&columns, exported).expect("columns");
    run(&["import", "--like", text(&original), text(&columns)]).success().stderr("");
}

#[test]
fn a_sheet_has_text_cells() {
    let printed = output(&run(&["export", "--ods", X]).success());
    assert!(printed.starts_with("<?xml"));
    assert_eq!(printed.matches("<table:table-row>").count(), 24);
    assert_eq!(printed.matches("office:value-type=\"string\"").count(), 24 * 5);
    assert!(printed.contains("<text:p>0930</text:p>"));
}

#[test]
fn a_table_is_bytes_for_callers() {
    let folder = room("table");
    let file = folder.join("table.txt");
    fs::write(&file, "BGM M 1\nSG1 C 9\n  LIN M 1\n").expect("a table");
    let bytes: &[u8] = b"BGMM\0\x01\0\0\0\0\0C\0\x09\0\x01LINM\0\x01\0\0";
    let printed = run(&["table", text(&file)]).success();
    assert_eq!(printed.get_output().stdout, bytes);
    fs::write(&file, "BGM M 1\nSG1 C 9\n  LIN C 1\n").expect("a table");
    let unsound = run(&["table", text(&file)]).code(1).stdout("");
    assert!(errors(&unsound).contains("refused 21 2: ") && errors(&unsound).contains("line 3 of "));
}

#[test]
fn a_table_is_chosen_by_the_message_type() {
    let folder = room("tables");
    let judge =
        |status| run(&["judge", "--tables", text(&folder), "tests/tables/order.edi"]).code(status);
    assert!(errors(&judge(2)).contains("has no table ORDERS."));
    fs::copy(root().join("tests/tables/orders.txt"), folder.join("ORDERS.txt")).expect("a copy");
    assert_eq!(output(&judge(0)), "accepted 18 1 0 316\n");
    // the closest name is taken
    let unh = String::from_utf8(fs::read(root().join("tests/tables/order.edi")).expect("an order"))
        .expect("text");
    let name = unh
        .split("UNH+")
        .nth(1)
        .and_then(|rest| rest.split(&['+', '\''][..]).nth(1))
        .expect("a type");
    fs::write(folder.join(format!("{}.txt", name.replace(':', "."))), "DTM M 1\n")
        .expect("a table");
    assert!(output(&judge(1)).starts_with("refused 22 "));
    run(&["judge", "--tables", text(&folder), "--table", "x", X]).code(2);
}
