//! Writers and servers that are killed at random. Each writer is a process of its own: this test
//! program again, which then does nothing but keep, and notes each answer in a file once it has
//! it. The numbers of kills are small here; HVEROLDA_KILLS and HVEROLDA_SERVER_KILLS say others.

use std::collections::{BTreeMap, HashMap, HashSet};
use std::env;
use std::fs::{self, OpenOptions};
use std::io::Write;
use std::path::{Path, PathBuf};
use std::process::{Child, Command, Stdio};
use std::thread;
use std::time::Duration;

use super::generator::{interchange, mixed};
use super::keeping::item;
use super::stores::{on_both, Store};
use crate::{Answer, Filter, Item, Mailbox};

on_both! { writers_are_killed }

const WRITERS: u64 = 8;

/// How many items each writer brings; HVEROLDA_EACH says another number.
fn each() -> u64 {
    asked("HVEROLDA_EACH", 600)
}

/// Of how many different interchanges.
fn different() -> u64 {
    each() * 5 / 2
}

fn asked(name: &str, default: u64) -> u64 {
    env::var(name).ok().and_then(|text| text.parse().ok()).unwrap_or(default)
}

fn writers_are_killed(store: &Store) {
    kill(store, asked("HVEROLDA_KILLS", 16), 0);
}

#[test]
fn postgresql_servers_are_killed() {
    kill(&Store::postgresql(), 4, asked("HVEROLDA_SERVER_KILLS", 2));
}

/// Which interchange a writer brings at this place, and under which spelling.
fn brought(writer: u64, at: u64) -> (u64, u64) {
    (mixed(writer, at) % different(), mixed(at, writer) % 6)
}

fn name(writer: u64, at: u64) -> String {
    format!("writer {writer} item {at}")
}

/// A line of a writer's notes: its place, `new` or the first delivery's name, and a mark that the
/// line is whole.
fn noted(notes: &Path) -> Vec<(u64, String)> {
    let text = fs::read_to_string(notes).unwrap_or_default();
    let line = |line: &str| {
        let (at, rest) = line.strip_suffix(" .")?.split_once(' ')?;
        Some((at.parse().ok()?, rest.to_string()))
    };
    text.lines().filter_map(line).collect()
}

/// The process of a writer. It begins some places before where it was stopped, so that some calls
/// are repeated whose answer it had.
#[test]
#[ignore = "a process of the runs in which writers are killed"]
fn writer() {
    let place = env::var("HVEROLDA_PLACE").unwrap();
    let notes = PathBuf::from(env::var("HVEROLDA_NOTES").unwrap());
    let writer = asked("HVEROLDA_WRITER", 0);
    let before = noted(&notes).len() as u64;
    let mut at = before.min(each()).saturating_sub(30);
    let mut file = OpenOptions::new().append(true).create(true).open(&notes).unwrap();
    // a line that was cut short is none
    file.write_all(b"\n").unwrap();
    let mut mailbox = Mailbox::open(&place).unwrap();
    while at < each() {
        let end = each().min(at + 1 + mixed(at, before) % 40);
        let items: Vec<Item> = (at..end)
            .map(|at| {
                let (number, spelling) = brought(writer, at);
                item(&format!("net {writer}"), &name(writer, at), &interchange(number, spelling))
            })
            .collect();
        for answer in mailbox.keep(&items).unwrap() {
            let told = match answer {
                Answer::New { .. } => "new".to_string(),
                Answer::Copy { first, compared: true, .. } => first.delivery,
                other => panic!("{other:?}"),
            };
            file.write_all(format!("{at} {told} .\n").as_bytes()).unwrap();
            at += 1;
        }
    }
}

fn spawn(store: &Store, writer: u64) -> Child {
    Command::new(env::current_exe().unwrap())
        .args(["--exact", "--ignored", "tests::killing::writer"])
        .env("HVEROLDA_PLACE", store.place())
        .env("HVEROLDA_NOTES", notes(store, writer))
        .env("HVEROLDA_WRITER", writer.to_string())
        .stdout(Stdio::null())
        .spawn()
        .unwrap()
}

fn notes(store: &Store, writer: u64) -> PathBuf {
    store.folder.path().join(format!("notes {writer}"))
}

fn kill(store: &Store, writers: u64, servers: u64) {
    Mailbox::start(store.place(), 0).unwrap();
    let mut children: Vec<Child> = (0..WRITERS).map(|writer| spawn(store, writer)).collect();
    let kills = writers + servers;
    for kill in 0..kills {
        thread::sleep(Duration::from_millis(10 + mixed(kill, writers) % 60));
        // the servers' kills lie between the writers'
        if kill * servers / kills != (kill + 1) * servers / kills {
            store.kill_server();
        } else {
            let victim = mixed(kill, 7) % WRITERS;
            let child = &mut children[victim as usize];
            child.kill().unwrap();
            child.wait().unwrap();
            *child = spawn(store, victim);
        }
    }
    for mut child in children {
        assert!(child.wait().unwrap().success());
    }
    verify(store);
}

/// Each interchange that was brought is kept once, and what was answered is so.
fn verify(store: &Store) {
    // the answer to each delivery, and the deliveries that were told that theirs is new
    let mut answers: HashMap<String, String> = HashMap::new();
    let mut new: BTreeMap<u64, HashSet<String>> = BTreeMap::new();
    for writer in 0..WRITERS {
        for (at, told) in noted(&notes(store, writer)) {
            let delivery = name(writer, at);
            let number = brought(writer, at).0;
            new.entry(number).or_default().extend((told == "new").then(|| delivery.clone()));
            let before = answers.insert(delivery.clone(), told.clone());
            assert!(before.map_or(true, |before| before == told), "{delivery} is told {told}");
        }
    }
    assert_eq!(answers.len() as u64, WRITERS * each());
    assert!(new.values().all(|deliveries| deliveries.len() == 1));
    let mut mailbox = Mailbox::open(store.place()).unwrap();
    let mut kept = HashMap::new();
    mailbox
        .list(&Filter::default(), |listed| {
            kept.insert(listed.parties.reference, listed.first.delivery);
            true
        })
        .unwrap();
    assert_eq!(kept.len(), new.len());
    for (number, deliveries) in &new {
        assert!(deliveries.contains(&kept[&format!("R{number}")]));
    }
    // a copy was told of the delivery that is the first still
    for writer in 0..WRITERS {
        for at in 0..each() {
            let (told, delivery) = (&answers[&name(writer, at)], name(writer, at));
            let first = &kept[&format!("R{}", brought(writer, at).0)];
            assert_eq!(first, if told == "new" { &delivery } else { told });
        }
    }
    let report = mailbox.report(None).unwrap();
    let sum = report.kept.values().sum::<u64>() + report.copies.values().sum::<u64>();
    assert_eq!(sum, WRITERS * each());
    assert!(mailbox.check().unwrap().is_sound());
}
