//! Ten thousand files, a thousand of them copies under other spellings.

use std::fs;

use super::generator::{interchange, mixed, SPELLINGS};
use super::stores::{on_both, Store};
use crate::{Answer, Delivery, Keeper, Mailbox, Source};

on_both! { ten_thousand_files_with_a_thousand_copies a_file_of_many_pieces }

const DIFFERENT: u64 = 9000;
const COPIES: u64 = 1000;

fn ten_thousand_files_with_a_thousand_copies(store: &Store) {
    let folder = store.folder.path().join("files");
    fs::create_dir(&folder).unwrap();
    let mut numbers: Vec<(u64, u64)> = (0..DIFFERENT).map(|at| (at, 0)).collect();
    numbers.extend((0..COPIES).map(|at| (at * 9, 1 + mixed(at, 3) % (SPELLINGS - 1))));
    numbers.sort_by_key(|(number, spelling)| mixed(*number, *spelling));
    for (at, (number, spelling)) in numbers.iter().enumerate() {
        fs::write(folder.join(format!("{at:05}")), interchange(*number, *spelling)).unwrap();
    }
    let mut mailbox = Mailbox::start(store.place(), 0).unwrap();
    let mut answers = Vec::new();
    let mut keeper = Keeper::new(&mut mailbox, 0);
    for at in 0..numbers.len() {
        let path = folder.join(format!("{at:05}"));
        let source = Source::open(&path).unwrap();
        let delivery = Delivery::of_file("net", &path, &fs::metadata(&path).unwrap()).unwrap();
        for item in source.items(delivery) {
            answers.extend(keeper.add(item).unwrap());
        }
    }
    answers.extend(keeper.flush().unwrap());
    let new = answers.iter().filter(|(_, answer)| matches!(answer, Answer::New { .. })).count();
    let is_copy = |answer: &Answer| matches!(answer, Answer::Copy { compared: true, .. });
    let copies = answers.iter().filter(|(_, answer)| is_copy(answer)).count();
    assert_eq!((new as u64, copies as u64), (DIFFERENT, COPIES));
    let check = mailbox.check().unwrap();
    assert!(check.is_sound());
    assert_eq!(check.sound, DIFFERENT);
}

/// The interchanges of one file, end to end, a copy and a refused rest among them.
fn a_file_of_many_pieces(store: &Store) {
    let mut bytes = Vec::new();
    for at in 0..2500 {
        bytes.extend(interchange(at % 2000, at));
    }
    bytes.extend(b"rest");
    let path = store.folder.path().join("file");
    fs::write(&path, &bytes).unwrap();
    assert!(bytes.len() > 1 << 20, "the file is to be mapped");
    let mut mailbox = Mailbox::start(store.place(), 0).unwrap();
    let mut keeper = Keeper::new(&mut mailbox, 300);
    let source = Source::open(&path).unwrap();
    let delivery = Delivery::of_file("net", &path, &fs::metadata(&path).unwrap()).unwrap();
    let mut answers = Vec::new();
    for item in source.items(delivery) {
        answers.extend(keeper.add(item).unwrap());
    }
    answers.extend(keeper.flush().unwrap());
    assert_eq!(answers.len(), 2501);
    for (at, (item, answer)) in answers.iter().enumerate() {
        assert_eq!(item.piece, at as u64);
        match (at, answer) {
            (0..=1999, Answer::New { again: false, .. }) => {}
            (2000..=2499, Answer::Copy { first, .. }) => assert_eq!(first.piece, at as u64 - 2000),
            (2500, Answer::Refused(refusal)) => assert_eq!(refusal.number(), 3),
            (_, other) => panic!("{at}: {other:?}"),
        }
    }
}
