//! A shelf that is moved away, and started anew, while eight put on it: whatever was told
//! `new` is in one file and in no other, and no start is refused.
//!
//! ROTATIONS says how often; by hand: `ROTATIONS=300 cargo test -p hverolda-cli --release
//! --test rotation -- --nocapture`.

mod common;

use std::collections::HashMap;
use std::fs;
use std::io::ErrorKind;
use std::path::{Path, PathBuf};
use std::sync::atomic::{AtomicBool, AtomicUsize, Ordering};
use std::thread;
use std::time::{Duration, Instant};

use common::{count, normal, shelf, streams, texts, Folder};

const PUTTERS: usize = 8;

/// No machine is so slow: where nothing is kept for so long, nothing ever will be.
const STUCK: Duration = Duration::from_secs(120);

/// What a putter was told.
#[derive(Default)]
struct Told {
    /// The numbers of what is on a shelf, as it was told.
    kept: Vec<usize>,
    /// How often there was no shelf, and how often it was full.
    missing: usize,
    full: usize,
}

/// What all of them know: the next number, how many were kept, whether to stop.
#[derive(Default)]
struct Shared {
    next: AtomicUsize,
    kept: AtomicUsize,
    stop: AtomicBool,
}

/// Stops them when it goes, also where something was not as it must be.
struct Stopping<'a>(&'a Shared);

impl Drop for Stopping<'_> {
    fn drop(&mut self) {
        self.0.stop.store(true, Ordering::Relaxed);
    }
}

/// Puts one interchange after the other until it is told to stop. One that is in trouble is
/// put again.
fn put_until(folder: &Folder, on: &Path, shared: &Shared) -> Told {
    let mut told = Told::default();
    loop {
        let number = shared.next.fetch_add(1, Ordering::Relaxed);
        let file = folder.interchange(number);
        let words = ["put", file.to_str().unwrap()];
        loop {
            let (code, out, err) = streams(&shelf(on, &words));
            match code {
                Some(0) => {
                    shared.kept.fetch_add(1, Ordering::Relaxed);
                    break told.kept.push(number);
                }
                _ if err.contains("No such file") => told.missing += 1,
                _ if err.contains("refused 17 64: ") => told.full += 1,
                // each is put by one alone, and again only where it was not kept
                _ => panic!("put {number}: {code:?} {out}{err}"),
            }
            if shared.stop.load(Ordering::Relaxed) {
                break;
            }
            thread::sleep(Duration::from_millis(2));
        }
        fs::remove_file(file).unwrap();
        if shared.stop.load(Ordering::Relaxed) {
            return told;
        }
    }
}

/// Does something to the shelf so often, with its old name for each time, while eight put.
fn rotated(name: &str, all_kept: bool, rotate: impl Fn(&Path, &Path)) {
    let folder = Folder::new();
    let on = folder.shelf("mailbox", 65_536);
    let times = count("ROTATIONS", 30);
    let old = |time: usize| folder.file(&format!("old.{time}"));
    let shared = Shared { next: AtomicUsize::new(100_000), ..Shared::default() };
    let told: Vec<Told> = thread::scope(|scope| {
        let _stop = Stopping(&shared);
        let put = || put_until(&folder, &on, &shared);
        let putters: Vec<_> = (0..PUTTERS).map(|_| scope.spawn(put)).collect();
        for time in 0..times {
            // one to eight more are kept before each
            let wanted = shared.kept.load(Ordering::Relaxed) + 1 + time * 5 % 8;
            let began = Instant::now();
            while shared.kept.load(Ordering::Relaxed) < wanted {
                assert!(!putters.iter().any(|putter| putter.is_finished()), "one fell out");
                assert!(began.elapsed() < STUCK, "nothing is kept any more");
                thread::sleep(Duration::from_micros(500));
            }
            rotate(&on, &old(time));
        }
        shared.stop.store(true, Ordering::Relaxed);
        putters.into_iter().map(|putter| putter.join().unwrap()).collect()
    });
    let mut places: HashMap<String, Vec<PathBuf>> = HashMap::new();
    for path in (0..times).map(old).chain([on.clone()]) {
        for text in texts(&path).into_values() {
            places.entry(text).or_default().push(path.clone());
        }
    }
    let kept: Vec<usize> = told.iter().flat_map(|told| told.kept.clone()).collect();
    let lost = kept.iter().filter(|number| !places.contains_key(&normal(**number))).count();
    let doubled = places.values().filter(|places| places.len() > 1).count();
    let sum = |of: fn(&Told) -> usize| told.iter().map(of).sum::<usize>();
    println!(
        "{name}: {times} rotations, no start refused; {} puts told new, {lost} of them in no \
         file, {doubled} in two; {} times no shelf, {} times a full one",
        kept.len(),
        sum(|told| told.missing),
        sum(|told| told.full)
    );
    assert!(kept.len() >= times, "too few puts to see anything");
    assert_eq!(doubled, 0, "texts in two files");
    assert!(!all_kept || lost == 0, "{lost} texts in no file");
    // those that stopped between two rotations left nothing
    assert_eq!(folder.hidden(), Vec::<String>::new());
}

fn start(on: &Path) {
    let (code, out, err) = streams(&shelf(on, &["start"]));
    assert_eq!((code, out.as_str()), (Some(0), "started 65536\n"), "a start is refused: {err}");
}

#[test]
fn moved_away_by_an_operator_and_started_anew() {
    rotated("mv and start", true, |on, old| {
        fs::rename(on, old).unwrap();
        start(on);
    });
}

/// What was put between the link and the removal goes with the removed shelf: what counts
/// is that nothing of the old shelf comes back on a new one.
#[test]
fn removed_by_an_operator_and_started_anew() {
    rotated("rm and start", false, |on, old| {
        // a file that is replaced while it is linked has no name, and cannot be given one
        while let Err(error) = fs::hard_link(on, old) {
            assert_eq!(error.kind(), ErrorKind::NotFound, "{error}");
        }
        fs::remove_file(on).unwrap();
        start(on);
    });
}

#[test]
fn moved_by_the_command() {
    rotated("move", true, |on, old| {
        let (code, out, err) = streams(&shelf(on, &["move", old.to_str().unwrap()]));
        assert_eq!((code, out.as_str()), (Some(0), "moved 65536\n"), "a move is refused: {err}");
    });
}
