//! A disk in memory that forgets what was not synced, and on which something else may happen
//! before any call: a run is killed, an operator renames files, another run does its work.
//! By it every operation is tried with each of these before each of its calls.

use std::cell::{Cell, RefCell};
use std::collections::{BTreeMap, BTreeSet};
use std::io::{self, ErrorKind};
use std::path::{Path, PathBuf};
use std::rc::Rc;
use std::time::Instant;

use super::system::{Deadline, Readers, System};
use super::{ShelfTrouble, Work};
use crate::examples::X;
use crate::{Shelf, Shelved};

type Names = BTreeMap<PathBuf, usize>;

#[derive(Clone, Debug)]
enum Naming {
    Given(PathBuf, usize),
    Taken(PathBuf),
    Exchanged(PathBuf, PathBuf),
}

#[derive(Clone, Default)]
struct Inode {
    bytes: Vec<u8>,
    /// What is on the disk of it.
    synced: Vec<u8>,
    readers: Option<Readers>,
    locked_by: Option<usize>,
}

/// One folder, `/f`, which is inode 0.
#[derive(Default)]
struct State {
    inodes: Vec<Inode>,
    names: Names,
    /// The names on the disk, and what was done to them since.
    settled: Names,
    pending: Vec<Naming>,
    handles: usize,
}

#[derive(Clone)]
struct Handle {
    inode: usize,
    id: usize,
    state: Rc<RefCell<State>>,
}

impl Drop for Handle {
    fn drop(&mut self) {
        let mut state = self.state.borrow_mut();
        if state.inodes[self.inode].locked_by == Some(self.id) {
            state.inodes[self.inode].locked_by = None;
        }
    }
}

/// The number of the call that follows, and its name.
type Hook<'a> = Box<dyn Fn(usize, &str) + 'a>;

/// The disk as one run sees it.
struct Model<'a> {
    state: Rc<RefCell<State>>,
    calls: Cell<usize>,
    /// What happens before a call; and the call at which the run is killed.
    before: Hook<'a>,
    killed_at: usize,
    exchanges: bool,
}

fn error(kind: ErrorKind) -> io::Error {
    io::Error::new(kind, "on the model")
}

impl State {
    fn apply(names: &mut Names, naming: &Naming) {
        match naming {
            Naming::Given(path, inode) => {
                names.insert(path.clone(), *inode);
            }
            Naming::Taken(path) => {
                names.remove(path);
            }
            Naming::Exchanged(one, other) => {
                if let (Some(first), Some(second)) = (names.remove(one), names.remove(other)) {
                    names.insert(one.clone(), second);
                    names.insert(other.clone(), first);
                }
            }
        }
    }

    fn name(&mut self, naming: Naming) {
        State::apply(&mut self.names, &naming);
        self.pending.push(naming);
    }

    /// What may be on the disk if the power fails now: of the namings since the last sync
    /// the first few; of a file what was synced.
    fn after_a_power_cut(&self) -> Vec<BTreeMap<PathBuf, Vec<u8>>> {
        let disk = |count: usize| {
            let mut names = self.settled.clone();
            self.pending[..count].iter().for_each(|naming| State::apply(&mut names, naming));
            names.into_iter().map(|(path, file)| (path, self.inodes[file].synced.clone())).collect()
        };
        (0..=self.pending.len()).map(disk).collect()
    }

    fn files(&self) -> BTreeMap<PathBuf, Vec<u8>> {
        let file =
            |(path, inode): (&PathBuf, &usize)| (path.clone(), self.inodes[*inode].bytes.clone());
        self.names.iter().map(file).collect()
    }
}

impl<'a> Model<'a> {
    fn new(state: &Rc<RefCell<State>>) -> Model<'a> {
        let state = Rc::clone(state);
        let before = Box::new(|_, _: &str| {});
        Model { state, calls: Cell::new(0), before, killed_at: usize::MAX, exchanges: true }
    }

    /// Before each call.
    fn step(&self, name: &str) -> io::Result<()> {
        let call = self.calls.get();
        if call >= self.killed_at {
            return Err(error(ErrorKind::Other));
        }
        self.calls.set(call + 1);
        (self.before)(call, name);
        Ok(())
    }

    fn handle(&self, inode: usize) -> Handle {
        let mut state = self.state.borrow_mut();
        state.handles += 1;
        Handle { inode, id: state.handles, state: Rc::clone(&self.state) }
    }

    fn work<'b>(&'b self, name: &'b Path) -> Work<'b, Model<'a>> {
        Work { system: self, name, deadline: Some(Instant::now()) }
    }
}

impl System for Model<'_> {
    type File = Handle;

    fn resolve(&self, name: &Path) -> io::Result<PathBuf> {
        self.step("resolve")?;
        match self.state.borrow().names.contains_key(name) {
            true => Ok(name.to_path_buf()),
            false => Err(error(ErrorKind::NotFound)),
        }
    }

    fn open(&self, path: &Path, _change: bool) -> io::Result<Handle> {
        self.step("open")?;
        let inode = self.state.borrow().names.get(path).copied();
        inode.map(|inode| self.handle(inode)).ok_or_else(|| error(ErrorKind::NotFound))
    }

    fn open_folder(&self, path: &Path) -> io::Result<Handle> {
        self.step("open_folder")?;
        assert_eq!(path, Path::new("/f"));
        Ok(self.handle(0))
    }

    fn create(&self, path: &Path, readers: Readers) -> io::Result<Handle> {
        self.step("create")?;
        let mut state = self.state.borrow_mut();
        if state.names.contains_key(path) {
            return Err(error(ErrorKind::AlreadyExists));
        }
        let inode = state.inodes.len();
        state.inodes.push(Inode { readers: Some(readers), ..Inode::default() });
        state.name(Naming::Given(path.to_path_buf(), inode));
        drop(state);
        Ok(self.handle(inode))
    }

    fn lock(&self, file: &Handle, deadline: Deadline) -> io::Result<bool> {
        self.step("lock")?;
        assert!(deadline.is_some(), "it would wait for ever");
        let mut state = self.state.borrow_mut();
        let lock = &mut state.inodes[file.inode].locked_by;
        let is_free = lock.is_none() || *lock == Some(file.id);
        if is_free {
            *lock = Some(file.id);
        }
        Ok(is_free)
    }

    fn unlock(&self, file: &Handle) -> io::Result<()> {
        self.step("unlock")?;
        self.state.borrow_mut().inodes[file.inode].locked_by = None;
        Ok(())
    }

    fn is_named(&self, file: &Handle, path: &Path) -> io::Result<bool> {
        self.step("is_named")?;
        Ok(self.state.borrow().names.get(path) == Some(&file.inode))
    }

    fn read(&self, file: &Handle) -> io::Result<Vec<u8>> {
        self.step("read")?;
        Ok(self.state.borrow().inodes[file.inode].bytes.clone())
    }

    /// In two halves, so that a run can be killed between them.
    fn write(&self, file: &Handle, bytes: &[u8]) -> io::Result<()> {
        for half in [&bytes[..bytes.len() / 2], &bytes[bytes.len() / 2..]] {
            self.step("write")?;
            self.state.borrow_mut().inodes[file.inode].bytes.extend(half);
        }
        Ok(())
    }

    fn dress(&self, file: &Handle, like: &Handle) -> io::Result<()> {
        self.step("dress")?;
        let mut state = self.state.borrow_mut();
        assert_eq!(state.inodes[file.inode].readers, Some(Readers::Nobody));
        state.inodes[file.inode].readers = state.inodes[like.inode].readers;
        Ok(())
    }

    fn sync(&self, file: &Handle) -> io::Result<()> {
        self.step("sync")?;
        let mut state = self.state.borrow_mut();
        if file.inode == 0 {
            state.settled = state.names.clone();
            state.pending.clear();
        }
        let inode = &mut state.inodes[file.inode];
        inode.synced = inode.bytes.clone();
        Ok(())
    }

    fn exchange(&self, one: &Path, other: &Path) -> io::Result<bool> {
        self.step("exchange")?;
        let mut state = self.state.borrow_mut();
        if !self.exchanges {
            return Ok(false);
        }
        if !state.names.contains_key(one) || !state.names.contains_key(other) {
            return Err(error(ErrorKind::NotFound));
        }
        state.name(Naming::Exchanged(one.to_path_buf(), other.to_path_buf()));
        Ok(true)
    }

    fn rename(&self, from: &Path, to: &Path) -> io::Result<()> {
        self.step("rename")?;
        renamed(&self.state, from, to)
    }

    fn link(&self, from: &Path, to: &Path) -> io::Result<()> {
        self.step("link")?;
        let mut state = self.state.borrow_mut();
        let inode = *state.names.get(from).ok_or_else(|| error(ErrorKind::NotFound))?;
        if state.names.contains_key(to) {
            return Err(error(ErrorKind::AlreadyExists));
        }
        state.name(Naming::Given(to.to_path_buf(), inode));
        Ok(())
    }

    fn unlink(&self, path: &Path) -> io::Result<()> {
        self.step("unlink")?;
        let mut state = self.state.borrow_mut();
        if !state.names.contains_key(path) {
            return Err(error(ErrorKind::NotFound));
        }
        state.name(Naming::Taken(path.to_path_buf()));
        Ok(())
    }
}

/// At once: the two names are one naming on the disk too.
fn renamed(state: &RefCell<State>, from: &Path, to: &Path) -> io::Result<()> {
    let mut state = state.borrow_mut();
    let inode = *state.names.get(from).ok_or_else(|| error(ErrorKind::NotFound))?;
    if state.names.contains_key(to) {
        state.name(Naming::Exchanged(from.to_path_buf(), to.to_path_buf()));
        state.name(Naming::Taken(from.to_path_buf()));
    } else {
        state.name(Naming::Given(to.to_path_buf(), inode));
        state.name(Naming::Taken(from.to_path_buf()));
    }
    Ok(())
}

// ---- the tries

const SHELF: &str = "/f/mailbox";
const NEW: &str = "/f/old";
const SIZE: usize = 1_000;

fn numbered(number: usize) -> Vec<u8> {
    String::from_utf8(X.to_vec()).unwrap().replace("R1", &format!("R{number}")).into_bytes()
}

/// A disk with a shelf on it that keeps interchange 10.
fn disk() -> Rc<RefCell<State>> {
    let state = Rc::new(RefCell::new(State { inodes: vec![Inode::default()], ..State::default() }));
    let model = Model::new(&state);
    let shelf = Shelf::start(vec![0; SIZE]).unwrap();
    model.work(Path::new(SHELF)).start(shelf.as_bytes()).unwrap();
    put(&model, 10).unwrap();
    assert!(state.borrow().pending.is_empty());
    drop(model);
    state
}

fn put(model: &Model, number: usize) -> Result<Shelved, ShelfTrouble> {
    model.work(Path::new(SHELF)).change(|shelf| shelf.put(&numbered(number)))
}

fn start(model: &Model) -> Result<(), ShelfTrouble> {
    let shelf = Shelf::start(vec![0; SIZE]).unwrap();
    model.work(Path::new(SHELF)).start(shelf.as_bytes())
}

/// The numbers of the texts that a file keeps; it has to be a sound shelf.
fn kept(bytes: &[u8]) -> BTreeSet<usize> {
    let shelf = Shelf::over(bytes.to_vec());
    shelf.slots().expect("a sound shelf");
    (10..=12).filter(|number| shelf.find(&numbered(*number)).unwrap().is_some()).collect()
}

/// How many of the files that no run made for itself keep it.
fn places(files: &BTreeMap<PathBuf, Vec<u8>>, number: usize) -> usize {
    let is_plain = |path: &Path| !path.file_name().unwrap().to_str().unwrap().starts_with('.');
    files.iter().filter(|(path, bytes)| is_plain(path) && kept(bytes).contains(&number)).count()
}

fn is_late(trouble: &ShelfTrouble) -> bool {
    matches!(trouble, ShelfTrouble::File(_, error) if error.kind() == ErrorKind::TimedOut)
}

fn is_missing(trouble: &ShelfTrouble) -> bool {
    matches!(trouble, ShelfTrouble::File(_, error) if error.kind() == ErrorKind::NotFound)
}

type Try = fn(&Model) -> Result<(), ShelfTrouble>;

/// What is tried, and how many files then keep 10, and 11, after it: before it 1 and 0.
const TRIES: [(&str, Try, [usize; 2]); 4] = [
    ("put", |model| put(model, 11).map(|told| assert_eq!(told, Shelved::New(1))), [1, 1]),
    ("copy", |model| put(model, 10).map(|told| assert_eq!(told, Shelved::Copy(0))), [1, 0]),
    (
        "remove",
        |model| {
            let removed = model.work(Path::new(SHELF)).change(|shelf| shelf.remove(0));
            removed.map(|length| assert_eq!(length, 95))
        },
        [0, 0],
    ),
    ("move", |model| model.work(Path::new(SHELF)).move_to(Path::new(NEW)).map(|_| ()), [1, 0]),
];

/// How many calls it takes, undisturbed.
fn calls(of: Try) -> usize {
    let state = disk();
    let model = Model::new(&state);
    of(&model).unwrap();
    model.calls.get()
}

/// The numbers of copies of 10 and 11, and of the duplicates that are counted.
fn found(files: &BTreeMap<PathBuf, Vec<u8>>) -> ([usize; 2], u32) {
    let shelf = Shelf::over(files[Path::new(SHELF)].clone());
    ([places(files, 10), places(files, 11)], shelf.sums().unwrap().duplicates)
}

#[test]
fn what_was_answered_is_there_after_a_power_cut() {
    for (name, of, wanted) in TRIES {
        for exchanges in [true, false] {
            let state = disk();
            let model = Model { exchanges, ..Model::new(&state) };
            if name == "move" && !exchanges {
                assert!(of(&model).is_err());
                continue;
            }
            of(&model).unwrap();
            for files in state.borrow().after_a_power_cut() {
                let duplicates = u32::from(name == "copy");
                assert_eq!(found(&files), (wanted, duplicates), "{name}");
            }
        }
    }
}

#[test]
fn a_power_cut_leaves_the_old_shelf_or_the_new_one() {
    for (name, of, wanted) in TRIES {
        for killed_at in 0..calls(of) {
            let state = disk();
            let model = Model { killed_at, ..Model::new(&state) };
            assert!(of(&model).is_err(), "{name}: it needs fewer calls");
            for files in state.borrow().after_a_power_cut() {
                let told = found(&files);
                assert!(told.0 == [1, 0] || told.0 == wanted, "{name} until {killed_at}: {told:?}");
            }
        }
    }
}

#[test]
fn a_killed_run_stops_nobody_and_what_it_left_goes() {
    for (name, of, wanted) in TRIES {
        for killed_at in 0..calls(of) {
            let state = disk();
            assert!(of(&Model { killed_at, ..Model::new(&state) }).is_err());
            let before = found(&state.borrow().files()).0;
            assert!(before == [1, 0] || before == wanted, "{name} until {killed_at}: {before:?}");
            // the first has the lock of what a run leaves that was killed in a start or a move
            let model = Model::new(&state);
            for _ in 0..2 {
                put(&model, 12).unwrap();
            }
            let files = state.borrow().files();
            let hidden = files.keys().filter(|path| path.to_str().unwrap().contains("/.")).count();
            assert_eq!(hidden, 0, "{name} until {killed_at}: a file is left");
            assert_eq!((found(&files).0, places(&files, 12)), (before, 1));
        }
    }
}

#[test]
fn a_move_that_was_killed_is_repeated() {
    let (_, of, wanted) = TRIES[3];
    for killed_at in 0..calls(of) {
        let state = disk();
        assert!(of(&Model { killed_at, ..Model::new(&state) }).is_err());
        let done = !kept(&state.borrow().files()[Path::new(SHELF)]).contains(&10);
        let again = of(&Model::new(&state));
        // one that was done, so that its answer alone was lost, is refused: the name is taken
        assert_eq!(again.is_err(), done, "killed at {killed_at}");
        let files = state.borrow().files();
        assert_eq!(found(&files).0, wanted);
        assert_eq!(kept(&files[Path::new(SHELF)]), BTreeSet::new());
    }
}

#[test]
fn a_start_that_was_cut_is_no_file_or_a_whole_one() {
    let empty =
        || Rc::new(RefCell::new(State { inodes: vec![Inode::default()], ..State::default() }));
    let whole = Shelf::start(vec![0; SIZE]).unwrap().into_inner();
    let state = empty();
    let model = Model::new(&state);
    start(&model).unwrap();
    assert!(is_existing(&start(&model)));
    for files in state.borrow().after_a_power_cut() {
        assert_eq!(files.get(Path::new(SHELF)), Some(&whole));
    }
    for killed_at in 0..model.calls.get() {
        let state = empty();
        let _ = start(&Model { killed_at, ..Model::new(&state) });
        for files in state.borrow().after_a_power_cut() {
            assert!(files.get(Path::new(SHELF)).map_or(true, |bytes| *bytes == whole));
        }
        let again = start(&Model::new(&state));
        assert!(again.is_ok() || is_existing(&again));
    }
}

fn is_existing(done: &Result<(), ShelfTrouble>) -> bool {
    matches!(done, Err(ShelfTrouble::File(_, error)) if error.kind() == ErrorKind::AlreadyExists)
}

fn hidden_names(state: &State) -> Names {
    let is_hidden = |path: &Path| path.to_str().unwrap().contains("/.");
    let mut names = state.names.clone();
    names.retain(|path, _| is_hidden(path));
    names
}

/// What came of a run that was disturbed: whether it was told that 11 is new, how many calls
/// it made, and the files.
struct Disturbed {
    told: bool,
    calls: usize,
    files: BTreeMap<PathBuf, Vec<u8>>,
}

/// While a run puts 11, an operator takes the shelf away before one of its calls, and starts
/// another as soon as the folder's lock is free; then another run puts 12 on that.
fn disturbed(at: usize, then: usize, take: &dyn Fn(&RefCell<State>)) -> Disturbed {
    let state = disk();
    let other = Model::new(&state);
    let (taken, started, second) = (Cell::new(false), Cell::new(false), Cell::new(false));
    let disturb = |call: usize, _: &str| {
        // what stands beside the shelf is the disturbed run's, which lives
        let before = hidden_names(&state.borrow());
        if call >= at && !taken.get() {
            take(&state);
            taken.set(true);
        }
        if call >= then && taken.get() && !started.get() {
            let done = start(&other);
            assert!(done.as_ref().map_or_else(is_late, |()| true), "{at} {then}: {done:?}");
            started.set(done.is_ok());
        }
        if started.get() && !second.get() {
            let done = put(&other, 12);
            assert!(done.as_ref().map_or_else(is_late, |_| true), "{at} {then}: {done:?}");
            second.set(done.is_ok());
        }
        assert_eq!(hidden_names(&state.borrow()), before, "a living run's file, {at} {then}");
    };
    let model = Model { before: Box::new(disturb), ..Model::new(&state) };
    let told = match put(&model, 11) {
        Ok(_) => true,
        // there is none at this moment, or the other run has its lock
        Err(trouble) if is_missing(&trouble) || is_late(&trouble) => false,
        Err(trouble) => panic!("{at} {then}: {trouble}"),
    };
    let files = state.borrow().files();
    assert_eq!(places(&files, 12), usize::from(second.get()), "12, {at} {then}");
    Disturbed { told, calls: model.calls.get(), files }
}

/// Tries it with the operator before each call, and the start before each that follows.
fn each_disturbance(take: &dyn Fn(&RefCell<State>), check: &dyn Fn(&Disturbed)) -> usize {
    let mut tried = 0;
    for at in 0.. {
        for then in at..at + 40 {
            let told = disturbed(at, then, take);
            if told.calls <= at {
                return tried;
            }
            check(&told);
            tried += 1;
        }
    }
    tried
}

#[test]
fn a_shelf_may_be_moved_away_before_any_call() {
    let take = |state: &RefCell<State>| {
        renamed(state, Path::new(SHELF), Path::new(NEW)).unwrap();
    };
    let tried = each_disturbance(&take, &|Disturbed { told, files, .. }| {
        assert_eq!([10, 11].map(|number| places(files, number)), [1, usize::from(*told)]);
    });
    assert!(tried > 1_000, "{tried}");
}

#[test]
fn what_was_removed_does_not_come_back() {
    let take = |state: &RefCell<State>| state.borrow_mut().name(Naming::Taken(SHELF.into()));
    let tried = each_disturbance(&take, &|Disturbed { told, files, .. }| {
        assert_eq!(places(files, 10), 0);
        // it may have been kept, and removed with the shelf
        assert!(places(files, 11) <= usize::from(*told));
    });
    assert!(tried > 1_000, "{tried}");
}

/// Another program renames another shelf into its place, and knows of no lock: neither is
/// lost.
#[test]
fn another_shelf_may_take_its_place_before_any_call() {
    for at in 0..2 * calls(TRIES[0].1) {
        let state = disk();
        let other = Model::new(&state);
        let third = Path::new("/f/third");
        let empty = Shelf::start(vec![0; SIZE]).unwrap();
        other.work(third).start(empty.as_bytes()).unwrap();
        other.work(third).change(|shelf| shelf.put(&numbered(12))).unwrap();
        let disturb = |call: usize, _: &str| {
            if call == at {
                renamed(&state, Path::new(SHELF), Path::new(NEW)).unwrap();
                renamed(&state, third, Path::new(SHELF)).unwrap();
            }
        };
        let model = Model { before: Box::new(disturb), ..Model::new(&state) };
        put(&model, 11).unwrap();
        let files = state.borrow().files();
        let told = [10, 11, 12].map(|number| places(&files, number));
        assert_eq!(told, [1, 1, 1], "before call {at}");
    }
}

/// A shelf is moved away while a run waits for its lock: the run answers for the one that is
/// there then.
#[test]
fn who_waited_for_a_shelf_that_was_moved_asks_the_next_one() {
    for number in [10, 11] {
        let state = disk();
        let other = Model::new(&state);
        let moved = Cell::new(false);
        let before: Hook = Box::new(|_, name| {
            if name == "lock" && !moved.get() {
                other.work(Path::new(SHELF)).move_to(Path::new(NEW)).unwrap();
                moved.set(true);
            }
        });
        let model = Model { before, ..Model::new(&state) };
        let found = model.work(Path::new(SHELF)).change(|shelf| shelf.find(&numbered(number)));
        assert_eq!(found.unwrap(), None, "{number} is on the shelf that was moved away");
    }
}

/// A file system that cannot exchange names has the question alone: an operator may come
/// before any call but the renaming that follows it.
#[test]
fn without_an_exchange_the_question_is_asked_again() {
    for at in 0..2 * calls(TRIES[0].1) {
        let state = disk();
        let other = Model::new(&state);
        let (taken, too_late) = (Cell::new(false), Cell::new(false));
        let disturb = |call: usize, name: &str| {
            if call == at {
                too_late.set(name == "exchange" || name == "rename");
                taken.set(!too_late.get());
            }
            if call == at && taken.get() {
                renamed(&state, Path::new(SHELF), Path::new(NEW)).unwrap();
            }
            // as soon as the folder's lock is free
            if taken.get() && !state.borrow().names.contains_key(Path::new(SHELF)) {
                let _ = start(&other);
            }
        };
        let before: Hook = Box::new(disturb);
        let model = Model { before, exchanges: false, ..Model::new(&state) };
        let told = match put(&model, 11) {
            Ok(_) => 1,
            Err(trouble) if is_missing(&trouble) => 0,
            Err(trouble) => panic!("{at}: {trouble}"),
        };
        let files = state.borrow().files();
        assert_eq!([10, 11].map(|number| places(&files, number)), [1, told], "before call {at}");
    }
}

/// While the command moves the shelf, another run puts on it as soon as it has the lock.
#[test]
fn a_move_may_be_disturbed_before_any_call() {
    for at in 0..calls(TRIES[3].1) {
        let state = disk();
        let other = Model::new(&state);
        let second = Cell::new(false);
        let disturb = |call: usize, _: &str| {
            if call >= at && !second.get() {
                let done = put(&other, 12);
                assert!(done.as_ref().map_or_else(is_late, |_| true), "{at}: {done:?}");
                second.set(done.is_ok());
            }
        };
        let model = Model { before: Box::new(disturb), ..Model::new(&state) };
        model.work(Path::new(SHELF)).move_to(Path::new(NEW)).unwrap();
        let files = state.borrow().files();
        assert_eq!([10, 12].map(|number| places(&files, number)), [1, usize::from(second.get())]);
    }
}
