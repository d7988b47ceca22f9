//! The two programs, ours and the second one, behind the same functions; what is asked
//! of them about an interchange, and what they are lent for it.

use second::acknowledgement::Lent;
use second::contents::Part;
use second::mailbox::{self, Report};
use second::operations::{self, Comparison, Kept, Numbers, ReadCounts, Verdict};
use second::refusal::{Answer, LONGEST, LONGEST_TABLE};
use second::shelf::{self, Put, LARGEST};
use second::value_list::{List, ValueList, NEW_ELEMENT, NEW_SEGMENT, NEXT_REPEAT, RECORD};

use crate::spellings::{list_of, other_spelling, service_characters};
use crate::surface;

/// As many bytes as Export may store.
const LONGEST_COLUMNS: usize = 800_039;

/// What Acknowledge is lent: date and time, control reference, message identification.
const LENT: Lent = Lent {
    date: ValueList { values: b"2611150842", table: &[0, 0, 6, 2, 6, 4] },
    reference: ValueList { values: b"A1", table: &[0, 0, 2] },
    message: ValueList { values: b"CONTRL41UN", table: &[0, 0, 6, 2, 6, 1, 2, 7, 1, 2, 8, 2] },
};

pub struct Program {
    judge: fn(&[u8]) -> Answer<Verdict>,
    normalise: fn(&[u8], &mut [u8]) -> Answer<usize>,
    compare: fn(&[u8], &[u8]) -> Comparison,
    keep: for<'a> fn(&'a [u8], &'a [u8]) -> Kept<'a>,
    locate: fn(&[u8], Numbers) -> Answer<Option<Part>>,
    read: fn(&[u8], &mut [u8], &mut [u32]) -> Answer<ReadCounts>,
    write: fn(&[u8], &[u8], &[u32], &mut [u8]) -> Answer<usize>,
    export: fn(&[u8], &mut [u8]) -> Answer<usize>,
    import: fn(&[u8], &[u8], &mut [u8]) -> Answer<usize>,
    acknowledge: fn(&[u8], &Lent, &mut [u8]) -> Answer<usize>,
    start: fn(&mut [u8]) -> Answer<()>,
    put: fn(&mut [u8], &[u8]) -> Answer<Put>,
    report: fn(&[u8]) -> Answer<Report>,
}

/// Ours, then the second one.
pub const PROGRAMS: [Program; 2] = [
    Program {
        judge: surface::judge,
        normalise: surface::normalise,
        compare: surface::compare,
        keep: surface::keep,
        locate: surface::locate,
        read: surface::read,
        write: surface::write,
        export: surface::export,
        import: surface::import,
        acknowledge: surface::acknowledge,
        start: surface::start,
        put: surface::put,
        report: surface::report,
    },
    Program {
        judge: operations::judge,
        normalise: operations::normalise,
        compare: operations::compare,
        keep: operations::keep,
        locate: operations::locate,
        read: operations::read,
        write: operations::write,
        export: operations::export,
        import: operations::import,
        acknowledge: operations::acknowledge,
        start: shelf::start,
        put: shelf::put,
        report: mailbox::report,
    },
];

/// An interchange, and what else its operations are given.
pub struct Given {
    pub input: Vec<u8>,
    /// Its other spelling, as in `spellings`: for Compare and Keep.
    other: Vec<u8>,
    /// The numbers of the value in the middle of its list: for Locate.
    numbers: Numbers,
    /// Its own service bytes, the list that Read gives and the text that Export gives: for
    /// Write and Import.
    service: [u8; 6],
    list: List,
    columns: Vec<u8>,
}

impl Given {
    /// What the second program makes of an interchange, to which ours is held.
    pub fn of(input: Vec<u8>) -> Given {
        let (list, mut columns) = (list_of(&input), vec![0; LONGEST_COLUMNS]);
        let length = operations::export(&input, &mut columns).expect("it is accepted");
        columns.truncate(length);
        Given {
            other: other_spelling(&input),
            numbers: numbers_of(&list.table, list.table.len() / RECORD / 2),
            service: service_characters(&input).six(),
            list,
            columns,
            input,
        }
    }
}

/// The numbers of the segment, element, repeat and component that this record tells.
fn numbers_of(table: &[u32], record: usize) -> Numbers {
    let mut at = Numbers { segment: 0, element: 0, repeat: 0, component: 0 };
    for record in table.chunks(RECORD).take(record + 1).skip(1) {
        at = match record[0] {
            NEW_SEGMENT => Numbers { segment: at.segment + 1, element: 0, repeat: 0, component: 0 },
            NEW_ELEMENT => Numbers { element: at.element + 1, repeat: 0, component: 0, ..at },
            NEXT_REPEAT => Numbers { repeat: at.repeat + 1, component: 0, ..at },
            _ => Numbers { component: at.component + 1, ..at },
        };
    }
    at
}

/// The buffers that one program is lent, each for one operation.
#[derive(PartialEq)]
pub struct Room {
    form: Vec<u8>,
    values: Vec<u8>,
    table: Vec<u32>,
    text: Vec<u8>,
    columns: Vec<u8>,
    imported: Vec<u8>,
    acknowledgement: Vec<u8>,
    shelf: Vec<u8>,
}

impl Room {
    pub fn new() -> Room {
        let text = || vec![b'#'; LONGEST];
        Room {
            form: text(),
            values: text(),
            table: vec![7; LONGEST_TABLE],
            text: text(),
            columns: vec![b'#'; LONGEST_COLUMNS],
            imported: text(),
            acknowledgement: text(),
            shelf: vec![b'#'; LARGEST],
        }
    }
}

/// What a program says.
#[derive(Clone, Copy, Debug, PartialEq)]
pub enum Told<'a> {
    Judged(Answer<Verdict>),
    Compared(Comparison),
    Chosen(Kept<'a>),
    Located(Answer<Option<Part>>),
    Listed(Answer<ReadCounts>),
    Stored(Answer<usize>),
    Shelved(Answer<Put>),
    Reported(Answer<Report>),
}
use Told::*;

impl Told<'_> {
    /// Is nothing refused, and are the two the same, the value present, the copy found?
    pub fn is_as_wanted(&self) -> bool {
        match self {
            Judged(judged) => judged.is_ok(),
            Compared(compared) => *compared == Comparison::Same,
            Chosen(kept) => !kept.part.is_empty(),
            Located(located) => matches!(located, Ok(Some(_))),
            Listed(listed) => listed.is_ok(),
            Stored(stored) => stored.is_ok(),
            Shelved(put) => *put == Ok(Put::Found(0)),
            Reported(reported) => reported.map_or(false, |report| report.accepted == 1),
        }
    }
}

pub struct Operation {
    pub name: &'static str,
    pub ask: for<'a> fn(&Program, &'a Given, &mut Room) -> Told<'a>,
}

/// Put is that of a copy: the shelf keeps the interchange already, and nothing else.
pub const OPERATIONS: [Operation; 12] = [
    Operation { name: "judge", ask: |program, given, _| Judged((program.judge)(&given.input)) },
    Operation {
        name: "normalise",
        ask: |program, given, room| Stored((program.normalise)(&given.input, &mut room.form)),
    },
    Operation {
        name: "compare",
        ask: |program, given, _| Compared((program.compare)(&given.input, &given.other)),
    },
    Operation {
        name: "keep",
        ask: |program, given, _| Chosen((program.keep)(&given.input, &given.other)),
    },
    Operation {
        name: "locate",
        ask: |program, given, _| Located((program.locate)(&given.input, given.numbers)),
    },
    Operation {
        name: "read",
        ask: |program, given, room| {
            Listed((program.read)(&given.input, &mut room.values, &mut room.table))
        },
    },
    Operation {
        name: "write",
        ask: |program, given, room| {
            let List { values, table } = &given.list;
            Stored((program.write)(&given.service, values, table, &mut room.text))
        },
    },
    Operation {
        name: "export",
        ask: |program, given, room| Stored((program.export)(&given.input, &mut room.columns)),
    },
    Operation {
        name: "import",
        ask: |program, given, room| {
            Stored((program.import)(&given.service, &given.columns, &mut room.imported))
        },
    },
    Operation {
        name: "acknowledge",
        ask: |program, given, room| {
            Stored((program.acknowledge)(&given.input, &LENT, &mut room.acknowledgement))
        },
    },
    Operation {
        name: "put",
        ask: |program, given, room| Shelved((program.put)(&mut room.shelf, &given.input)),
    },
    Operation { name: "report", ask: |program, given, _| Reported((program.report)(&given.input)) },
];

/// Starts the shelves, and puts the interchange there.
pub fn shelve(given: &Given, rooms: &mut [Room; 2]) {
    for (program, room) in PROGRAMS.iter().zip(rooms) {
        assert_eq!((program.start)(&mut room.shelf), Ok(()));
        assert_eq!((program.put)(&mut room.shelf, &given.input), Ok(Put::New(0)));
    }
}
