//! The proved operations, behind functions that no caller can misuse.
//!
//! The structs are those of the crate `surface`, field for field. A slice
//! crosses as a pointer and a length.

// links the library
use hverolda as _;
use second::acknowledgement::Lent;
use second::contents::Part;
use second::mailbox::Report;
use second::operations::{Comparison, Kept, Numbers, ReadCounts, Verdict, Which};
use second::refusal::{Answer, Refusal};
use second::service_characters::ServiceCharacters;
use second::shelf::Put;

#[repr(C)]
struct JudgeNumbers {
    number: u32,
    segments: u32,
    messages: u32,
    groups: u32,
    place: usize,
    length: usize,
    component: u8,
    element: u8,
    mark: u8,
    release: u8,
    repetition: u8,
    terminator: u8,
}

#[repr(C)]
struct NormaliseNumbers {
    number: u32,
    place: usize,
    length: usize,
}

#[repr(C)]
struct CompareNumbers {
    number: u32,
    input: u32,
    same: u32,
    place: usize,
}

#[repr(C)]
struct KeepNumbers {
    input: u32,
    offset: usize,
    length: usize,
}

#[repr(C)]
struct LocateNumbers {
    number: u32,
    present: u32,
    place: usize,
    offset: usize,
    length: usize,
}

#[repr(C)]
struct ReadNumbers {
    number: u32,
    place: usize,
    bytes: usize,
    numbers: usize,
}

#[repr(C)]
struct StartNumbers {
    number: u32,
    place: usize,
}

#[repr(C)]
struct PutNumbers {
    number: u32,
    added: u32,
    place: usize,
    slot: usize,
}

#[repr(C)]
struct GetNumbers {
    number: u32,
    place: usize,
    offset: usize,
    length: usize,
}

#[repr(C)]
struct SlotNumbers {
    number: u32,
    place: usize,
    occupied: usize,
    lowest: usize,
}

#[repr(C)]
struct SumNumbers {
    number: u32,
    held: u32,
    duplicates: u32,
    place: usize,
}

#[repr(C)]
struct MorningNumbers {
    number: u32,
    accepted: u32,
    refused: [u32; 14],
    segments: u32,
    messages: u32,
    place: usize,
    total: usize,
    longest: usize,
}

extern "C" {
    fn hverolda_compare(
        first: *const u8,
        first_length: usize,
        second: *const u8,
        second_length: usize,
    ) -> CompareNumbers;
    fn hverolda_judge(input: *const u8, length: usize) -> JudgeNumbers;
    fn hverolda_keep(
        first: *const u8,
        first_length: usize,
        second: *const u8,
        second_length: usize,
    ) -> KeepNumbers;
    fn hverolda_locate_value(
        input: *const u8,
        length: usize,
        segment: usize,
        element: usize,
        repeat: usize,
        component: usize,
    ) -> LocateNumbers;
    fn hverolda_read(
        bytes: *mut u8,
        bytes_length: usize,
        table: *mut u32,
        table_length: usize,
        input: *const u8,
        length: usize,
    ) -> ReadNumbers;
    fn hverolda_acknowledge(
        received: *const u8,
        received_length: usize,
        date: *const u8,
        date_length: usize,
        date_table: *const u32,
        date_table_length: usize,
        reference: *const u8,
        reference_length: usize,
        reference_table: *const u32,
        reference_table_length: usize,
        message: *const u8,
        message_length: usize,
        message_table: *const u32,
        message_table_length: usize,
        output: *mut u8,
        room: usize,
    ) -> NormaliseNumbers;
    fn hverolda_export(
        buffer: *mut u8,
        room: usize,
        input: *const u8,
        length: usize,
    ) -> NormaliseNumbers;
    fn hverolda_import(
        service: *const u8,
        service_length: usize,
        columns: *const u8,
        columns_length: usize,
        output: *mut u8,
        room: usize,
    ) -> NormaliseNumbers;
    fn hverolda_normalise(
        buffer: *mut u8,
        room: usize,
        input: *const u8,
        length: usize,
    ) -> NormaliseNumbers;
    fn hverolda_write(
        service: *const u8,
        service_length: usize,
        values: *const u8,
        values_length: usize,
        table: *const u32,
        table_length: usize,
        output: *mut u8,
        room: usize,
    ) -> NormaliseNumbers;
    fn hverolda_shelf_start(shelf: *mut u8, size: usize) -> StartNumbers;
    fn hverolda_shelf_put(
        shelf: *mut u8,
        size: usize,
        input: *const u8,
        length: usize,
    ) -> PutNumbers;
    fn hverolda_shelf_get(shelf: *const u8, size: usize, slot: usize) -> GetNumbers;
    fn hverolda_shelf_remove(shelf: *mut u8, size: usize, slot: usize) -> NormaliseNumbers;
    fn hverolda_shelf_slots(shelf: *const u8, size: usize) -> SlotNumbers;
    fn hverolda_shelf_sums(shelf: *const u8, size: usize) -> SumNumbers;
    fn hverolda_report(file: *const u8, length: usize) -> MorningNumbers;
}

/// Judge, with the second program's type for the answer.
pub fn judge(input: &[u8]) -> Answer<Verdict> {
    // SAFETY: the pointer and the length are those of a slice that is lent for
    // the call; the function is proved to read nothing else and to ask nothing.
    let told = unsafe { hverolda_judge(input.as_ptr(), input.len()) };
    if told.number != 0 {
        return Err(Refusal { place: told.place, number: told.number });
    }
    Ok(Verdict {
        characters: ServiceCharacters {
            component: told.component,
            element: told.element,
            mark: told.mark,
            release: (told.release != b' ').then_some(told.release),
            repetition: (told.repetition != b' ').then_some(told.repetition),
            terminator: told.terminator,
        },
        segments: told.segments as usize,
        messages: told.messages as usize,
        groups: told.groups as usize,
        normal_length: told.length,
    })
}

/// Normalise, with the second program's type for the answer.
pub fn normalise(input: &[u8], buffer: &mut [u8]) -> Answer<usize> {
    // SAFETY: as in `judge`; the two slices cannot overlap, as one is `&mut`.
    let answer = unsafe {
        hverolda_normalise(buffer.as_mut_ptr(), buffer.len(), input.as_ptr(), input.len())
    };
    told(answer.number, answer.place, answer.length)
}

/// Compare.
pub fn compare(first: &[u8], second: &[u8]) -> Comparison {
    // SAFETY: as in `judge`.
    let told =
        unsafe { hverolda_compare(first.as_ptr(), first.len(), second.as_ptr(), second.len()) };
    let refusal = Refusal { place: told.place, number: told.number };
    match (told.input, told.same) {
        (0, 1) => Comparison::Same,
        (0, _) => Comparison::Different,
        (1, _) => Comparison::Refused(Which::First, refusal),
        _ => Comparison::Refused(Which::Second, refusal),
    }
}

/// Compare, of two that are accepted.
pub fn is_same(first: &[u8], second: &[u8]) -> bool {
    match compare(first, second) {
        Comparison::Same => true,
        Comparison::Different => false,
        refused => panic!("{refused:?}"),
    }
}

/// Keep.
pub fn keep<'a>(first: &'a [u8], second: &'a [u8]) -> Kept<'a> {
    // SAFETY: as in `judge`.
    let told = unsafe { hverolda_keep(first.as_ptr(), first.len(), second.as_ptr(), second.len()) };
    let (which, input) = match told.input {
        1 => (Which::First, first),
        _ => (Which::Second, second),
    };
    Kept { which, part: &input[told.offset..][..told.length] }
}

/// Locate.
pub fn locate(input: &[u8], numbers: Numbers) -> Answer<Option<Part>> {
    let Numbers { segment, element, repeat, component } = numbers;
    let [segment, element, repeat, component] =
        [segment, element, repeat, component].map(|number| number as usize);
    // SAFETY: as in `judge`.
    let answer = unsafe {
        hverolda_locate_value(input.as_ptr(), input.len(), segment, element, repeat, component)
    };
    let part = Part { offset: answer.offset as u32, length: answer.length as u32 };
    told(answer.number, answer.place, (answer.present == 1).then_some(part))
}

/// Read.
pub fn read(input: &[u8], bytes: &mut [u8], table: &mut [u32]) -> Answer<ReadCounts> {
    // SAFETY: as in `normalise`.
    let answer = unsafe {
        hverolda_read(
            bytes.as_mut_ptr(),
            bytes.len(),
            table.as_mut_ptr(),
            table.len(),
            input.as_ptr(),
            input.len(),
        )
    };
    let counts = ReadCounts { bytes: answer.bytes, numbers: answer.numbers };
    told(answer.number, answer.place, counts)
}

/// Acknowledge.
pub fn acknowledge(received: &[u8], lent: &Lent, output: &mut [u8]) -> Answer<usize> {
    let Lent { date, reference, message } = lent;
    // SAFETY: as in `normalise`.
    let answer = unsafe {
        hverolda_acknowledge(
            received.as_ptr(),
            received.len(),
            date.values.as_ptr(),
            date.values.len(),
            date.table.as_ptr(),
            date.table.len(),
            reference.values.as_ptr(),
            reference.values.len(),
            reference.table.as_ptr(),
            reference.table.len(),
            message.values.as_ptr(),
            message.values.len(),
            message.table.as_ptr(),
            message.table.len(),
            output.as_mut_ptr(),
            output.len(),
        )
    };
    told(answer.number, answer.place, answer.length)
}

/// Export.
pub fn export(input: &[u8], buffer: &mut [u8]) -> Answer<usize> {
    // SAFETY: as in `normalise`.
    let answer =
        unsafe { hverolda_export(buffer.as_mut_ptr(), buffer.len(), input.as_ptr(), input.len()) };
    told(answer.number, answer.place, answer.length)
}

/// Import.
pub fn import(service: &[u8], columns: &[u8], output: &mut [u8]) -> Answer<usize> {
    // SAFETY: as in `normalise`.
    let answer = unsafe {
        hverolda_import(
            service.as_ptr(),
            service.len(),
            columns.as_ptr(),
            columns.len(),
            output.as_mut_ptr(),
            output.len(),
        )
    };
    told(answer.number, answer.place, answer.length)
}

fn told<T>(number: u32, place: usize, answer: T) -> Answer<T> {
    match number {
        0 => Ok(answer),
        number => Err(Refusal { place, number }),
    }
}

/// A shelf's Start.
pub fn start(shelf: &mut [u8]) -> Answer<()> {
    // SAFETY: as in `judge`.
    let answer = unsafe { hverolda_shelf_start(shelf.as_mut_ptr(), shelf.len()) };
    told(answer.number, answer.place, ())
}

/// A shelf's Put.
pub fn put(shelf: &mut [u8], input: &[u8]) -> Answer<Put> {
    // SAFETY: as in `normalise`.
    let answer =
        unsafe { hverolda_shelf_put(shelf.as_mut_ptr(), shelf.len(), input.as_ptr(), input.len()) };
    let put = if answer.added == 1 { Put::New(answer.slot) } else { Put::Found(answer.slot) };
    told(answer.number, answer.place, put)
}

/// The offset and the length of what a shelf's Get hands back.
pub fn get(shelf: &[u8], slot: usize) -> Answer<(usize, usize)> {
    // SAFETY: as in `judge`.
    let answer = unsafe { hverolda_shelf_get(shelf.as_ptr(), shelf.len(), slot) };
    told(answer.number, answer.place, (answer.offset, answer.length))
}

/// A shelf's Remove.
pub fn remove(shelf: &mut [u8], slot: usize) -> Answer<usize> {
    // SAFETY: as in `judge`.
    let answer = unsafe { hverolda_shelf_remove(shelf.as_mut_ptr(), shelf.len(), slot) };
    told(answer.number, answer.place, answer.length)
}

/// How many slots of a shelf are occupied, and the lowest free one.
pub fn slots(shelf: &[u8]) -> Answer<(usize, usize)> {
    // SAFETY: as in `judge`.
    let answer = unsafe { hverolda_shelf_slots(shelf.as_ptr(), shelf.len()) };
    told(answer.number, answer.place, (answer.occupied, answer.lowest))
}

/// How many bytes a shelf holds, and how many duplicates were found.
pub fn sums(shelf: &[u8]) -> Answer<(usize, u32)> {
    // SAFETY: as in `judge`.
    let answer = unsafe { hverolda_shelf_sums(shelf.as_ptr(), shelf.len()) };
    told(answer.number, answer.place, (answer.held as usize, answer.duplicates))
}

/// Report, with the second program's type for the figures.
pub fn report(file: &[u8]) -> Answer<Report> {
    // SAFETY: as in `judge`.
    let answer = unsafe { hverolda_report(file.as_ptr(), file.len()) };
    let figures = Report {
        accepted: answer.accepted as usize,
        refused: std::array::from_fn(|number| answer.refused[number + 1] as usize),
        segments: answer.segments as usize,
        messages: answer.messages as usize,
        total_length: answer.total,
        longest: answer.longest,
    };
    told(answer.number, answer.place, figures)
}

/// Write.
pub fn write(service: &[u8], values: &[u8], table: &[u32], output: &mut [u8]) -> Answer<usize> {
    // SAFETY: as in `normalise`.
    let answer = unsafe {
        hverolda_write(
            service.as_ptr(),
            service.len(),
            values.as_ptr(),
            values.len(),
            table.as_ptr(),
            table.len(),
            output.as_mut_ptr(),
            output.len(),
        )
    };
    told(answer.number, answer.place, answer.length)
}
