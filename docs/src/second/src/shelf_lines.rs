//! The lines of the program `shelf`: one for each operation of a history.
//!
//! Change requests 2026-04, "The shelf", 2026-06, "A shelf that knows its own
//! sums", and 2026-07, "Old shelves carried over, and back".

use crate::carrying_over::{carry_back, carry_over};
use crate::refusal::{Answer, Refusal};
use crate::report_lines::refusal_line;
use crate::shelf::{get, lowest_free, occupied, put, remove, start, summary, Put};

fn line(answer: Answer<String>) -> Vec<u8> {
    answer.unwrap_or_else(|refusal: Refusal| refusal_line(&refusal)).into_bytes()
}

pub fn started_line(shelf: &mut [u8]) -> Vec<u8> {
    line(start(shelf).map(|()| "started".to_string()))
}

pub fn put_line(shelf: &mut [u8], input: &[u8]) -> Vec<u8> {
    line(put(shelf, input).map(|put| match put {
        Put::New(slot) => format!("new {slot}"),
        Put::Found(slot) => format!("copy {slot}"),
    }))
}

/// The kept text itself.
pub fn got_line(shelf: &[u8], slot: usize) -> Vec<u8> {
    let got = get(shelf, slot);
    got.refusal.map_or(got.bytes.to_vec(), |refusal| line(Err(refusal)))
}

pub fn removed_line(shelf: &mut [u8], slot: usize) -> Vec<u8> {
    line(remove(shelf, slot).map(|length| format!("removed {length}")))
}

pub fn slots_line(shelf: &[u8]) -> Vec<u8> {
    let numbers = occupied(shelf).and_then(|number| Ok((number, lowest_free(shelf)?)));
    line(numbers.map(|(number, lowest)| format!("slots {number} {lowest}")))
}

pub fn sums_line(shelf: &[u8]) -> Vec<u8> {
    line(summary(shelf).map(|told| format!("sums {} {}", told.held, told.duplicates)))
}

pub fn carried_line(shelf: &mut [u8]) -> Vec<u8> {
    line(carry_over(shelf).map(|()| "carried".to_string()))
}

pub fn carried_back_line(shelf: &mut [u8]) -> Vec<u8> {
    line(carry_back(shelf).map(|()| "carried back".to_string()))
}
