//! Other spellings of an interchange, which Compare says are the same.

use second::operations;
use second::refusal::{LONGEST, LONGEST_TABLE};
use second::service_characters::ServiceCharacters;
use second::value_list::List;

use crate::orders::OTHERS;

/// What the caller has made is accepted.
const ACCEPTED: &str = "the interchange is accepted";

/// The normal form; of an input that is its own normal form what stands behind the
/// advice.
pub fn other_spelling(input: &[u8]) -> Vec<u8> {
    let mut form = vec![0; LONGEST];
    let length = operations::normalise(input, &mut form).expect(ACCEPTED);
    form.truncate(length);
    if form == input {
        form.drain(..9);
    }
    form
}

/// The list that Read gives.
pub fn list_of(input: &[u8]) -> List {
    let (mut values, mut table) = (vec![0; LONGEST], vec![0; LONGEST_TABLE]);
    let counts = operations::read(input, &mut values, &mut table).expect(ACCEPTED);
    values.truncate(counts.bytes);
    table.truncate(counts.numbers);
    List { values, table }
}

/// The interchange under service characters that neither it nor its normal form has, all
/// in the level, with an advice. The mark stays.
pub fn respelled(input: &[u8]) -> Vec<u8> {
    let own = service_characters(input);
    let others = if own.element == OTHERS.element { b"<>=\"" } else { b"*%!&" };
    let characters = ServiceCharacters {
        component: others[0],
        element: others[1],
        mark: own.mark,
        release: Some(others[2]),
        repetition: own.repetition.map(|_| b';'),
        terminator: others[3],
    };
    let (List { values, table }, mut text) = (list_of(input), vec![0; LONGEST]);
    let length = operations::write(&characters.six(), &values, &table, &mut text);
    text.truncate(length.expect("its list can be written"));
    text
}

pub fn service_characters(input: &[u8]) -> ServiceCharacters {
    operations::judge(input).expect(ACCEPTED).characters
}
