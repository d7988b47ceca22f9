//! The wrapper's answers that own what they hold, beside what the surface
//! stored for the same call: the same, or refused alike.

use hverolda::{normal_form, text_of, values, Kind, Refusal, ServiceCharacters, ValueList};
use second::operations;
use second::refusal::{BUFFER, LONGEST};

use crate::call::{Call, Told};
use crate::lent::filled;
use crate::run::{Checked, Run};

fn told<T>(answer: Result<T, Refusal>) -> Told<T> {
    answer.map_err(|refusal| (refusal.number(), refusal.place))
}

/// The bytes and the table of a value list.
pub type Parts = (Vec<u8>, Vec<u32>);

/// The normal form and the values of an input, beside those stored; then the
/// text of the values, under the input's service characters or others.
pub fn of_input(
    run: &mut Run,
    input: &[u8],
    form: &Told<Vec<u8>>,
    list: &Told<Parts>,
) -> Checked<()> {
    let call = Call::Judge { input: input.to_vec() };
    let owned = told(normal_form(input));
    run.known(owned == *form, &call, "the wrapper's normal form is the one stored")?;
    let owned = told(values(input));
    let parts = |list: &ValueList| (list.bytes().to_vec(), list.table().to_vec());
    let same = owned.as_ref().map(parts).map_err(|refusal| *refusal) == *list;
    run.known(same, &call, "the wrapper's values are those stored")?;
    match (hverolda::judge(input), owned) {
        (Ok(interchange), Ok(list)) => {
            let its = interchange.characters;
            let none = ServiceCharacters { release: Some(b' '), ..its };
            let characters = run.random.pick(&[its, ServiceCharacters::STANDARD, none]);
            text(run, &characters, &list)
        }
        _ => Ok(()),
    }
}

/// The text of a value list that Write is given, where it is one of values.
pub fn of_list(run: &mut Run, service: &[u8], bytes: &[u8], table: &[u32]) -> Checked<()> {
    match list_of(bytes, table) {
        Some(list) => text(run, &characters_of(service), &list),
        None => Ok(()),
    }
}

/// The values that a table names, unless it names what there is not, or much
/// more than a text can hold.
fn list_of(bytes: &[u8], table: &[u32]) -> Option<ValueList> {
    let lengths = table.chunks_exact(3).map(|record| u64::from(record[2]));
    if lengths.sum::<u64>() > 2 * LONGEST as u64 {
        return None;
    }
    let value = |record: &[u32]| {
        let kind = Kind::try_from(record[0]).ok()?;
        let value = bytes.get(record[1] as usize..)?.get(..record[2] as usize)?;
        Some((kind, value))
    };
    table.chunks_exact(3).map(value).collect()
}

/// The characters that six bytes name, usable or not.
fn characters_of(service: &[u8]) -> ServiceCharacters {
    match *service {
        [component, element, mark, release, repetition, terminator] => {
            let (release, repetition) = (Some(release), Some(repetition));
            ServiceCharacters { component, element, mark, release, repetition, terminator }
        }
        _ => ServiceCharacters::STANDARD,
    }
}

/// The text of a list, beside the one that Write stores where there is room.
fn text(run: &mut Run, characters: &ServiceCharacters, list: &ValueList) -> Checked<()> {
    let (service, bytes, table) = (characters.six(), list.bytes(), list.table());
    let room = match operations::write(&service, bytes, table, &mut []) {
        Err(refusal) if refusal.number == BUFFER => refusal.place,
        _ => 0,
    };
    let room = room + run.random.below(3);
    let output = filled(&mut run.random, room);
    let (service, values, table) = (service.to_vec(), bytes.to_vec(), table.to_vec());
    let call = Call::Write { service, values, table, output };
    let outcome = run.check(&call)?;
    let same = told(text_of(characters, list)).as_deref() == outcome.stored().as_ref().map(|s| s.0);
    run.known(same, &call, "the wrapper's text is the one stored")?;
    run.tally.count("wrapper's text", if outcome.stored().is_ok() { "stored" } else { "refused" });
    Ok(())
}
