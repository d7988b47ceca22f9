//! The rival against the second program: every answer, and every byte of the
//! buffer, on inputs of its generator that aim at every rule.

use rival::{Comparison, Refusal, Way, Which};
use second::cases::all_cases;
use second::generator::{request, Random};
use second::operations::{self, Comparison as Told};
use second::refusal;
use second::request_stream::Request;

const WAYS: [Way; 2] = [Way::Bytes, Way::Blocks];

fn as_ours(refusal: refusal::Refusal) -> Refusal {
    Refusal { number: refusal.number, place: refusal.place }
}

fn hold_judge(input: &[u8]) {
    let told = operations::judge(input).map_err(as_ours);
    let told = told.map(|verdict| rival::Verdict {
        characters: verdict.characters.six(),
        segments: verdict.segments,
        messages: verdict.messages,
        groups: verdict.groups,
        normal_length: verdict.normal_length,
    });
    for way in WAYS {
        assert_eq!(rival::judge(way, input), told, "{way:?}: {}", input.escape_ascii());
    }
}

fn hold_normalise(input: &[u8], buffer: &[u8]) {
    let mut other = buffer.to_vec();
    let told = operations::normalise(input, &mut other).map_err(as_ours);
    for way in WAYS {
        let mut ours = buffer.to_vec();
        let answer = rival::normalise(way, input, &mut ours);
        assert_eq!(answer, told, "{way:?}: {}", input.escape_ascii());
        assert!(ours == other, "{way:?}, the buffers differ: {}", input.escape_ascii());
    }
}

fn hold_compare(first: &[u8], second: &[u8]) {
    let told = match operations::compare(first, second) {
        Told::Same => Comparison::Same,
        Told::Different => Comparison::Different,
        Told::Refused(operations::Which::First, why) => {
            Comparison::Refused(Which::First, as_ours(why))
        }
        Told::Refused(_, why) => Comparison::Refused(Which::Second, as_ours(why)),
    };
    let shown = || format!("{} and {}", first.escape_ascii(), second.escape_ascii());
    for way in WAYS {
        assert_eq!(rival::compare(way, first, second), told, "{way:?}: {}", shown());
    }
}

fn hold(request: &Request) {
    match request {
        Request::Judge { input } => hold_judge(input),
        Request::Normalise { buffer, input } => hold_normalise(input, buffer),
        Request::Compare { first, second } => hold_compare(first, second),
        _ => panic!("no request of the kinds J, N and C"),
    }
}

#[test]
fn stored_cases() {
    for case in all_cases() {
        hold_judge(&case.input);
        hold_normalise(&case.input, &[7; 40_000]);
        hold_compare(&case.input, &case.input);
    }
}

fn generated(kind: u8) {
    let mut random = Random::new(202609 + u64::from(kind));
    (0..10_000).for_each(|_| hold(&request(&mut random, kind)));
}

#[test]
fn generated_for_judge() {
    generated(b'J');
}

#[test]
fn generated_for_normalise() {
    generated(b'N');
}

#[test]
fn generated_for_compare() {
    generated(b'C');
}

/// A text of segments in which most bytes are release characters and what they
/// release, now and then a stray one, and now and then its end is missing.
fn dense_releases(random: &mut Random) -> Vec<u8> {
    let mut input = b"UNB+UNOA:1+A+B+1+R'UNH+1+M'".to_vec();
    let segments = random.between(1, 6);
    for _ in 0..segments {
        input.extend(b"FTX+");
        for _ in 0..random.between(1, 400) {
            let strays = random.below(400) == 0;
            let pieces =
                if strays { ["?A", "?", "\n", "+", ":"] } else { ["??", "?+", "?:", "?'", "A"] };
            input.extend(random.pick(&pieces).bytes());
        }
        input.push(b'\'');
    }
    input.extend(format!("UNT+{}+1'UNZ+1+R'", segments + 2).bytes());
    if random.chance(20) {
        input.truncate(random.below(input.len()));
    }
    input
}

#[test]
fn generated_with_dense_releases() {
    let mut random = Random::new(202609);
    for _ in 0..10_000 {
        let input = dense_releases(&mut random);
        hold_judge(&input);
        hold_normalise(&input, &[7; 10_000]);
    }
}
