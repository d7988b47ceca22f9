//! Answers as objects of JSON, one a line.

use hverolda::{explain, header, Explanation};
use serde_json::{json, Map, Value};

use crate::input::Input;
use crate::output::Said;

/// The fields of an object, in their order.
pub type Object = Map<String, Value>;

/// What is said of an input, as a line: its name, what UNB says of sender, recipient and
/// reference where it can be read, and the answer.
pub fn line(input: &Input, said: Said) -> String {
    let mut object = Object::new();
    object.insert("file".to_string(), input.file.to_string_lossy().into());
    if let Some(unb) = header(&input.bytes) {
        let value = |element: usize| Value::from(unb.element(element).component(0).to_string());
        for (name, element) in [("sender", 2), ("recipient", 3), ("reference", 5)] {
            object.insert(name.to_string(), value(element));
        }
    }
    object.extend(answer(input, said));
    format!("{}\n", Value::Object(object))
}

fn answer(input: &Input, said: Said) -> Object {
    match said {
        Said::Line(_, line) => {
            let verdict = line.split(' ').next().unwrap_or_default();
            of(json!({ "verdict": verdict, "answer": line }))
        }
        Said::Fields(_, _, fields) => fields,
        Said::Text(text) => {
            of(json!({ "verdict": "accepted", "text": String::from_utf8_lossy(&text) }))
        }
        Said::TextFields(_, fields) => fields,
        Said::Refused(words, refusal) => refused(words, &explain(&input.bytes, refusal)),
        Said::NotKept(refusal) => refused("refused", &explain(&input.bytes, refusal)),
        Said::Explained(words, first, others) => {
            let mut object = refused(words, &first);
            let others: Vec<Value> =
                others.iter().map(|other| Value::Object(refused("refused", other))).collect();
            if !others.is_empty() {
                object.insert("others".to_string(), others.into());
            }
            object
        }
        Said::NoText(words, refusal) => refused(words, &explain(&input.bytes, refusal)),
        Said::NoTextExplained(words, explanation) => refused(words, &explanation),
        Said::NoAnswer(why) => of(json!({ "verdict": "none", "explanation": why })),
        Said::Trouble(why) => of(json!({ "verdict": "trouble", "explanation": why })),
    }
}

/// A refusal; the word after `refused`, if there is one, says of what it is.
fn refused(words: &str, explanation: &Explanation) -> Object {
    let Explanation { refusal, segment, tag, line, column, found, expected, sentence, .. } =
        explanation;
    let mut object = of(json!({
        "verdict": "refused",
        "number": refusal.number(),
        "place": refusal.place,
        "segment": segment,
        "tag": tag,
        "line": line,
        "column": column,
        "found": found,
        "expected": expected,
        "explanation": sentence,
    }));
    if let Some((_, of)) = words.split_once(' ') {
        object.insert("of".to_string(), of.into());
    }
    object
}

fn of(value: Value) -> Object {
    match value {
        Value::Object(object) => object,
        other => Object::from_iter([("answer".to_string(), other)]),
    }
}
