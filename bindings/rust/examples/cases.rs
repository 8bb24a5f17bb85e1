//! Calls made by chance: what each gives is what the model of the formats says.
//!
//!     bindings/cases NUMBER SEED --lines | cargo run --example cases

use scale_info_calls::{
    Error, changes, check, describe, difference, encode, find, json, prune, strip, table, value,
};
use std::io;

/// The bytes of a word.
fn bytes(word: &str) -> Vec<u8> {
    let digits = word.strip_prefix('x').expect("bytes");
    (0..digits.len())
        .step_by(2)
        .map(|at| u8::from_str_radix(&digits[at..at + 2], 16).expect("a digit"))
        .collect()
}

/// The text of a word.
fn text(word: &str) -> String {
    String::from_utf8(bytes(word)).expect("a text")
}

/// The number of a word.
fn number(word: &str) -> u32 {
    word.strip_prefix('n')
        .and_then(|digits| digits.parse().ok())
        .expect("a number")
}

/// The ids of a word.
fn ids(word: &str) -> Vec<u32> {
    word.strip_prefix('i')
        .expect("ids")
        .split(',')
        .filter(|id| !id.is_empty())
        .map(|id| id.parse().expect("an id"))
        .collect()
}

/// Bytes as a word.
fn word_of(bytes: impl AsRef<[u8]>) -> String {
    let digits = bytes.as_ref().iter().map(|byte| format!("{byte:02x}"));
    format!("x{}", digits.collect::<String>())
}

/// What a call gives, as a word.
fn called(name: &str, given: &[&str]) -> Result<String, Error> {
    let input = bytes(given[0]);
    Ok(match name {
        "check" => check(&input).map(|()| word_of(""))?,
        "prune" => word_of(prune(&input, &ids(given[1]))?),
        "json" => word_of(json(&input)?),
        "strip" => word_of(strip(&input)?),
        "table" => word_of(table(&input)?),
        "find" => {
            let found = find(&input, &text(given[1]))?;
            let digits: Vec<String> = found.iter().map(u32::to_string).collect();
            format!("i{}", digits.join(","))
        }
        "describe" => word_of(describe(&input, number(given[1]))?),
        "value" => word_of(value(&input, number(given[1]), &bytes(given[2]))?),
        "encode" => word_of(encode(&input, number(given[1]), &text(given[2]))?),
        "changes" => word_of(changes(&input, &bytes(given[1]))?),
        "difference" => {
            let (id, other) = (number(given[1]), number(given[3]));
            let found = difference(&input, id, &bytes(given[2]), other)?;
            word_of(found.unwrap_or_default())
        }
        other => panic!("there is no call {other}"),
    })
}

/// The status and the number that an error is for callers in C.
fn told(error: Error) -> (u8, u32) {
    match error {
        Error::Malformed => (1, 0),
        Error::TrailingBytes => (2, 0),
        Error::NoSuchType(id) => (3, id),
        Error::Dangling(id) => (4, id),
        Error::OutOfMemory => (5, 0),
        Error::Version(version) => (7, version.into()),
        Error::NoJson => (9, 0),
        Error::Unsupported => (10, 0),
        Error::TooDeep => (11, 0),
        Error::MalformedValue => (12, 0),
        Error::TrailingValue => (13, 0),
        Error::Mismatch => (14, 0),
    }
}

fn main() {
    let mut lines = 0;
    for line in io::stdin().lines() {
        let line = line.expect("a line");
        let words: Vec<&str> = line.split(' ').collect();
        let [name, status, count, written, given @ ..] = words.as_slice() else {
            panic!("not a line: {line}");
        };
        match called(name, given) {
            Ok(output) => assert_eq!((*status, output.as_str()), ("0", *written), "{line}"),
            Err(error) => {
                let (own, number) = told(error);
                let wanted = (own.to_string(), number.to_string());
                assert_eq!(wanted, (status.to_string(), count.to_string()), "{line}");
            }
        }
        lines += 1;
    }
    assert!(lines > 0, "there is no line");
    println!("cases.rs: {lines} calls are as the model says");
}
