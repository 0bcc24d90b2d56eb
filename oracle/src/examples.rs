//! The examples that document 01 writes out, with its own answers, and some more for its order of
//! refusals.
//!
//! The reference is held against them, so that the judge itself is judged by the paper.

use crate::answers::number::*;
use crate::answers::{Answer, Refusal, TopicCalls};

/// Filter, name, and whether the filter takes the name.
const MATCHES: [(&str, &str, bool); 13] = [
    ("a/#", "a", true),
    ("a/+", "a", false),
    ("a/+", "a/", true),
    ("+", "$SYS", false),
    ("#", "$SYS/x", false),
    ("$SYS/#", "$SYS", true),
    ("a/+", "a/$x", true),
    ("a/#", "a/$x", true),
    ("/a", "x/a", false),
    ("+/+", "/a", true),
    ("+", "/a", false),
    ("+/#", "a", true),
    ("a/+", "a/$x/y", false),
];

/// Bytes, and what the test of a subscription filter answers: the number and the place, 0 for
/// accepted. Text without `$share/` gets the test of a filter. Where two faults stand, as in
/// `$share/a+/b+`, the least number goes out.
const TESTS: [(&[u8], u64, u64); 13] = [
    (b"a+", BAD_LEVEL, 0),
    (b"#/a", HASH_NOT_LAST, 0),
    (b"#/a+", BAD_LEVEL, 1),
    (b"$share", 0, 0),
    (b"$share/g", NO_INNER, 0),
    (b"$share/a+", NO_INNER, 0),
    (b"$share//", NO_INNER, 0),
    (b"$share/a+/b", BAD_GROUP, 0),
    (b"$share/a+/b+", BAD_LEVEL, 0),
    (b"\xF4\x8F\xBF\xBF", 0, 0),
    (b"\xF4\x90\x80\x80", NOT_UTF8, 0),
    (b"\xED\xA0\x80", NOT_UTF8, 0),
    (b"\xC0\x80", NOT_UTF8, 0),
];

/// Each example, and whether it is answered as document 01 says.
pub fn answered(calls: &dyn TopicCalls) -> Vec<(String, bool)> {
    let of_matches = MATCHES.iter().map(|&(filter, name, takes)| {
        let found = calls.matches(filter.as_bytes(), name.as_bytes());
        (
            format!("{filter} over {name}"),
            found == Ok(u64::from(takes)),
        )
    });
    let of_tests = TESTS.iter().map(|&(text, number, place)| {
        let found = calls.is_valid_subscription_filter(text);
        (
            format!("{}", text.escape_ascii()),
            found == tested(number, place),
        )
    });
    let of_lengths = [(65_535, 0), (65_536, TOO_LONG)].map(|(length, number)| {
        let found = calls.is_valid_topic_name(&vec![b'a'; length]);
        (format!("{length} bytes"), found == tested(number, 0))
    });
    of_matches.chain(of_tests).chain(of_lengths).collect()
}

fn tested(number: u64, place: u64) -> Answer {
    match number {
        0 => Ok(0),
        _ => Err(Refusal { number, place }),
    }
}
