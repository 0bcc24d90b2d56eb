//! The unchanged Rust as a judge, where document 01 says that the answers are equal.
//!
//! The Rust knows no refusal numbers. Of a text that it accepts it judges every answer; of a text
//! that it refuses, that it is refused, and in parsing also which fault is meant.

use std::fmt::Display;
use std::str::{self, FromStr};

use rmqtt::topic::{self, Level, Topic, TopicError};

use crate::answers::number::{BAD_LEVEL, HASH_NOT_LAST, NOT_UTF8};
use crate::answers::{in_words, Answer, Kind, LevelAnswers, Part, Refusal, TextAnswers};
use crate::compare::{Difference, Judge};
use crate::matching::{class_of, Matching, ValidPair};

/// The Rust, which judges.
pub struct Rust;

impl Judge for Rust {
    fn text(&self, text: &[u8], found: &TextAnswers) -> Option<Difference> {
        let Ok(text) = str::from_utf8(text) else {
            // No text of the Rust has these bytes.
            return refused("parse", found.parse, NOT_UTF8);
        };
        parsing(text, found)
            .or_else(|| validity(text, found))
            .or_else(|| prefixes(text, found))
    }

    fn pair(&self, filter: &[u8], name: &[u8], found: Answer) -> Option<Difference> {
        let Some(pair) = ValidPair::of(filter, name) else {
            return unless(found.is_err(), "matches", &found, || "refused".to_string());
        };
        let mut both = Matching::BOTH.into_iter();
        both.find_map(|matching| matched(matching, &pair, found))
    }
}

/// None where the answer is fine.
fn unless<T: Display>(
    is_fine: bool,
    call: &'static str,
    found: &Answer<T>,
    expected: impl FnOnce() -> String,
) -> Option<Difference> {
    Difference::unless(is_fine, ("Rust", call), found, expected)
}

/// None where the answer is the refusal of that number, at any place.
fn refused(call: &'static str, found: Answer, number: u64) -> Option<Difference> {
    let is_fine = found.is_err_and(|refusal| refusal.number == number);
    unless(is_fine, call, &found, || format!("refused {number}"))
}

/// In document 01's domain the answers are equal; outside, every difference has a known class.
fn matched(matching: Matching, pair: &ValidPair, found: Answer) -> Option<Difference> {
    let takes = u64::from(matching.takes(pair));
    let is_same = found == Ok(takes);
    if matching.is_bound(pair) {
        return unless(is_same, matching.name(), &found, || takes.to_string());
    }
    let is_known = is_same || class_of(matching, pair).is_some();
    unless(is_known, matching.name(), &found, || {
        format!("{takes}, which is in no known class of differences")
    })
}

/// The three validity tests, as far as they accept or refuse.
fn validity(text: &str, found: &TextAnswers) -> Option<Difference> {
    let tests: [(_, Answer, bool); 3] = [
        (
            "is_valid_topic_name",
            found.name,
            topic::is_valid_topic_name(text),
        ),
        (
            "is_valid_topic_filter",
            found.filter,
            topic::is_valid_topic_filter(text),
        ),
        (
            "is_valid_subscription_filter",
            found.subscription,
            topic::is_valid_subscription_filter(text),
        ),
    ];
    tests.into_iter().find_map(|(call, found, accepts)| {
        let expected = if accepts { "accepted" } else { "refused" };
        unless(found.is_ok() == accepts, call, &found, || expected.into())
    })
}

/// The three prefix tests.
fn prefixes(text: &str, found: &TextAnswers) -> Option<Difference> {
    let tests: [(_, Answer, bool); 3] = [
        (
            "is_shared_subscription",
            found.shared,
            topic::is_shared_subscription(text),
        ),
        (
            "is_limit_subscription",
            found.limit,
            topic::is_limit_subscription(text),
        ),
        (
            "is_exclusive_subscription",
            found.exclusive,
            topic::is_exclusive_subscription(text),
        ),
    ];
    tests.into_iter().find_map(|(call, found, yes)| {
        let yes = u64::from(yes);
        unless(found == Ok(yes), call, &found, || yes.to_string())
    })
}

/// Parsing, and the kinds and texts of the levels. A refused text has none.
fn parsing(text: &str, found: &TextAnswers) -> Option<Difference> {
    let topic = Topic::from_str(text);
    let of_parse = match &topic {
        Ok(topic) => {
            let count = topic.levels().len() as u64;
            unless(found.parse == Ok(count), "parse", &found.parse, || {
                count.to_string()
            })
        }
        Err(error) => refusal(text, error, found.parse),
    };
    let levels: &[Level] = topic.as_ref().map_or(&[], |topic| topic.levels());
    of_parse.or_else(|| {
        found.levels.iter().find_map(|found| {
            let k = usize::try_from(found.k).ok();
            level(text, k.and_then(|k| levels.get(k)), found)
        })
    })
}

/// What is meant: the Rust tells a bad level from a `#` that is not last, and it names the bad level.
fn refusal(text: &str, error: &TopicError, found: Answer) -> Option<Difference> {
    match error {
        TopicError::InvalidLevel(message) => {
            let expected = Err(Refusal {
                number: BAD_LEVEL,
                place: blamed_level(text, message),
            });
            unless(found == expected, "parse", &found, || in_words(&expected))
        }
        TopicError::InvalidTopic(_) => refused("parse", found, HASH_NOT_LAST),
    }
}

/// The Rust stops at the first bad level, so the one it names is the first with that text.
pub fn blamed_level(text: &str, message: &str) -> u64 {
    let level = message.strip_prefix("invalid level `");
    let level = level.and_then(|rest| rest.strip_suffix("` contains +|#"));
    let level = level.expect("the Rust names the bad level");
    let place = text.split('/').position(|other| other == level);
    place.expect("the Rust names a level of the text") as u64
}

/// The kind of a level and its text.
fn level(text: &str, level: Option<&Level>, found: &LevelAnswers) -> Option<Difference> {
    let kind = match level {
        None => Kind::None,
        Some(Level::Normal(_)) => Kind::Normal,
        Some(Level::Metadata(_)) => Kind::Metadata,
        Some(Level::Blank) => Kind::Blank,
        Some(Level::SingleWildcard) => Kind::SingleWildcard,
        Some(Level::MultiWildcard) => Kind::MultiWildcard,
    } as u64;
    let of_kind = unless(found.kind == Ok(kind), "level_kind", &found.kind, || {
        kind.to_string()
    });
    let of_either = of_kind.or_else(|| {
        let level = level.map(Level::to_string).unwrap_or_default();
        let is_same = part_of(text, found.part) == Some(level.as_bytes());
        unless(is_same, "level_part", &found.part, || format!("{level:?}"))
    });
    of_either.map(|difference| difference.of_level(found.k))
}

/// The bytes that a part names, if they stand in the text.
fn part_of(text: &str, part: Answer<Part>) -> Option<&[u8]> {
    let Part { start, length } = part.ok()?;
    let end = usize::try_from(start.checked_add(length)?).ok()?;
    text.as_bytes().get(start as usize..end)
}
