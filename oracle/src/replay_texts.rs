//! The calls on texts of the replay: parsing, levels, the validity and prefix tests, and matching of
//! one filter where document 01 binds the Rust's answer.

use std::collections::BTreeSet;
use std::str::FromStr;

use rmqtt::topic::{self, Level, Topic, TopicError};

use crate::inputs::{self, Input, LEVEL_SYMBOLS};
use crate::matching::{Matching, ValidPair};
use crate::random::Random;
use crate::random_inputs;
use crate::replay::Script;
use crate::rust::blamed_level;
use crate::texts;

/// Texts that a seed may miss: both sides of each prefix, groups, NUL, characters of each length, and
/// the lengths around one cell.
const CHOSEN: &[&str] = &[
    "$share",
    "$share/",
    "$share/g",
    "$share/g/",
    "$share/g/a/#",
    "$share/g/a/#/b",
    "$share/g/a+",
    "$share//a",
    "$share//",
    "$share/+/a",
    "$share/a#/b",
    "$share/a\0/b",
    "$share/g/a\0",
    "$share/$share/g/a",
    "$Share/g/#/a",
    "/$share/g/a",
    "$limit",
    "$limit/",
    "$limit/5/a",
    "$limit5/a",
    "$limits/a",
    "$exclusive",
    "$exclusive/",
    "$exclusive/a/+",
    "$exclusive/#/a",
    "exclusive/a",
    "\0",
    "a\0b/+",
    "+\0",
    "\u{80}/\u{7FF}/\u{800}",
    "\u{D7FF}/\u{E000}/\u{FFFF}",
    "\u{10000}/\u{10FFFF}/#",
    "\u{20AC}+/a",
    "$\u{1F600}/\u{1F600}$",
    "sixteen--letters/seventeen-letters",
    "seventeen-letters/#/sixteen--letters",
    "seventeen-letter+/#/a",
];

/// The bytes that make good levels, bad ones, and `#` in each place.
const WILD_SYMBOLS: &[&[u8]] = &[b"/", b"+", b"#", b"a"];

const SEED: u64 = 101;

/// All calls on texts.
pub fn ask(script: &mut Script) {
    let mut random = Random(SEED);
    let chosen = CHOSEN.iter().map(|text| text.to_string());
    let short = inputs::spelled(LEVEL_SYMBOLS, 2).chain(inputs::spelled(WILD_SYMBOLS, 3).skip(21));
    let mixed = short
        .chain(random_inputs::texts(SEED, 60))
        .filter_map(line_of);
    for text in chosen.chain(mixed) {
        ask_text(script, &mut random, &text);
    }
    for _ in 0..60 {
        let name = texts::small_text(&mut random);
        let filter = line_of(texts::filter(&mut random, &name));
        ask_text(script, &mut random, &filter.expect("it is a line"));
    }
    ask_pairs(script);
}

/// A text that a line can hold. It is UTF-8, document 01's domain.
fn line_of(text: Vec<u8>) -> Option<String> {
    let text = String::from_utf8(text).ok()?;
    (!text.contains('\n')).then_some(text)
}

fn accepted(accepts: bool) -> &'static str {
    match accepts {
        true => "accepted",
        false => "refused",
    }
}

pub fn yes(is_so: bool) -> &'static str {
    match is_so {
        true => "yes",
        false => "no",
    }
}

/// Every call that takes one text; of the levels some, and one past the end.
fn ask_text(script: &mut Script, random: &mut Random, text: &str) {
    let parsed = Topic::from_str(text);
    script.ask("parse", text, in_words(text, &parsed));
    let levels: &[Level] = parsed.as_ref().map_or(&[], |topic| topic.levels());
    for k in asked_levels(random, levels.len()) {
        let asked = format!("{k} {text}");
        script.ask("level_kind", &asked, kind(levels.get(k)));
        script.ask("level_part", &asked, part(levels.get(k)));
    }
    let valid = [
        ("is_valid_topic_name", topic::is_valid_topic_name(text)),
        ("is_valid_topic_filter", topic::is_valid_topic_filter(text)),
        (
            "is_valid_subscription_filter",
            topic::is_valid_subscription_filter(text),
        ),
    ];
    for (call, accepts) in valid {
        script.ask(call, text, accepted(accepts));
    }
    if !text.starts_with('$') && !random.once_in(4) {
        return; // most texts begin with no prefix
    }
    let begins = [
        (
            "is_shared_subscription",
            topic::is_shared_subscription(text),
        ),
        ("is_limit_subscription", topic::is_limit_subscription(text)),
        (
            "is_exclusive_subscription",
            topic::is_exclusive_subscription(text),
        ),
    ];
    for (call, is_so) in begins {
        script.ask(call, text, yes(is_so));
    }
}

/// Of so many levels two or three at most, and sometimes the one past the end. A refused text has none.
fn asked_levels(random: &mut Random, count: usize) -> BTreeSet<usize> {
    let mut asked = BTreeSet::from([random.below(count.max(1))]);
    if count > 0 {
        asked.extend([random.below(count), count - 1]);
    }
    if random.once_in(4) {
        asked.insert(count);
    }
    asked
}

/// The Rust tells a bad level, which it names, from a `#` that is not last.
fn in_words(text: &str, parsed: &Result<Topic, TopicError>) -> String {
    match parsed {
        Ok(topic) => format!("levels {}", topic.levels().len()),
        Err(TopicError::InvalidLevel(message)) => {
            format!("refused 6 at {}", blamed_level(text, message))
        }
        Err(TopicError::InvalidTopic(_)) => "refused 7".into(),
    }
}

fn kind(level: Option<&Level>) -> &'static str {
    match level {
        None => "none",
        Some(Level::Normal(_)) => "normal",
        Some(Level::Metadata(_)) => "metadata",
        Some(Level::Blank) => "blank",
        Some(Level::SingleWildcard) => "single wildcard",
        Some(Level::MultiWildcard) => "multi wildcard",
    }
}

fn part(level: Option<&Level>) -> String {
    format!("'{}'", level.map(Level::to_string).unwrap_or_default())
}

/// Pairs of a filter and a name, refused ones too, to both functions of the Rust that match them.
fn ask_pairs(script: &mut Script) {
    let chosen = inputs::faulty_pairs(1).chain(random_inputs::pairs(SEED, 700));
    for pair in chosen {
        let Input::Pair { filter, name } = pair else {
            continue;
        };
        let (Some(filter), Some(name)) = (line_of(filter), line_of(name)) else {
            continue;
        };
        if filter.contains(' ') || filter.len() + name.len() > 200 {
            continue; // a space ends the filter, and a line stays short
        }
        ask_pair(script, &filter, &name);
    }
}

fn ask_pair(script: &mut Script, filter: &str, name: &str) {
    let both = format!("{filter} {name}");
    let Some(pair) = ValidPair::of(filter.as_bytes(), name.as_bytes()) else {
        return script.ask("matches", both, "refused");
    };
    for (call, matching) in [
        ("matches", Matching::Topics),
        ("matches_str", Matching::Strings),
    ] {
        if matching.is_bound(&pair) {
            script.ask(call, &both, yes(matching.takes(&pair)));
        }
    }
}
