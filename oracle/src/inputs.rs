//! What is asked about: texts, and pairs of a filter and a name.
//!
//! Here are the short ones, all of them over small alphabets.

use crate::answers::TopicCalls;
use crate::reference::HONEST;

/// One case: every call that takes a text is asked about the text, or `matches` about the pair.
#[derive(Clone, Debug, PartialEq, Eq)]
pub enum Input {
    Text(Vec<u8>),
    Pair { filter: Vec<u8>, name: Vec<u8> },
}

/// The bytes that mean something in a topic, two that do not, one that sorts before `/`, NUL, and
/// a character each of two, three and four bytes.
pub const SYMBOLS: &[&[u8]] = &[
    b"/",
    b"+",
    b"#",
    b"$",
    b"a",
    b"b",
    b"!",
    b"\0",
    "\u{E9}".as_bytes(),
    "\u{20AC}".as_bytes(),
    "\u{1F600}".as_bytes(),
];

/// The bytes that make levels and their kinds, and one that makes a plain level.
pub const LEVEL_SYMBOLS: &[&[u8]] = &[b"/", b"+", b"#", b"$", b"a"];

/// The bytes at which the table of RFC 3629 changes, and `/`.
pub const UTF8_EDGES: &[&[u8]] = &[
    b"\x00", b"\x2F", b"\x7F", b"\x80", b"\x8F", b"\x90", b"\x9F", b"\xA0", b"\xBF", b"\xC0",
    b"\xC1", b"\xC2", b"\xDF", b"\xE0", b"\xE1", b"\xEC", b"\xED", b"\xEE", b"\xEF", b"\xF0",
    b"\xF1", b"\xF3", b"\xF4", b"\xF5", b"\xFF",
];

/// What a text of plain bytes may meet: bytes with a meaning, the first and last characters of
/// each length, and bytes that are no character.
const ODDITIES: &[&[u8]] = &[
    b"/",
    b"+",
    b"#",
    b"$",
    b"\0",
    "\u{80}".as_bytes(),
    "\u{7FF}".as_bytes(),
    "\u{800}".as_bytes(),
    "\u{D7FF}".as_bytes(),
    "\u{E000}".as_bytes(),
    "\u{FFFF}".as_bytes(),
    "\u{10000}".as_bytes(),
    "\u{10FFFF}".as_bytes(),
    b"\x80",
    b"\xBF",
    b"\xC0\x80",
    b"\xC1\xBF",
    b"\xC3",
    b"\xE0\x9F\xBF",
    b"\xE2\x82",
    b"\xED\xA0\x80",
    b"\xED\xBF\xBF",
    b"\xF0\x8F\xBF\xBF",
    b"\xF0\x9F\x98",
    b"\xF4\x90\x80\x80",
    b"\xF5\x80\x80\x80",
    b"\xFF",
];

/// The starts that the three prefix tests look for.
const PREFIXES: [&[u8]; 3] = [b"$share/", b"$limit/", b"$exclusive/"];

/// All texts of at most `longest` symbols, shorter ones first.
pub fn spelled(
    symbols: &'static [&'static [u8]],
    longest: u32,
) -> impl Iterator<Item = Vec<u8>> + Clone {
    (0..=longest).flat_map(move |length| {
        let count = symbols.len().pow(length);
        (0..count).map(move |number| spell(symbols, length, number))
    })
}

/// The text whose symbols are the `length` digits of `number`.
fn spell(symbols: &[&[u8]], length: u32, number: usize) -> Vec<u8> {
    let digit = |place| number / symbols.len().pow(place) % symbols.len();
    (0..length)
        .rev()
        .flat_map(|place| symbols[digit(place)])
        .copied()
        .collect()
}

/// Short texts and oddities behind the starts that a subscription filter may have, and behind
/// some that only look like them.
pub fn behind_starts(longest: u32) -> impl Iterator<Item = Vec<u8>> {
    let starts: [&[u8]; 10] = [
        b"$share/",
        b"$share/g/",
        b"$share",
        b"$share//",
        b"$share/+/",
        b"$share/\xC3\xA9/",
        b"$limit/",
        b"$exclusive/",
        b"$Share/",
        b"/$share/",
    ];
    let texts = spelled(SYMBOLS, longest).chain(oddities(2));
    starts.into_iter().flat_map(move |start| {
        let texts = texts.clone();
        texts.map(move |text| [start, &text].concat())
    })
}

/// The three prefixes cut short, and with one byte changed to every other.
pub fn changed_prefixes() -> impl Iterator<Item = Vec<u8>> {
    let tails: [&[u8]; 6] = [b"", b"a", b"/", b"a/b", b"/a", b"g/#/a"];
    let cut = PREFIXES
        .into_iter()
        .flat_map(|prefix| (0..prefix.len()).map(|end| prefix[..end].to_vec()));
    let changed = PREFIXES.into_iter().flat_map(|prefix| {
        (0..prefix.len()).flat_map(move |at| {
            (0..=255).map(move |byte| [&prefix[..at], &[byte], &prefix[at + 1..]].concat())
        })
    });
    cut.chain(changed)
        .flat_map(move |start| tails.map(|tail| [&start, tail].concat()))
}

/// Every text of one byte and of two.
pub fn one_and_two_bytes() -> impl Iterator<Item = Vec<u8>> {
    let one = (0..=u8::MAX).map(|byte| vec![byte]);
    one.chain((0..=u16::MAX).map(|bytes| bytes.to_be_bytes().to_vec()))
}

/// One oddity at every place of a text of plain bytes and of a text of slashes. It shows code
/// that takes several bytes at a time.
pub fn oddities(longest: usize) -> impl Iterator<Item = Vec<u8>> + Clone {
    let places = (0..=longest).flat_map(|length| (0..=length).map(move |at| (at, length - at)));
    places.flat_map(|(before, after)| {
        [b'a', b'/'].into_iter().flat_map(move |plain| {
            ODDITIES
                .iter()
                .map(move |oddity| [&vec![plain; before][..], oddity, &vec![plain; after]].concat())
        })
    })
}

/// Each of `filters` with each of `names`.
pub fn pairs(filters: Vec<Vec<u8>>, names: Vec<Vec<u8>>) -> impl Iterator<Item = Input> {
    filters.into_iter().flat_map(move |filter| {
        let names = names.clone().into_iter();
        names.map(move |name| Input::Pair {
            filter: filter.clone(),
            name,
        })
    })
}

/// Every valid filter with every valid name, both of at most `longest` symbols.
pub fn valid_pairs(longest: u32) -> impl Iterator<Item = Input> {
    let filters = spelled(&[b"/", b"+", b"#", b"$", b"a", b"!"], longest);
    let filters = filters.filter(|text| HONEST.is_valid_topic_filter(text).is_ok());
    let names = spelled(&[b"/", b"$", b"a", b"!"], longest);
    let names = names.filter(|text| HONEST.is_valid_topic_name(text).is_ok());
    pairs(filters.collect(), names.collect())
}

/// Every short text as filter and as name, with any faults, and texts that are too long with and
/// without a second fault.
pub fn faulty_pairs(longest: u32) -> impl Iterator<Item = Input> {
    let short = spelled(&[b"/", b"+", b"#", b"$", b"a", b"\0", b"\xFF"], longest);
    let long = [&b"a"[..], b"+a", b"#/", b"\0", b"\xFF"].map(|unit| unit.repeat(65_536));
    let texts: Vec<_> = short.chain(long).collect();
    pairs(texts.clone(), texts)
}

/// The levels that are asked for: each level, some past the end, and two numbers that 32 bits do
/// not hold. Of a deep or a long text only some, because each call reads the whole text.
pub fn asked_levels(text: &[u8]) -> Vec<u64> {
    let count = 1 + text.iter().filter(|byte| **byte == b'/').count() as u64;
    if count > 64 || text.len() > 1024 {
        vec![0, count / 2, count - 1, count, u64::MAX]
    } else {
        (0..=count + 2).chain([1 << 32, u64::MAX]).collect()
    }
}
