//! Random inputs from a seed: longer texts than all can be tried of, and pairs made so that
//! matches are common.

use crate::inputs::{Input, SYMBOLS};
use crate::random::Random;

/// Pieces of texts beside the symbols; what is common in topics stands in here again.
const PIECES: &[&[u8]] = &[
    b"/",
    b"/",
    b" ",
    "\u{10FFFF}".as_bytes(),
    b"$share/",
    b"$limit/",
    b"$exclusive/",
    b"+/",
    b"/#",
    b"level",
];

/// Levels of names, of filters too.
const LEVELS: &[&[u8]] = &[
    b"",
    b"a",
    b"a",
    b"b",
    b"ab",
    b"$",
    b"$a",
    b"$SYS",
    b"a!",
    b"!",
    "\u{E9}".as_bytes(),
    "\u{20AC}".as_bytes(),
];

/// Texts of up to 16 pieces. In one of eight some byte is replaced by any other, so that most of
/// the faults of UTF-8 turn up.
pub fn texts(seed: u64, count: usize) -> impl Iterator<Item = Vec<u8>> {
    let mut random = Random(seed);
    let choices = [SYMBOLS, PIECES].concat();
    (0..count).map(move |_| {
        let length = random.below(17);
        let pieces: Vec<&[u8]> = (0..length).map(|_| random.of(&choices)).collect();
        let mut text = pieces.concat();
        if !text.is_empty() && random.once_in(8) {
            let at = random.below(text.len());
            text[at] = random.next() as u8;
        }
        text
    })
}

/// Texts with about as many bytes as the longest that are accepted: one to four levels again and
/// again, cut off anywhere, and in half of them one byte changed.
pub fn long_texts(seed: u64, count: usize) -> impl Iterator<Item = Vec<u8>> {
    let mut random = Random(seed);
    (0..count).map(move |_| {
        let size = 65_530 + random.below(12);
        let depth = 1 + random.below(4);
        let mut unit: Vec<u8> = levels(&mut random, depth).join(&b'/');
        unit.push(random.of(b"/a"));
        let mut text = unit.repeat(size / unit.len() + 1);
        text.truncate(size);
        if random.once_in(2) {
            text[random.below(size)] = random.of(b"+#/$\0\x80\xFF");
        }
        text
    })
}

/// A name and a filter each time. Half of the filters are made out of the name.
pub fn pairs(seed: u64, count: usize) -> impl Iterator<Item = Input> {
    let mut random = Random(seed);
    (0..count).map(move |_| {
        let (depth, other_depth) = (1 + random.below(8), 1 + random.below(8));
        let name = levels(&mut random, depth);
        let filter = if random.once_in(2) {
            levels(&mut random, other_depth)
        } else {
            name.clone()
        };
        Input::Pair {
            filter: with_wildcards(&mut random, filter).join(&b'/'),
            name: name.join(&b'/'),
        }
    })
}

fn levels(random: &mut Random, depth: usize) -> Vec<&'static [u8]> {
    (0..depth).map(|_| random.of(LEVELS)).collect()
}

/// Some levels become `+` or blank, and now and then the end becomes `#`.
fn with_wildcards<'l>(random: &mut Random, mut levels: Vec<&'l [u8]>) -> Vec<&'l [u8]> {
    for level in &mut levels {
        match random.below(12) {
            0..=2 => *level = b"+",
            3 => *level = b"",
            _ => {}
        }
    }
    if random.once_in(2) {
        levels.truncate(random.below(levels.len() + 1));
        levels.push(b"#");
    }
    levels
}
