//! Names for histories, and filters made of them.

use crate::random::Random;

const LEVELS: &[&[u8]] = &[
    b"",
    b"a",
    b"a",
    b"b",
    b"b",
    b"ab",
    b"a!",
    b"$x",
    b"$",
    "\u{E9}".as_bytes(),
    b"sevenle",
    b"nine lett",
    b"sixteen  letters",
    b"seventeen letters",
];

pub fn small_text(random: &mut Random) -> Vec<u8> {
    let depth = 1 + random.below(4);
    let levels: Vec<&[u8]> = (0..depth).map(|_| random.of(LEVELS)).collect();
    levels.join(&b'/')
}

/// About 128 levels, of which most are the same.
pub fn deep_text(random: &mut Random) -> Vec<u8> {
    let depth = match random.below(4) {
        0 => 1 + random.below(6),
        1 => 20 + random.below(41),
        _ => 126 + random.below(5),
    };
    let levels: Vec<&[u8]> = (0..depth)
        .map(|_| match random.below(60) {
            0 => random.of(LEVELS),
            _ => b"a",
        })
        .collect();
    levels.join(&b'/')
}

pub fn studio_text(random: &mut Random) -> Vec<u8> {
    let kind = random.of(&["cue", "mute", "talk", "level", "take"]);
    let (floor, room, booth) = (random.below(4), random.below(6), random.below(8));
    format!("floor{floor}/room{room}/booth{booth}/{kind}").into_bytes()
}

pub fn wide_text(random: &mut Random) -> Vec<u8> {
    match random.below(3) {
        0 => format!("{}", random.below(3_000)).into_bytes(),
        1 => format!("booth{}/mute", random.below(1_000)).into_bytes(),
        _ => format!("{}/{}", random.below(40), random.below(60)).into_bytes(),
    }
}

/// The levels of a text.
pub fn levels(text: &[u8]) -> Vec<&[u8]> {
    text.split(|byte| *byte == b'/').collect()
}

/// A filter out of a name's text: some levels become `+`, and the end `#`.
pub fn filter(random: &mut Random, text: &[u8]) -> Vec<u8> {
    let mut levels = levels(text);
    for level in &mut levels {
        if random.once_in(5) {
            *level = b"+";
        }
    }
    if random.once_in(4) {
        levels.truncate(random.below(levels.len() + 1));
        levels.push(b"#");
    }
    levels.join(&b'/')
}

/// Texts that some call refuses.
pub const FAULTY: &[&[u8]] = &[
    b"", b"a+", b"#/a", b"#/a+", b"a\0", b"\xFF", b"a/#/b", b"+", b"a/#",
];
