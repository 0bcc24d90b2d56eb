//! Inputs around the greatest length, 65,535 bytes, and with as many levels as fit in there.

use crate::inputs::{self, Input};

const SIZES: [usize; 4] = [65_534, 65_535, 65_536, 65_537];

/// What the long texts are filled with: each gives another number of levels or of characters.
const FILLERS: [&[u8]; 6] = [
    b"a",
    b"/",
    b"a/",
    b"+/",
    "\u{20AC}".as_bytes(),
    "\u{1F600}".as_bytes(),
];

const STARTS: [&[u8]; 6] = [
    b"",
    b"$share/",
    b"$share/g/",
    b"$share//",
    b"$share/a+/",
    b"$limit/",
];

/// What may stand at the start, in the middle or at the end of a long text. The last three are
/// no UTF-8, a cut character among them.
const ODDITIES: [&[u8]; 7] = [
    b"\0",
    b"+",
    b"/#/",
    b"/+/",
    b"\xE2\x82",
    b"\xED\xA0\x80",
    b"\xFF",
];

#[derive(Clone, Copy)]
enum Place {
    Start,
    Middle,
    End,
}

/// A text of exactly `size` bytes: the start, then fillers, and an oddity somewhere among them.
/// What whole fillers leave open is filled before them.
fn filled(size: usize, start: &[u8], filler: &[u8], oddity: &[u8], place: Place) -> Vec<u8> {
    let room = size - start.len() - oddity.len();
    let count = room / filler.len();
    let before = match place {
        Place::Start => 0,
        Place::Middle => count / 2,
        Place::End => count,
    };
    let open = vec![b'a'; room % filler.len()];
    let (before, after) = (filler.repeat(before), filler.repeat(count - before));
    [start, &open, &before, oddity, &after].concat()
}

pub fn texts() -> impl Iterator<Item = Vec<u8>> {
    even_texts().chain(odd_texts())
}

/// Every size, start and filler, with nothing else in it.
fn even_texts() -> impl Iterator<Item = Vec<u8>> {
    SIZES.into_iter().flat_map(|size| {
        STARTS.into_iter().flat_map(move |start| {
            FILLERS
                .into_iter()
                .map(move |filler| filled(size, start, filler, b"", Place::End))
        })
    })
}

/// Every oddity at every place, in texts of the greatest length and in one that is too long.
fn odd_texts() -> impl Iterator<Item = Vec<u8>> {
    let shapes: [(usize, &[u8], &[u8]); 6] = [
        (65_535, b"", b"a"),
        (65_535, b"", b"a/"),
        (65_535, b"", "\u{20AC}".as_bytes()),
        (65_535, b"#/", b"a/"),
        (65_535, b"$share/g/", b"a/"),
        (65_536, b"", b"a/"),
    ];
    shapes.into_iter().flat_map(|(size, start, filler)| {
        ODDITIES.into_iter().flat_map(move |oddity| {
            [Place::Start, Place::Middle, Place::End]
                .map(|place| filled(size, start, filler, oddity, place))
        })
    })
}

/// Names of the greatest length, and filters that take them or miss them at their very end.
pub fn pairs() -> impl Iterator<Item = Input> {
    let deep = b"a/".repeat(32_767);
    let ending = |end: &[u8]| [&deep, end].concat();
    let names = vec![
        ending(b"a"),
        ending(b""),
        ending(b"$"),
        vec![b'/'; 65_535],
        vec![b'a'; 65_535],
        vec![b'a'; 65_536],
        "\u{E9}".repeat(32_767).into_bytes(),
    ];
    let mut filters = names.clone();
    filters.extend([
        ending(b"b"),
        ending(b"+"),
        ending(b"#"),
        [&b"+/".repeat(32_767)[..], b"+"].concat(),
        [&b"+/".repeat(32_767)[..], b"#"].concat(),
        [&b"+/".repeat(32_766)[..], b"#"].concat(),
        [&b"+/".repeat(32_766)[..], b"+"].concat(),
        b"#".to_vec(),
        b"+".to_vec(),
    ]);
    inputs::pairs(filters, names)
}
