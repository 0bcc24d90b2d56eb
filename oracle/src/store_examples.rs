//! Two small stores with their bytes written out by hand from docs/STORE.md.
//!
//! What the harness writes down itself is held against them.

use crate::stores::{self, Counts, Held, Kind, Stored};

/// `a/+` with the values 7 and 9, in a store for 2 nodes, 2 pairs and 1 cell: what is in use.
const SUBSCRIPTIONS: [(usize, &[u8]); 6] = [
    (
        0,
        &[0x43, 0x4A, 1, 1, 0, 2, 0, 2, 0, 1, 0, 2, 0, 2, 0, 1, 0, 4],
    ),
    (64, &[1, 2, 255, 255]),
    (69, &[0, 1, 0, 0, 0, 3, 0, 0, b'a']),
    (85, &[0, 1, 0, 2, 0, 0, 0, 0, b'+']),
    (101, &[0, 0, 0, 7]),
    (117, &[0, 0, 0, 9]),
];

/// The name `a` with handle 5 and moment 258, in a store for 1 node, 1 pair and 1 cell.
const RETAINED: [(usize, &[u8]); 4] = [
    (
        0,
        &[0x43, 0x4A, 2, 1, 0, 1, 0, 1, 0, 1, 0, 1, 0, 1, 0, 1, 0, 2],
    ),
    (64, &[1, 255]),
    (67, &[0, 1, 0, 1, 0, 0, 0, 0, b'a']),
    (83, &[0, 0, 0, 5, 1, 0, 0, 0, 0, 0, 0, 0, 0, 0, 1, 2]),
];

/// So many bytes 0, with these bytes at their places.
fn bytes(len: usize, parts: &[(usize, &[u8])]) -> Vec<u8> {
    let mut bytes = vec![0; len];
    for (at, part) in parts {
        bytes[*at..at + part.len()].copy_from_slice(part);
    }
    bytes
}

fn written(kind: Kind, cells: usize, path: &[&[u8]], held: &[Held]) -> Vec<u8> {
    let path: Vec<Vec<u8>> = path.iter().map(|level| level.to_vec()).collect();
    let mut row = Vec::new();
    held.iter()
        .for_each(|held| stores::hold(&mut row, &path, *held));
    let most = Counts {
        nodes: path.len(),
        pairs: held.len(),
        cells,
    };
    stores::written(kind, most, stores::counts(&row), &row, 0)
}

/// The examples, each with whether the harness writes it down so.
pub fn written_down() -> [(&'static str, bool); 2] {
    let values = [Held::Value(9), Held::Value(7)];
    let record = Held::Record(Stored {
        handle: 5,
        moment: Some(258),
    });
    let subscriptions = written(Kind::Subscriptions, 1, &[b"a", b"+"], &values);
    let retained = written(Kind::Retained, 1, &[b"a"], &[record]);
    [
        (
            "a/+ with 7 and 9",
            subscriptions == bytes(149, &SUBSCRIPTIONS),
        ),
        ("the name a", retained == bytes(115, &RETAINED)),
    ]
}
