//! Stores made at random from a seed, and trees that break one rule of a store each.

use crate::random::Random;
use crate::store_judge::accepts;
use crate::stores::{self, Counts, Held, Kind, Node, Path, Stored};

/// Levels of filters and names. The long ones end just before and behind a unit and a cell.
const LEVELS: &[&[u8]] = &[
    b"",
    b"a",
    b"a",
    b"b",
    b"ab",
    b"$x",
    b"!",
    "\u{E9}".as_bytes(),
    b"sevenle",
    b"eightlet",
    b"nine lett",
    b"sixteen  letters",
    b"seventeen letters",
    b"twenty-four letters here",
    b"twenty-five letters here!",
];

/// A tree with what its header is to say.
pub struct Made {
    pub kind: Kind,
    pub most: Counts,
    pub used: Counts,
    pub row: Vec<Node>,
}

impl Made {
    /// The region, or none where the capacities have no room for the units.
    pub fn region(&self, filler: u8) -> Option<Vec<u8>> {
        let has_room = stores::units(&self.row) <= self.most.sum();
        has_room.then(|| stores::written(self.kind, self.most, self.used, &self.row, filler))
    }
}

fn held(random: &mut Random, kind: Kind) -> Held {
    let number = match random.below(3) {
        0 => random.next() as u32,
        _ => random.below(4) as u32,
    };
    let moment = random.once_in(2).then(|| random.next() >> random.below(64));
    match kind {
        Kind::Subscriptions => Held::Value(number),
        Kind::Retained => Held::Record(Stored {
            handle: number,
            moment,
        }),
    }
}

fn path(random: &mut Random, kind: Kind, depth: usize) -> Path {
    let mut path: Path = (0..depth).map(|_| random.of(LEVELS).to_vec()).collect();
    if kind == Kind::Subscriptions {
        for level in &mut path {
            if random.once_in(5) {
                *level = b"+".to_vec();
            }
        }
        if random.once_in(4) {
            path.push(b"#".to_vec());
        }
    }
    path
}

/// A store of at most so many filters with a value, or names; capacities with a little to spare.
pub fn store(random: &mut Random, kind: Kind, size: usize, depth: usize) -> Made {
    let mut row = Vec::new();
    for _ in 0..random.below(size + 1) {
        let depth = 1 + random.below(depth);
        let path = path(random, kind, depth);
        if accepts(kind, &path.join(&b'/')) {
            stores::hold(&mut row, &path, held(random, kind));
        }
    }
    let used = stores::counts(&row);
    let mut spare = |count: usize| (count + random.of(&[0, 0, 1, 2])).max(1);
    let most = Counts {
        nodes: spare(used.nodes),
        pairs: spare(used.pairs),
        cells: spare(used.cells),
    };
    Made {
        kind,
        most,
        used,
        row,
    }
}

/// Some node of a row or below it; none where there is none.
fn some_node<'r>(random: &mut Random, row: &'r mut [Node]) -> Option<&'r mut Node> {
    if row.is_empty() {
        return None;
    }
    let at = random.below(row.len());
    let node = &mut row[at];
    if node.below.is_empty() || random.once_in(3) {
        return Some(node);
    }
    some_node(random, &mut node.below)
}

/// Breaks a rule somewhere in a tree: most of these leave no store, though bytes, marks and counts
/// are as they should be.
pub fn broken(random: &mut Random, made: &mut Made) {
    let new = held(random, made.kind);
    let level = random.of(&[
        &b"#"[..],
        b"+",
        b"a+",
        b"#b",
        b"x/y",
        b"\0",
        b"\xFF",
        b"",
        b"a",
    ]);
    let way = random.below(9);
    if let Some(node) = some_node(random, &mut made.row) {
        match way {
            0 => made.row.reverse(),
            1 => node.below.reverse(),
            2 => node.own.clear(),
            3 => node.own.push(new),
            4 => node.own.reverse(),
            5 => node.level = level.to_vec(),
            6 => node.below.push(Node {
                level: level.to_vec(),
                own: vec![new],
                below: Vec::new(),
            }),
            7 => {
                let twice = node.below.last().cloned();
                node.below.extend(twice);
            }
            _ => node.below.push(Node {
                level: b"zz".to_vec(),
                ..Node::default()
            }),
        }
    }
    recounted(random, made);
}

/// The header's counts after a change: by nodes, or of what is held, or one capacity too small for
/// them while another has room.
fn recounted(random: &mut Random, made: &mut Made) {
    made.used = match random.once_in(2) {
        true => stores::counts(&made.row),
        false => stores::counts(&stores::needed_nodes(&made.row)),
    };
    let more = |most: usize, used: usize| most.max(used);
    made.most = Counts {
        nodes: more(made.most.nodes, made.used.nodes),
        pairs: more(made.most.pairs, made.used.pairs),
        cells: more(made.most.cells, made.used.cells) + 2,
    };
}

/// One capacity is a little less than what is in use, and another more.
pub fn tight(random: &mut Random, made: &mut Made) {
    let (used, most) = (made.used, &mut made.most);
    match random.below(3) {
        0 => (most.nodes, most.cells) = (used.nodes.saturating_sub(1).max(1), used.cells + 4),
        1 => (most.pairs, most.nodes) = (used.pairs.saturating_sub(1).max(1), used.nodes + 4),
        _ => (most.cells, most.pairs) = (used.cells.saturating_sub(1).max(1), used.pairs + 4),
    }
}
