//! Stores written down as regions: the layout of docs/STORE.md, once more and from that page alone.

/// The bytes before the marks.
pub const HEADER: usize = 64;
/// The bytes of a unit.
pub const UNIT: usize = 16;

/// The two kinds of store, with the byte that tells each.
#[derive(Clone, Copy, Debug, PartialEq, Eq)]
pub enum Kind {
    Subscriptions = 1,
    Retained = 2,
}

/// Nodes, pairs and cells: the most of each, or how many are in use.
#[derive(Clone, Copy, Debug, PartialEq, Eq)]
pub struct Counts {
    pub nodes: usize,
    pub pairs: usize,
    pub cells: usize,
}

impl Counts {
    /// The three as the C interface takes them.
    pub fn numbers(&self) -> [u64; 3] {
        [self.nodes, self.pairs, self.cells].map(|count| count as u64)
    }

    /// Whether a store can have these capacities.
    pub fn are_in_range(&self) -> bool {
        let in_range = |last: usize, capacity: usize| (1..=last).contains(&capacity);
        in_range(4096, self.nodes) && in_range(8192, self.pairs) && in_range(8192, self.cells)
    }

    pub fn sum(&self) -> usize {
        self.nodes + self.pairs + self.cells
    }

    /// The bytes that a region for these capacities needs.
    pub fn needed(&self) -> usize {
        HEADER + (UNIT + 1) * self.sum()
    }
}

/// The record of a name: its handle, and the moment at which it expires, if it does.
#[derive(Clone, Copy, Debug, PartialEq, Eq, PartialOrd, Ord)]
pub struct Stored {
    pub handle: u32,
    pub moment: Option<u64>,
}

/// What a node holds: a value of a filter, or the record of a name.
#[derive(Clone, Copy, Debug, PartialEq, Eq, PartialOrd, Ord)]
pub enum Held {
    Value(u32),
    Record(Stored),
}

/// A node of the tree: its level, what it holds, and the row below it.
#[derive(Clone, Debug, Default, PartialEq, Eq)]
pub struct Node {
    pub level: Vec<u8>,
    pub own: Vec<Held>,
    pub below: Vec<Node>,
}

/// The levels of a filter or a name.
pub type Path = Vec<Vec<u8>>;

/// The text cells of a level.
pub fn cells(level: &[u8]) -> usize {
    match level {
        b"+" | b"#" => 0,
        _ => level.len().div_ceil(16),
    }
}

impl Node {
    /// The units of the node's own row.
    fn row_units(&self) -> usize {
        (8 + self.level.len()).div_ceil(UNIT) + self.own.len()
    }

    fn units(&self) -> usize {
        self.row_units() + units(&self.below)
    }

    /// The counts of the node and all below it, node by node.
    fn counts(&self) -> Counts {
        let below = counts(&self.below);
        Counts {
            nodes: 1 + below.nodes,
            pairs: self.own.len() + below.pairs,
            cells: cells(&self.level) + below.cells,
        }
    }
}

pub fn units(row: &[Node]) -> usize {
    row.iter().map(Node::units).sum()
}

pub fn counts(row: &[Node]) -> Counts {
    let of_nodes: Vec<Counts> = row.iter().map(Node::counts).collect();
    Counts {
        nodes: of_nodes.iter().map(|one| one.nodes).sum(),
        pairs: of_nodes.iter().map(|one| one.pairs).sum(),
        cells: of_nodes.iter().map(|one| one.cells).sum(),
    }
}

/// A number in two bytes, the high byte first.
fn two(number: usize) -> [u8; 2] {
    (number as u16).to_be_bytes()
}

/// The header's first 18 bytes. What is in use is the caller's to count.
pub fn header(kind: Kind, most: Counts, used: Counts, units: usize) -> Vec<u8> {
    let numbers = [
        most.nodes, most.pairs, most.cells, used.nodes, used.pairs, used.cells, units,
    ];
    let mut header = vec![0x43, 0x4A, kind as u8, 1];
    numbers
        .iter()
        .for_each(|number| header.extend(two(*number)));
    header
}

fn unit(held: Held) -> [u8; UNIT] {
    let mut unit = [0; UNIT];
    match held {
        Held::Value(value) => unit[..4].copy_from_slice(&value.to_be_bytes()),
        Held::Record(Stored { handle, moment }) => {
            unit[..4].copy_from_slice(&handle.to_be_bytes());
            unit[4] = u8::from(moment.is_some());
            unit[8..].copy_from_slice(&moment.unwrap_or(0).to_be_bytes());
        }
    }
    unit
}

/// The units of a row of nodes and all below it.
pub fn unit_bytes(row: &[Node], out: &mut Vec<u8>) {
    for node in row {
        let head = [node.level.len(), node.own.len(), units(&node.below), 0];
        head.iter().for_each(|number| out.extend(two(*number)));
        out.extend(&node.level);
        out.resize(out.len().next_multiple_of(UNIT), 0);
        node.own.iter().for_each(|held| out.extend(unit(*held)));
        unit_bytes(&node.below, out);
    }
}

/// Their marks. A depth is a number here, as a damaged region may be deeper than a byte tells.
pub fn marks(row: &[Node], depth: usize, out: &mut Vec<usize>) {
    for node in row {
        out.push(depth);
        out.resize(out.len() + node.row_units() - 1, 255);
        marks(&node.below, depth + 1, out);
    }
}

/// The nodes written down as a region of just the bytes needed, with these counts in its header.
/// What no call reads is `filler`. The capacities must have room for the units.
pub fn written(kind: Kind, most: Counts, used: Counts, row: &[Node], filler: u8) -> Vec<u8> {
    let mut region = vec![filler; most.needed()];
    let mut put = |at: usize, bytes: &[u8]| region[at..at + bytes.len()].copy_from_slice(bytes);
    put(0, &header(kind, most, used, units(row)));
    let mut depths = Vec::new();
    marks(row, 1, &mut depths);
    let depths: Vec<u8> = depths.iter().map(|depth| *depth as u8).collect();
    put(HEADER, &depths);
    let mut bytes = Vec::new();
    unit_bytes(row, &mut bytes);
    put(HEADER + most.sum(), &bytes);
    region
}

/// Puts something under a path, in the order of the bytes. A name's record replaces the one there.
pub fn hold(row: &mut Vec<Node>, path: &[Vec<u8>], held: Held) {
    let Some((level, rest)) = path.split_first() else {
        return;
    };
    let at = row.partition_point(|node| node.level < *level);
    if row.get(at).is_none_or(|node| node.level != *level) {
        let level = level.clone();
        row.insert(
            at,
            Node {
                level,
                ..Node::default()
            },
        );
    }
    let node = &mut row[at];
    if !rest.is_empty() {
        return hold(&mut node.below, rest, held);
    }
    match held {
        Held::Value(_) => node.own.push(held),
        Held::Record(_) => node.own = vec![held],
    }
    node.own.sort();
    node.own.dedup();
}

/// The nodes that hold something or have such a node below them.
pub fn needed_nodes(row: &[Node]) -> Vec<Node> {
    row.iter()
        .map(|node| Node {
            below: needed_nodes(&node.below),
            ..node.clone()
        })
        .filter(|node| !node.own.is_empty() || !node.below.is_empty())
        .collect()
}
