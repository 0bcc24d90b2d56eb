//! Whether a region is a store, by the conditions of docs/STORE.md one after another: the region is
//! decoded to a tree, the tree is written down again and compared, and what it holds is listed and
//! looked at.
//!
//! Where `left_out` names a condition, that one is left out on purpose.

use std::collections::BTreeSet;

use crate::answers::TopicCalls;
use crate::lists::lists;
use crate::reference::HONEST;
use crate::stores::{self, Counts, Held, Kind, Node, Path, Stored, HEADER, UNIT};
use crate::texts::levels;

lists! {
    /// The conditions, each of which a wrong judge may leave out. (That a `#` has no child is none of
    /// them: it follows from the texts that are accepted, and no run can notice a judge without it.)
    Condition {
        /// All of them.
        CONDITIONS: [
            CapacitiesInRange,
            LongEnough,
            MarkAndShape,
            KindTold,
            CountsTold,
            MarksAsWritten,
            UnitsAsWritten,
            NodesFit,
            PairsFit,
            CellsFit,
            LevelsAscend,
            ValuesAscend,
            OneRecord,
            NodesAreNeeded,
            TextsAccepted,
            AtMost128Levels,
        ];
    }
}

/// The judge, honest where no condition is left out.
#[derive(Clone, Copy, Debug)]
pub struct StoreJudge {
    pub left_out: Option<Condition>,
}

/// A region that is a store: its capacities, what is in use, its nodes, and what is held.
pub struct Store {
    pub most: Counts,
    pub used: Counts,
    pub row: Vec<Node>,
    pub held: Vec<(Path, Held)>,
}

/// So many bytes from a place on, cut off at the end.
fn part(bytes: &[u8], at: usize, len: usize) -> &[u8] {
    let at = at.min(bytes.len());
    &bytes[at..bytes.len().min(at + len)]
}

/// A number, the high byte first.
fn number(bytes: &[u8]) -> u64 {
    bytes
        .iter()
        .fold(0, |number, byte| number << 8 | u64::from(*byte))
}

fn small(bytes: &[u8], at: usize) -> usize {
    number(part(bytes, at, 2)) as usize
}

fn held_in(kind: Kind, unit: &[u8]) -> Held {
    let first = number(part(unit, 0, 4)) as u32;
    match kind {
        Kind::Subscriptions => Held::Value(first),
        Kind::Retained => {
            let has_moment = unit.get(4) == Some(&1);
            let moment = has_moment.then(|| number(part(unit, 8, 8)));
            Held::Record(Stored {
                handle: first,
                moment,
            })
        }
    }
}

/// The rows in some units, whatever their bytes are.
fn decoded(kind: Kind, mut units: &[u8]) -> Vec<Node> {
    let mut row = Vec::new();
    while !units.is_empty() {
        let (len, own) = (small(units, 0), small(units, 2));
        let own_at = (8 + len).div_ceil(UNIT) * UNIT;
        let behind = part(units, own_at + own * UNIT, units.len());
        let below = part(behind, 0, small(units, 4) * UNIT);
        row.push(Node {
            level: part(units, 8, len).to_vec(),
            own: (0..own)
                .map(|k| held_in(kind, part(units, own_at + k * UNIT, UNIT)))
                .collect(),
            below: decoded(kind, below),
        });
        units = &behind[below.len()..];
    }
    row
}

/// What is held, each with its path.
fn list(row: &[Node], above: &Path, out: &mut Vec<(Path, Held)>) {
    for node in row {
        let mut path = above.clone();
        path.push(node.level.clone());
        out.extend(node.own.iter().map(|held| (path.clone(), *held)));
        list(&node.below, &path, out);
    }
}

/// Nodes, pairs and cells counted from what is held: a node for each beginning of a held path.
fn counted(held: &[(Path, Held)]) -> Counts {
    let beginnings: BTreeSet<&[Vec<u8>]> = held
        .iter()
        .flat_map(|(path, _)| (1..=path.len()).map(|len| &path[..len]))
        .collect();
    Counts {
        nodes: beginnings.len(),
        pairs: held.len(),
        cells: beginnings
            .iter()
            .map(|path| stores::cells(&path[path.len() - 1]))
            .sum(),
    }
}

fn every(row: &[Node], is_fine: &dyn Fn(&Node) -> bool) -> bool {
    row.iter()
        .all(|node| is_fine(node) && every(&node.below, is_fine))
}

fn ascends<T: PartialOrd>(list: impl Iterator<Item = T> + Clone) -> bool {
    list.clone().zip(list.skip(1)).all(|(one, next)| one < next)
}

fn levels_ascend(row: &[Node]) -> bool {
    ascends(row.iter().map(|node| &node.level)) && row.iter().all(|node| levels_ascend(&node.below))
}

/// Whether a store of the kind may hold something under a text.
pub fn accepts(kind: Kind, text: &[u8]) -> bool {
    match kind {
        Kind::Subscriptions => HONEST.is_valid_topic_filter(text).is_ok(),
        Kind::Retained => HONEST.is_valid_topic_name(text).is_ok(),
    }
}

fn is_accepted(kind: Kind, path: &Path) -> bool {
    let text = path.join(&b'/');
    let is_split = levels(&text).iter().eq(path.iter());
    is_split && accepts(kind, &text)
}

impl StoreJudge {
    /// A condition holds, or is left out.
    fn sees(&self, condition: Condition, holds: impl FnOnce() -> bool) -> bool {
        self.left_out == Some(condition) || holds()
    }

    /// The store of the kind that a region is, or none.
    pub fn store(&self, kind: Kind, region: &[u8]) -> Option<Store> {
        let most = Counts {
            nodes: small(region, 4),
            pairs: small(region, 6),
            cells: small(region, 8),
        };
        let units = part(region, HEADER + most.sum(), small(region, 16) * UNIT);
        let is_begun = self.is_begun(kind, most, region);
        let row = is_begun.then(|| decoded(kind, units))?;
        if !self.is_written(&row, units, region) {
            return None;
        }
        let mut held = Vec::new();
        list(&row, &Path::new(), &mut held);
        let used = counted(&held);
        let header = stores::header(kind, most, used, stores::units(&row));
        let is_store = self.sees(Condition::CountsTold, || region[10..18] == header[10..])
            && self.fits(most, used)
            && self.is_well_formed(kind, &row)
            && self.are_accepted(kind, &held);
        is_store.then_some(Store {
            most,
            used,
            row,
            held,
        })
    }

    /// The header before its counts, and the region's length.
    fn is_begun(&self, kind: Kind, most: Counts, region: &[u8]) -> bool {
        region.len() >= HEADER
            && self.sees(Condition::CapacitiesInRange, || most.are_in_range())
            && self.sees(Condition::LongEnough, || region.len() >= most.needed())
            && self.sees(Condition::MarkAndShape, || {
                region[..2] == [0x43, 0x4A] && region[3] == 1
            })
            && self.sees(Condition::KindTold, || region[2] == kind as u8)
    }

    /// The marks and the units are those that the rows are written down as.
    fn is_written(&self, row: &[Node], units: &[u8], region: &[u8]) -> bool {
        self.sees(Condition::UnitsAsWritten, || {
            let mut again = Vec::new();
            stores::unit_bytes(row, &mut again);
            again == units
        }) && self.sees(Condition::MarksAsWritten, || {
            let mut again = Vec::new();
            stores::marks(row, 1, &mut again);
            let found = part(region, HEADER, again.len());
            found.iter().map(|mark| usize::from(*mark)).eq(again)
        })
    }

    fn fits(&self, most: Counts, used: Counts) -> bool {
        self.sees(Condition::NodesFit, || used.nodes <= most.nodes)
            && self.sees(Condition::PairsFit, || used.pairs <= most.pairs)
            && self.sees(Condition::CellsFit, || used.cells <= most.cells)
    }

    fn is_well_formed(&self, kind: Kind, row: &[Node]) -> bool {
        self.sees(Condition::LevelsAscend, || levels_ascend(row))
            && every(row, &|node| node.level != b"#" || node.below.is_empty())
            && self.sees(Condition::ValuesAscend, || {
                kind == Kind::Retained || every(row, &|node| ascends(node.own.iter()))
            })
            && self.sees(Condition::OneRecord, || {
                kind == Kind::Subscriptions || every(row, &|node| node.own.len() <= 1)
            })
            && self.sees(Condition::NodesAreNeeded, || {
                every(row, &|node| !node.own.is_empty() || !node.below.is_empty())
            })
    }

    fn are_accepted(&self, kind: Kind, held: &[(Path, Held)]) -> bool {
        self.sees(Condition::TextsAccepted, || {
            held.iter().all(|(path, _)| is_accepted(kind, path))
        }) && self.sees(Condition::AtMost128Levels, || {
            held.iter().all(|(path, _)| path.len() <= 128)
        })
    }
}
