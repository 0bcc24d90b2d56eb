//! The room that a store has and uses, by document 01 alone: nodes, pairs and cells counted from what
//! is held, and the refusals 12 to 15.
//!
//! Where a twist is named, that one rule is broken on purpose.

use std::collections::BTreeMap;

use crate::answers::number::*;
use crate::answers::TopicCalls;
use crate::mutation::Mutation;
use crate::reference::{Reference, HONEST};
use crate::stores::{self, Counts};
use crate::texts::levels;
use crate::twists::Twist;

/// A node is a list of leading levels, kept as their text with the number of pairs that need it.
#[derive(Clone)]
pub struct Room {
    most: Counts,
    twist: Option<Twist>,
    nodes: BTreeMap<Vec<u8>, usize>,
    pairs: usize,
    cells: usize,
}

/// The texts of the non-empty lists of leading levels.
fn leads(text: &[u8]) -> Vec<&[u8]> {
    let ends = text.iter().enumerate().filter(|(_, byte)| **byte == b'/');
    let ends = ends.map(|(at, _)| at).chain([text.len()]);
    ends.map(|end| &text[..end]).collect()
}

impl Room {
    pub fn new(most: Counts, twist: Option<Twist>) -> Self {
        Room {
            most,
            twist,
            nodes: BTreeMap::new(),
            pairs: 0,
            cells: 0,
        }
    }

    pub fn is(&self, twist: Twist) -> bool {
        self.twist == Some(twist)
    }

    pub fn nodes(&self) -> usize {
        self.nodes.len()
    }

    pub fn pairs(&self) -> usize {
        self.pairs
    }

    /// The cells of a node: those of its last level.
    fn cells_of(&self, lead: &[u8]) -> usize {
        let last = levels(lead).pop().unwrap_or_default();
        match self.twist {
            Some(Twist::SeventeenBytesAreOneCell) if last.len() == 17 => 1,
            Some(Twist::WildcardTakesCell) => last.len().div_ceil(16),
            _ => stores::cells(last),
        }
    }

    /// 12 to 15 for a new pair under this text, of which the first goes out.
    pub fn fault(&self, text: &[u8]) -> Option<u64> {
        if self.is(Twist::RefusesAll) {
            return Some(NODES_FULL);
        }
        let new = leads(text);
        let new: Vec<_> = new
            .iter()
            .filter(|lead| !self.nodes.contains_key(**lead))
            .collect();
        let cells: usize = new.iter().map(|lead| self.cells_of(lead)).sum();
        let more = |twist: Twist| usize::from(self.is(twist));
        let deepest = 128 + more(Twist::Level129Accepted);
        let mut faults = [
            (TOO_DEEP, levels(text).len() > deepest),
            (
                NODES_FULL,
                self.nodes.len() + new.len() > self.most.nodes + more(Twist::OneNodeMore),
            ),
            (
                PAIRS_FULL,
                self.pairs + 1 > self.most.pairs + more(Twist::OnePairMore),
            ),
            (
                TEXT_FULL,
                self.cells + cells > self.most.cells + more(Twist::OneCellMore),
            ),
        ];
        match self.twist {
            Some(Twist::RoomBeforeDepth) => faults.rotate_left(1),
            Some(Twist::PairsBeforeNodes) => faults.swap(1, 2),
            _ => {}
        }
        faults
            .iter()
            .find(|(_, stands)| *stands)
            .map(|(number, _)| *number)
    }

    /// A pair more under this text.
    pub fn hold(&mut self, text: &[u8]) {
        self.pairs += 1;
        for lead in leads(text) {
            if !self.nodes.contains_key(lead) {
                self.cells += self.cells_of(lead);
            }
            *self.nodes.entry(lead.to_vec()).or_default() += 1;
        }
    }

    /// A pair less under this text.
    pub fn release(&mut self, text: &[u8]) {
        self.pairs -= 1;
        for lead in leads(text) {
            let pairs = self.nodes.get_mut(lead).expect("a held text has nodes");
            *pairs -= 1;
            if *pairs == 0 && !self.is(Twist::EmptyChainStays) {
                self.nodes.remove(lead);
                self.cells -= self.cells_of(lead);
            }
        }
    }

    /// Whether taking something from under this text is refused.
    pub fn refuses_taking(&self, text: &[u8]) -> bool {
        self.is(Twist::TakingOfDeepRefused) && levels(text).len() > 128
    }

    /// 4.7, by the reference.
    pub fn takes(&self, filter: &[u8], name: &[u8]) -> bool {
        let mutation = match self.twist {
            Some(Twist::DollarRuleDropped) => Some(Mutation::DollarRuleDropped),
            Some(Twist::DollarRuleAtEveryLevel) => Some(Mutation::DollarRuleAtEveryLevel),
            Some(Twist::BlankTakesAnyLevel) => Some(Mutation::BlankTakesAnyLevel),
            _ => None,
        };
        match mutation {
            None => HONEST.matches(filter, name) == Ok(1),
            broken => Reference { mutation: broken }.matches(filter, name) == Ok(1),
        }
    }

    /// Whether a buffer is too short for so many bytes.
    pub fn is_short(&self, buffer: usize, bytes: usize) -> bool {
        buffer + usize::from(self.is(Twist::WritesOneByteShort)) < bytes
    }
}
