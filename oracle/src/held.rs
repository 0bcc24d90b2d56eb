//! What a store of subscriptions holds, by document 01 alone: a set of pairs, listed the plain way.
//!
//! Where a twist is named, that one rule is broken on purpose.

use std::cmp::Ordering;
use std::collections::{BTreeMap, BTreeSet};

use crate::answers::number::*;
use crate::answers::{refused, Answer, TopicCalls};
use crate::buffers;
use crate::random::Random;
use crate::reference::HONEST;
use crate::room::Room;
use crate::stores::Counts;
use crate::texts::levels;
use crate::twists::Twist;

/// A filter with its values.
pub type Record = (Vec<u8>, Vec<u32>);

#[derive(Clone)]
pub struct Held {
    room: Room,
    values: BTreeMap<Vec<u8>, BTreeSet<u32>>,
}

impl Held {
    pub fn new(most: Counts, twist: Option<Twist>) -> Self {
        Held {
            room: Room::new(most, twist),
            values: BTreeMap::new(),
        }
    }

    /// What holds these pairs.
    pub fn holding(most: Counts, pairs: &[(Vec<u8>, u32)]) -> Self {
        let mut held = Held::new(most, None);
        pairs
            .iter()
            .for_each(|(filter, value)| held.hold(filter, *value));
        held
    }

    pub fn room(&self) -> &Room {
        &self.room
    }

    fn is(&self, twist: Twist) -> bool {
        self.room.is(twist)
    }

    fn is_held(&self, filter: &[u8], value: u32) -> bool {
        let values = self.values.get(filter);
        values.is_some_and(|values| values.contains(&value))
    }

    /// One of the pairs; none where nothing is held.
    pub fn some(&self, random: &mut Random) -> Option<(Vec<u8>, u32)> {
        let (filter, value) = self.all().nth(random.below(self.room.pairs().max(1)))?;
        Some((filter.clone(), value))
    }

    /// All pairs, in the order of the filters' texts.
    pub fn all(&self) -> impl Iterator<Item = (&Vec<u8>, u32)> {
        let of_filter = |(filter, values): (_, &BTreeSet<u32>)| {
            let pairs: Vec<_> = values.iter().map(|value| (filter, *value)).collect();
            pairs
        };
        self.values.iter().flat_map(of_filter)
    }

    /// Nodes and values, as the two calls tell them.
    pub fn sizes(&self) -> [Answer; 2] {
        let made_up = usize::from(self.is(Twist::NodesMadeUp));
        [self.room.nodes() + made_up, self.room.pairs()].map(|count| Ok(count as u64))
    }

    pub fn insert(&mut self, filter: &[u8], value: u32) -> Answer {
        HONEST.is_valid_topic_filter(filter)?;
        let held = self.is_held(filter, value);
        if held && !self.is(Twist::HeldRefusedWhenFull) {
            return Ok(0);
        }
        if self.is(Twist::InsertOnlyIntoEmpty) && !self.values.is_empty() {
            return refused(PAIRS_FULL);
        }
        match self.room.fault(filter) {
            Some(number) => return refused(number),
            None if held => return Ok(0),
            None if self.is(Twist::InsertDoesNothing) => return Ok(1),
            None => self.hold(filter, value),
        }
        Ok(1)
    }

    fn hold(&mut self, filter: &[u8], value: u32) {
        let values = self.values.entry(filter.to_vec()).or_default();
        values.insert(value);
        self.room.hold(filter);
    }

    pub fn remove(&mut self, filter: &[u8], value: u32) -> Answer {
        HONEST.is_valid_topic_filter(filter)?;
        if self.room.refuses_taking(filter) {
            return refused(TOO_DEEP);
        }
        if !self.is_held(filter, value) {
            return Ok(0);
        }
        let values = self.values.get_mut(filter).expect("it is held");
        values.remove(&value);
        if values.is_empty() {
            self.values.remove(filter);
        }
        self.room.release(filter);
        Ok(1)
    }

    /// The order of two filters at their first difference.
    fn order(&self, one: &[u8], other: &[u8]) -> Ordering {
        let (one, other) = (levels(one), levels(other));
        let same = one.iter().zip(&other).take_while(|(a, b)| a == b).count();
        let rank = |levels: &[&[u8]]| match levels.get(same) {
            None if self.is(Twist::EndAfterHash) => 4,
            None => 0,
            Some(&b"#") if self.is(Twist::PlusBeforeHash) => 3,
            Some(&b"#") => 1,
            Some(&b"+") => 2,
            Some(_) => 5,
        };
        rank(&one).cmp(&rank(&other))
    }

    pub fn is_match(&self, name: &[u8]) -> Answer {
        HONEST.is_valid_topic_name(name)?;
        let mut filters = self.values.keys();
        Ok(u64::from(
            filters.any(|filter| self.room.takes(filter, name)),
        ))
    }

    /// The listing for a name, or what the name is refused for.
    pub fn listing(&self, name: &[u8]) -> Answer<Vec<Record>> {
        HONEST.is_valid_topic_name(name)?;
        if self.is(Twist::AlwaysEmpty) {
            return Ok(Vec::new());
        }
        let taken = self.values.iter();
        let taken = taken.filter(|(filter, _)| self.room.takes(filter, name));
        let mut records: Vec<Record> = taken
            .map(|(filter, values)| (filter.clone(), values.iter().copied().collect()))
            .collect();
        records.sort_by(|(one, _), (other, _)| self.order(one, other));
        if self.is(Twist::ValuesDescend) {
            records.iter_mut().for_each(|(_, values)| values.reverse());
        }
        if self.is(Twist::ParentListedTwice) {
            let parent = [name, b"/#"].concat();
            let again: Vec<_> = records
                .iter()
                .filter(|(filter, _)| *filter == parent)
                .cloned()
                .collect();
            records.extend(again);
        }
        Ok(records)
    }
}

impl buffers::Record for Record {
    const MARK: [u8; 2] = [0x46, 0x4D];

    fn text(&self) -> &[u8] {
        &self.0
    }

    fn write_rest(&self, out: &mut Vec<u8>) {
        let values = &self.1;
        out.extend((values.len() as u16).to_be_bytes());
        values
            .iter()
            .for_each(|value| out.extend(value.to_be_bytes()));
    }
}
