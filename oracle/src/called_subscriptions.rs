//! The calls on a store of subscriptions, made on regions that may be damaged.

use crate::called::{random_of, Model, Region};
use crate::held::Held;
use crate::random::Random;
use crate::store_judge::{Store, StoreJudge};
use crate::stores::{self, Kind};

const FILTERS: &[&[u8]] = &[
    b"#",
    b"+",
    b"+/#",
    b"a",
    b"a/b",
    b"a/+",
    b"a/#",
    b"$x/#",
    b"/",
    b"b/ab/a",
    b"a+",
    b"",
    b"seventeen letters/a",
];

const NAMES: &[&[u8]] = &[
    b"a", b"a/b", b"b", b"/", b"$x/a", b"ab/a/b", b"a/a", b"!", b"", b"a/#",
];

impl Model for Held {
    const KIND: Kind = Kind::Subscriptions;

    fn of(store: &Store) -> Self {
        Held::holding(store.most, &pairs(store))
    }

    fn is_of(&self, store: &Store) -> bool {
        let pairs = pairs(store);
        let pairs = pairs.iter().map(|(filter, value)| (filter, *value));
        pairs.eq(self.all())
    }
}

/// The pairs of a filter and a value, in the order of the filters' texts.
fn pairs(store: &Store) -> Vec<(Vec<u8>, u32)> {
    let value = |held: stores::Held| match held {
        stores::Held::Value(value) => value,
        stores::Held::Record(_) => panic!("a store of subscriptions holds values"),
    };
    let held = store.held.iter();
    let mut pairs: Vec<(Vec<u8>, u32)> = held
        .map(|(path, held)| (path.join(&b'/'), value(*held)))
        .collect();
    pairs.sort();
    pairs
}

/// The calls on this region, whose store, if it is one, is known. What is wrong, where something is.
pub fn wrong(judge: &StoreJudge, region: &[u8], store: Option<&Store>) -> Option<String> {
    let random = &mut random_of(region);
    let region = Region::new(judge, region, store);
    changed(random, &region)
        .and_then(|()| asked(random, &region))
        .err()
}

/// A text of the list and a value, or a pair that is held.
fn pair(random: &mut Random, choices: &[&[u8]], held: Option<&Held>) -> (Vec<u8>, u32) {
    let value = random.below(4) as u32;
    match held.and_then(|held| held.some(random)) {
        Some(pair) if random.once_in(2) => pair,
        _ => (random.of(choices).to_vec(), value),
    }
}

/// An insertion and a removal.
fn changed(random: &mut Random, region: &Region<Held>) -> Result<(), String> {
    let (filter, value) = pair(random, FILTERS, region.held.as_ref());
    region
        .changed(
            |store| store.insert(&filter, value),
            |held| held.insert(&filter, value),
        )
        .map_err(|wrong| format!("insert {filter:02X?} {value}: {wrong}"))?;
    let (filter, value) = pair(random, FILTERS, region.held.as_ref());
    region
        .changed(
            |store| store.remove(&filter, value),
            |held| held.remove(&filter, value),
        )
        .map_err(|wrong| format!("remove {filter:02X?} {value}: {wrong}"))
}

/// A question and a listing.
fn asked(random: &mut Random, region: &Region<Held>) -> Result<(), String> {
    let (name, _) = pair(random, NAMES, region.held.as_ref());
    region
        .asked(|store| store.is_match(&name), |held| held.is_match(&name))
        .map_err(|wrong| format!("is_match {name:02X?}: {wrong}"))?;
    let records = region.expected(|held| held.listing(&name));
    region
        .listed(
            random,
            |store, out| store.listing(&name, out),
            records,
            |listed| listed,
        )
        .map_err(|wrong| format!("listing for {name:02X?}: {wrong}"))
}
