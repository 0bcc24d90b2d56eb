//! The calls on a store of retained names, made on regions that may be damaged.

use crate::called::{random_of, Model, Region};
use crate::named::Named;
use crate::random::Random;
use crate::retained::Paged;
use crate::store_judge::{Store, StoreJudge};
use crate::stores::{Held, Kind, Stored};

const NAMES: &[&[u8]] = &[
    b"a",
    b"a/b",
    b"b",
    b"/",
    b"$x/a",
    b"ab/a/b",
    b"!",
    b"",
    b"a/#",
    b"seventeen letters/a",
];

const FILTERS: &[&[u8]] = &[
    b"#", b"+", b"+/#", b"a", b"a/+", b"a/#", b"$x/#", b"/", b"+/+/+", b"a+", b"",
];

const CLOCKS: &[u64] = &[0, 1, 257, 258, 259, 1_000, u64::MAX];

impl Model for Named {
    const KIND: Kind = Kind::Retained;

    fn of(store: &Store) -> Self {
        Named::holding(store.most, &names(store))
    }

    fn is_of(&self, store: &Store) -> bool {
        names(store).into_iter().eq(self.all())
    }
}

/// The names with their records, in the order of the levels.
fn names(store: &Store) -> Vec<(Vec<u8>, Stored)> {
    let stored = |held: Held| match held {
        Held::Record(stored) => stored,
        Held::Value(_) => panic!("a store of names holds records"),
    };
    let held = store.held.iter();
    held.map(|(path, held)| (path.join(&b'/'), stored(*held)))
        .collect()
}

/// The calls on this region, whose store, if it is one, is known. What is wrong, where something is.
pub fn wrong(judge: &StoreJudge, region: &[u8], store: Option<&Store>) -> Option<String> {
    let random = &mut random_of(region);
    let region = Region::new(judge, region, store);
    changed(random, &region)
        .and_then(|()| looked_up(random, &region))
        .and_then(|()| paged(random, &region))
        .err()
}

/// A name of the list, or one that is held.
fn name(random: &mut Random, named: Option<&Named>) -> Vec<u8> {
    match named.and_then(|named| named.some(random)) {
        Some((name, _)) if random.once_in(2) => name,
        _ => random.of(NAMES).to_vec(),
    }
}

/// A record set, a name erased, and a sweep.
fn changed(random: &mut Random, region: &Region<Named>) -> Result<(), String> {
    let stored = Stored {
        handle: random.next() as u32,
        moment: random.once_in(2).then(|| random.of(CLOCKS)),
    };
    for payload in [3, 0] {
        let name = name(random, region.held.as_ref());
        region
            .changed(
                |store| store.set(&name, payload, stored),
                |named| named.set(&name, payload, stored, 0),
            )
            .map_err(|wrong| format!("payload {payload} for {name:02X?}: {wrong}"))?;
    }
    let clock = random.of(CLOCKS);
    region
        .changed(|store| store.sweep(clock), |named| named.sweep(clock))
        .map_err(|wrong| format!("sweep at {clock}: {wrong}"))
}

fn looked_up(random: &mut Random, region: &Region<Named>) -> Result<(), String> {
    let (filter, clock) = (random.of(FILTERS), random.of(CLOCKS));
    let records = region.expected(|named| named.lookup(filter, clock));
    region
        .listed(
            random,
            |store, out| store.lookup(filter, clock, out),
            records,
            |listed| listed,
        )
        .map_err(|wrong| format!("lookup of {filter:02X?} at {clock}: {wrong}"))
}

fn paged(random: &mut Random, region: &Region<Named>) -> Result<(), String> {
    let clock = random.of(CLOCKS);
    let (offset, limit) = (
        random.of(&[0, 0, 1, 2, u64::MAX]),
        random.of(&[0, 1, 2, u64::MAX]),
    );
    let page = region.expected(|named| Ok(named.page(clock, offset, limit)));
    let more = page.as_ref().map_or(0, |(_, more)| u64::from(*more));
    region
        .listed(
            random,
            |store, out| store.page(clock, offset, limit, out),
            page.map(|(records, _)| records),
            |listed| Paged { listed, more },
        )
        .map_err(|wrong| format!("page {offset} {limit} at {clock}: {wrong}"))
}
