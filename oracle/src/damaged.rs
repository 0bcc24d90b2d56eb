//! Damaged regions: every byte of small stores in turn, and larger stores damaged at random.

use std::rc::Rc;

use crate::made_stores::{self, Made};
use crate::random::Random;
use crate::stores::{self, Counts, Held, Kind, Node, Path, Stored, HEADER, UNIT};

/// A region, and the nodes of the store that it was before the damage.
pub struct Damaged {
    pub region: Vec<u8>,
    pub was: Rc<Vec<Node>>,
}

/// What stands where no call reads.
const FILLERS: &[u8] = &[0, 1, 0x5A, 0xFF];

const KINDS: &[Kind] = &[Kind::Subscriptions, Kind::Retained];

/// A store made at random, as a region; now and then longer than it needs to be.
fn region_of(random: &mut Random, made: &Made) -> Option<Vec<u8>> {
    let mut region = made.region(random.of(FILLERS))?;
    if random.once_in(3) {
        let behind = random.of(&[1, UNIT, UNIT + 1, 48]);
        region.resize(region.len() + behind, random.of(FILLERS));
    }
    Some(region)
}

/// Stores as they should be, with what each is known to hold.
pub fn whole(seed: u64, count: usize) -> impl Iterator<Item = (Made, Vec<u8>)> {
    let mut random = Random(seed);
    (0..count).filter_map(move |_| {
        let kind = random.of(KINDS);
        let (size, depth) = random.of(&[(0, 1), (3, 2), (12, 4), (40, 3)]);
        let made = made_stores::store(&mut random, kind, size, depth);
        let region = region_of(&mut random, &made)?;
        Some((made, region))
    })
}

/// Each byte of small stores in turn, replaced by several others.
pub fn byte_by_byte(seed: u64, stores: usize) -> impl Iterator<Item = Damaged> {
    let mut random = Random(seed);
    (0..stores).flat_map(move |k| {
        let made = made_stores::store(&mut random, KINDS[k % 2], 1 + k % 5, 3);
        let region = region_of(&mut random, &made).unwrap_or_default();
        let was = Rc::new(made.row);
        (0..region.len()).flat_map(move |at| {
            let (region, was) = (region.clone(), was.clone());
            others(region[at]).map(move |new| {
                let (mut region, was) = (region.clone(), was.clone());
                region[at] = new;
                Damaged { region, was }
            })
        })
    })
}

/// The bytes that one byte is replaced by.
fn others(old: u8) -> impl Iterator<Item = u8> {
    let others = [0, 1, 255, old ^ 1, old ^ 128, old.wrapping_add(1)];
    others.into_iter().filter(move |new| *new != old)
}

/// Larger stores, each damaged in one of many ways.
pub fn at_random(seed: u64, count: usize) -> impl Iterator<Item = Damaged> {
    const OF_ONE_STORE: usize = 16;
    let mut random = Random(seed);
    let stores = count.div_ceil(OF_ONE_STORE);
    (0..stores).flat_map(move |_| {
        let kind = random.of(KINDS);
        let (size, depth) = random.of(&[(1, 1), (4, 2), (8, 3), (8, 4), (16, 4)]);
        let made = made_stores::store(&mut random, kind, size, depth);
        let was = Rc::new(made.row.clone());
        let damaged: Vec<Damaged> = (0..OF_ONE_STORE)
            .filter_map(|_| {
                let (region, was) = (damaged_once(&mut random, &made)?, was.clone());
                Some(Damaged { region, was })
            })
            .collect();
        damaged
    })
}

/// A store with its tree damaged, or its capacities, or its bytes.
fn damaged_once(random: &mut Random, made: &Made) -> Option<Vec<u8>> {
    let mut other = Made {
        row: made.row.clone(),
        ..*made
    };
    match random.below(10) {
        0..=2 => made_stores::broken(random, &mut other),
        3 => made_stores::tight(random, &mut other),
        _ => {
            let mut region = region_of(random, made)?;
            damage(random, made, &mut region);
            return Some(region);
        }
    }
    region_of(random, &other)
}

/// A place in the region: mostly in the units in use, often in the header or the marks.
fn place(random: &mut Random, made: &Made, len: usize) -> usize {
    let used = stores::units(&made.row).max(1);
    match random.below(10) {
        0 | 1 => random.below(18),
        2 => HEADER + random.below(used),
        3 => random.below(len),
        _ => HEADER + made.most.sum() + random.below(used * UNIT),
    }
}

/// Damages the bytes of a region.
fn damage(random: &mut Random, made: &Made, region: &mut Vec<u8>) {
    let used = stores::units(&made.row).max(1);
    let units = HEADER + made.most.sum();
    match random.below(9) {
        0..=2 => {
            for _ in 0..1 + random.below(4) {
                let at = place(random, made, region.len());
                region[at] = random.next() as u8;
            }
        }
        3 => {
            let (from, to) = (random.below(used), random.below(used));
            let from = units + from * UNIT;
            region.copy_within(from..from + UNIT, units + to * UNIT);
        }
        4 => {
            let at = 4 + random.below(14);
            region[at] = region[at].wrapping_add(random.of(&[1, 2, 254, 255]));
        }
        5 => {
            let at = 4 + 2 * random.below(7);
            region[at..at + 2].copy_from_slice(&[0, random.below(4) as u8]);
        }
        6 => {
            let most = random.of(&[1, UNIT + 1, region.len()]);
            region.truncate(region.len() - 1 - random.below(most));
        }
        7 => region[2] = 3 - region[2],
        _ => {
            let from = random.of(&[0, 4, HEADER, units]);
            region[from..]
                .iter_mut()
                .for_each(|byte| *byte = random.next() as u8);
        }
    }
}

/// One path, held alone, with capacities for just that.
fn alone(kind: Kind, path: &Path) -> Made {
    let own = match kind {
        Kind::Subscriptions => Held::Value(7),
        Kind::Retained => Held::Record(Stored {
            handle: 7,
            moment: None,
        }),
    };
    let mut row = Vec::new();
    stores::hold(&mut row, path, own);
    let used = stores::counts(&row);
    let most = used;
    Made {
        kind,
        most,
        used,
        row,
    }
}

/// A store of these capacities that holds nothing.
fn empty(kind: Kind, (nodes, pairs, cells): (usize, usize, usize)) -> Made {
    Made {
        kind,
        most: Counts {
            nodes,
            pairs,
            cells,
        },
        used: stores::counts(&[]),
        row: Vec::new(),
    }
}

/// Stores just within the bounds, and regions just past them: the depth and the length of a text,
/// and the capacities.
pub fn edges() -> impl Iterator<Item = Vec<u8>> {
    let level = |len: usize| vec![b'a'; len];
    let deep = [127, 128, 129, 130, 254, 255, 256, 257].map(|depth| vec![level(1); depth]);
    let long = [
        vec![level(65_535)],
        vec![level(32_767), level(32_767)],
        vec![level(32_767), level(32_768)],
        vec![level(511); 128],
        [vec![level(511); 127], vec![level(512)]].concat(),
    ];
    let paths: Vec<Path> = deep.into_iter().chain(long).collect();
    let capacities = [
        (4096, 8192, 8192),
        (4097, 1, 1),
        (1, 8193, 1),
        (1, 1, 8193),
        (0, 1, 1),
        (1, 0, 1),
        (1, 1, 0),
    ];
    KINDS.iter().flat_map(move |kind| {
        let alone = paths.iter().map(|path| alone(*kind, path));
        let empty = capacities.iter().map(|most| empty(*kind, *most));
        let regions: Vec<Vec<u8>> = alone
            .chain(empty)
            .filter_map(|made| made.region(0))
            .collect();
        regions
    })
}
