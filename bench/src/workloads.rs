//! What is held and what is asked, by workload.
//!
//! Each is made from a fixed seed.

use std::collections::BTreeSet;

use crate::random::Random;

/// Pairs in the order in which they are inserted, and names in the order in which they are asked.
pub struct Workload {
    pub name: &'static str,
    pub pairs: Vec<(String, u32)>,
    pub names: Vec<String>,
}

/// How many filters a workload holds where nothing else says it.
const FILTERS: usize = 1_000;

/// The workloads, with so many names for each.
pub fn all(names: usize) -> Vec<Workload> {
    vec![
        studio(names),
        siblings("1,000 siblings", "booth", 1_000, names),
        siblings("4,000 siblings", "booth", 4_000, names),
        siblings("4,000 siblings from '!' on", "!booth", 4_000, names),
        booths(names),
        deep(names),
        wildcards(names),
        random_names(names),
    ]
}

impl Random {
    pub fn shuffle<T>(&mut self, all: &mut [T]) {
        for last in (1..all.len()).rev() {
            all.swap(last, self.below(last + 1));
        }
    }
}

/// Inserted and asked in an order that has nothing to do with that of the texts.
fn shuffled(
    name: &'static str,
    mut random: Random,
    mut pairs: Vec<(String, u32)>,
    mut names: Vec<String>,
) -> Workload {
    random.shuffle(&mut pairs);
    random.shuffle(&mut names);
    Workload { name, pairs, names }
}

/// One value for each filter.
fn numbered(filters: impl IntoIterator<Item = String>) -> Vec<(String, u32)> {
    (0..)
        .zip(filters)
        .map(|(value, filter)| (filter, value))
        .collect()
}

/// The floors of a studio building, the rooms of a floor, the booths of a room, and the kinds.
pub const STUDIO: [usize; 4] = [4, 6, 8, 5];

/// The levels of a name in it.
pub fn in_studio([floor, room, booth, kind]: [usize; 4]) -> [String; 4] {
    let kinds = ["cue", "mute", "talk", "level", "take"];
    [
        format!("floor{floor}"),
        format!("room{room}"),
        format!("booth{booth}"),
        kinds[kind].to_string(),
    ]
}

pub fn somewhere_in_studio(random: &mut Random) -> [String; 4] {
    in_studio(STUDIO.map(|count| random.below(count)))
}

/// A studio building. Of ten filters seven are exact, two have a '+' for the room or the booth, and
/// one ends in '#' behind its floor or room. A filter has a value or two.
fn studio(names: usize) -> Workload {
    let mut random = Random(1);
    let mut pairs = BTreeSet::new();
    while pairs.len() < FILTERS {
        let mut levels = somewhere_in_studio(&mut random).to_vec();
        match random.below(10) {
            0 => {
                levels.truncate(1 + random.below(2));
                levels.push("#".into());
            }
            1 | 2 => levels[1 + random.below(2)] = "+".into(),
            _ => {}
        }
        pairs.insert((levels.join("/"), random.below(300) as u32));
    }
    let names = (0..names)
        .map(|_| somewhere_in_studio(&mut random).join("/"))
        .collect();
    shuffled(
        "studio building",
        random,
        pairs.into_iter().collect(),
        names,
    )
}

/// One row of siblings. Of ten names nine are held.
fn siblings(name: &'static str, word: &str, count: usize, names: usize) -> Workload {
    let mut random = Random(2);
    let pairs = numbered((0..count).map(|i| format!("{word}{i}")));
    let asked = |random: &mut Random| format!("{word}{}", random.below(count * 10 / 9));
    let names = (0..names).map(|_| asked(&mut random)).collect();
    shuffled(name, random, pairs, names)
}

/// What each of 400 booths has.
pub const OF_BOOTH: [&str; 3] = ["mute", "cue", "talk"];

pub fn of_booth(booth: usize) -> [String; 3] {
    OF_BOOTH.map(|kind| format!("booth{booth}/{kind}"))
}

/// 400 booths, each with mute, cue and talk.
fn booths(names: usize) -> Workload {
    let mut random = Random(3);
    let pairs = numbered((0..400).flat_map(of_booth));
    let asked = |random: &mut Random| of_booth(random.below(440))[random.below(3)].clone();
    let names = (0..names).map(|_| asked(&mut random)).collect();
    shuffled("400 booths, 3 kinds", random, pairs, names)
}

/// One line of levels, 19 to 59 of them.
fn line(random: &mut Random) -> Vec<String> {
    let depth = 19 + random.below(41);
    (0..depth).map(|i| format!("level{i}")).collect()
}

fn end(random: &mut Random) -> String {
    format!("end{}", random.below(12))
}

/// The line, left at some depth with a level of its own.
pub fn deep_levels(random: &mut Random) -> Vec<String> {
    let mut levels = line(random);
    levels.push(end(random));
    levels
}

/// 20 to 60 levels: one line of levels, which in a third of the filters has a '+' early and in a
/// third a '+' late, and filters that leave it at some depth with a level of their own, or with '#'.
fn deep(names: usize) -> Workload {
    let mut random = Random(4);
    let mut filters = BTreeSet::new();
    while filters.len() < FILTERS {
        let mut levels = line(&mut random);
        match random.below(3) {
            0 => levels[4] = "+".into(),
            1 => levels[15] = "+".into(),
            _ => {}
        }
        levels.push(match random.once_in(20) {
            true => "#".into(),
            false => end(&mut random),
        });
        filters.insert(levels.join("/"));
    }
    let names = (0..names)
        .map(|_| deep_levels(&mut random).join("/"))
        .collect();
    shuffled("20 to 60 levels", random, numbered(filters), names)
}

/// Five levels, each '+' or one of four words: at nearly every node the walk goes two ways.
fn wildcards(names: usize) -> Workload {
    let mut random = Random(5);
    let words = ["red", "green", "blue", "amber"];
    let mut filters = BTreeSet::new();
    while filters.len() < FILTERS {
        let level = |random: &mut Random| match random.below(2) {
            0 => "+",
            _ => random.of(&words),
        };
        let levels = [0; 5].map(|_| level(&mut random));
        filters.insert(levels.join("/"));
    }
    let asked = |random: &mut Random| [0; 5].map(|_| random.of(&words)).join("/");
    let names = (0..names).map(|_| asked(&mut random)).collect();
    shuffled("wildcard-heavy", random, numbered(filters), names)
}

/// One to five levels of one to twelve random letters. Some levels of a filter become '+', some
/// ends '#'. Half of the names are those of which the filters were made.
fn random_names(names: usize) -> Workload {
    let mut random = Random(6);
    let mut made = Vec::new();
    let mut filters = BTreeSet::new();
    while filters.len() < FILTERS {
        let name = random_levels(&mut random);
        let mut levels = name.clone();
        for level in &mut levels {
            if random.once_in(6) {
                *level = "+".into();
            }
        }
        if random.once_in(8) {
            levels.push("#".into());
        }
        if filters.insert(levels.join("/")) {
            made.push(name.join("/"));
        }
    }
    let asked = |random: &mut Random| match random.below(2) {
        0 => made[random.below(made.len())].clone(),
        _ => random_levels(random).join("/"),
    };
    let names = (0..names).map(|_| asked(&mut random)).collect();
    shuffled("random names", random, numbered(filters), names)
}

fn random_levels(random: &mut Random) -> Vec<String> {
    let letter = |random: &mut Random| char::from(b'a' + random.below(26) as u8);
    (0..1 + random.below(5))
        .map(|_| (0..1 + random.below(12)).map(|_| letter(random)).collect())
        .collect()
}
