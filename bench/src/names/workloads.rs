//! The names that are held and the filters that are looked up, by workload.
//!
//! Each is made from a fixed seed.

use std::collections::BTreeSet;

use crate::random::Random;
use crate::workloads::{deep_levels, in_studio, of_booth, somewhere_in_studio, OF_BOOTH, STUDIO};

/// What a lookup's filter has in it.
pub const FORMS: [&str; 3] = ["exact", "with '+'", "with '#'"];

/// Names in the order in which they are set, and for each form the filters in the order in which
/// they are looked up.
pub struct Workload {
    pub name: &'static str,
    pub names: Vec<String>,
    pub filters: [Vec<String>; 3],
}

/// A lookup with a wildcard takes up to all of the names, so that fewer will do.
const WIDE_ONCE_IN: usize = 40;
const WIDE_AT_LEAST: usize = 10;

/// The workloads, with so many exact filters for each.
pub fn all(filters: usize) -> Vec<Workload> {
    vec![
        studio(filters),
        siblings("1,000 siblings", 1_000, filters),
        siblings("4,000 siblings", 4_000, filters),
        booths(filters),
        deep(filters),
    ]
}

/// A filter of a form, which is a place in `FORMS`.
type Filter<'a> = &'a dyn Fn(&mut Random, usize) -> String;

/// Set in an order that has nothing to do with that of the texts.
fn made(
    name: &'static str,
    mut random: Random,
    mut names: Vec<String>,
    exact: usize,
    filter: Filter,
) -> Workload {
    random.shuffle(&mut names);
    let wide = (exact / WIDE_ONCE_IN).max(WIDE_AT_LEAST);
    let mut of_form = |form: usize, count: usize| -> Vec<String> {
        (0..count).map(|_| filter(&mut random, form)).collect()
    };
    let filters = [of_form(0, exact), of_form(1, wide), of_form(2, wide)];
    Workload {
        name,
        names,
        filters,
    }
}

/// A studio building: every kind of every booth. A '+' stands for the room or the booth, a '#'
/// behind the floor or the room.
fn studio(filters: usize) -> Workload {
    let [_, rooms, booths, kinds] = STUDIO;
    let name = |place: usize| {
        let (booth, kind) = (place / kinds, place % kinds);
        let (room, booth) = (booth / booths, booth % booths);
        in_studio([room / rooms, room % rooms, booth, kind]).join("/")
    };
    let names = (0..STUDIO.iter().product()).map(name).collect();
    let filter = |random: &mut Random, form: usize| {
        let mut levels = somewhere_in_studio(random).to_vec();
        match form {
            0 => {}
            1 => levels[1 + random.below(2)] = "+".into(),
            _ => {
                levels.truncate(1 + random.below(2));
                levels.push("#".into());
            }
        }
        levels.join("/")
    };
    made("studio building", Random(11), names, filters, &filter)
}

/// One row of siblings. Of ten exact filters nine are held; '+' and '#' take all.
fn siblings(name: &'static str, count: usize, filters: usize) -> Workload {
    let names = (0..count).map(|i| format!("booth{i}")).collect();
    let filter = |random: &mut Random, form: usize| match form {
        0 => format!("booth{}", random.below(count * 10 / 9)),
        1 => "+".into(),
        _ => "#".into(),
    };
    made(name, Random(12), names, filters, &filter)
}

/// 400 booths, each with mute, cue and talk. Of ten filters with a wildcard nine name a booth, and
/// one takes a kind of all booths, or all names.
fn booths(filters: usize) -> Workload {
    let filter = |random: &mut Random, form: usize| {
        let (booth, kind) = (random.below(440), random.of(&OF_BOOTH));
        match (form, random.once_in(10)) {
            (0, _) => format!("booth{booth}/{kind}"),
            (1, false) => format!("booth{booth}/+"),
            (1, true) => format!("+/{kind}"),
            (_, false) => format!("booth{booth}/#"),
            (_, true) => "#".into(),
        }
    };
    made(
        "400 booths, 3 kinds",
        Random(13),
        (0..400).flat_map(of_booth).collect(),
        filters,
        &filter,
    )
}

/// 20 to 60 levels: names that leave one line of levels at some depth with a level of their own. A
/// '+' stands early or late, a '#' behind some of the line.
fn deep(filters: usize) -> Workload {
    let mut random = Random(14);
    let mut names = BTreeSet::new();
    while names.len() < 400 {
        names.insert(deep_levels(&mut random).join("/"));
    }
    let filter = |random: &mut Random, form: usize| {
        let mut levels = deep_levels(random);
        match form {
            0 => {}
            1 => levels[[4, 15][random.below(2)]] = "+".into(),
            _ => {
                levels.pop();
                levels.push("#".into());
            }
        }
        levels.join("/")
    };
    made(
        "20 to 60 levels",
        random,
        names.into_iter().collect(),
        filters,
        &filter,
    )
}
