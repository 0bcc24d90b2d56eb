//! The stages that damage regions: what the library says of each must be what the judge says, and
//! no call may write where it has no business.

use std::time::Instant;

use crate::answers::number::{BAD_SIZE, NOT_A_STORE};
use crate::answers::{refused, Answer};
use crate::called_names;
use crate::called_subscriptions;
use crate::damaged::{self, Damaged};
use crate::random::Random;
use crate::regions::{self, Counted};
use crate::store_judge::{Store, StoreJudge};
use crate::stores::{self, Counts, Kind, Node};
use crate::Totals;

/// How many stores are made and how many regions are damaged.
pub struct Effort {
    whole: usize,
    byte_by_byte: usize,
    at_random: usize,
    opened: usize,
}

/// The run of the gate.
pub const GATE: Effort = Effort {
    whole: 20_000,
    byte_by_byte: 100,
    at_random: 400_000,
    opened: 20_000,
};

/// A small part of it, for trying judges that leave something out.
const QUICK: Effort = Effort {
    whole: 200,
    byte_by_byte: 10,
    at_random: 10_000,
    opened: 200,
};

/// The judge that judges.
pub const HONEST: StoreJudge = StoreJudge { left_out: None };

/// What a region is, by both.
#[derive(Clone, Copy, PartialEq, Eq)]
enum Found {
    NoStore,
    Store,
    /// A store, and not the one that it was before the damage.
    OtherStore,
}

/// What the region asked about is, or what is wrong with the answers.
type Case = Result<Found, String>;

/// A stage: its name and its cases, each found out when it is asked for.
type Stage<'j> = (&'static str, Box<dyn Iterator<Item = Case> + 'j>);

pub fn run(effort: &Effort, seed: u64) -> Totals {
    let stages = stages(&HONEST, effort, seed);
    stages.into_iter().fold(Totals::default(), |totals, stage| {
        totals.and(run_stage(stage, seed))
    })
}

fn run_stage((name, cases): Stage, seed: u64) -> Totals {
    let started = Instant::now();
    let mut totals = Totals::default();
    let (mut stores, mut others, mut first) = (0, 0, None);
    for case in cases {
        match case {
            Ok(found) => {
                totals.passed += 1;
                stores += u64::from(found != Found::NoStore);
                others += u64::from(found == Found::OtherStore);
            }
            Err(wrong) => {
                totals.failed += 1;
                first = first.or(Some(wrong));
            }
        }
    }
    let (cases, failed) = (totals.passed + totals.failed, totals.failed);
    let seconds = started.elapsed().as_secs_f64();
    println!("{name}: {cases} cases ({stores} stores, {others} changed ones), {seconds:.2} s");
    if let Some(first) = first {
        println!("  wrong in {failed} cases, first with seed {seed}: {first}");
    }
    totals
}

/// The cases of a small run.
fn quick(judge: &StoreJudge, seed: u64) -> impl Iterator<Item = Case> + '_ {
    let stages = stages(judge, &QUICK, seed).into_iter();
    stages.flat_map(|(_, cases)| cases)
}

/// The first difference from a judge that a small run sees.
pub fn first_difference(judge: &StoreJudge, seed: u64) -> Option<String> {
    quick(judge, seed).find_map(Case::err)
}

/// Whether some damage of a small run leaves a store, and not the one that it was.
pub fn leaves_other_stores(seed: u64) -> bool {
    quick(&HONEST, seed).any(|case| case == Ok(Found::OtherStore))
}

fn stages<'j>(judge: &'j StoreJudge, effort: &Effort, seed: u64) -> Vec<Stage<'j>> {
    let whole = damaged::whole(seed, effort.whole)
        .map(|(made, region)| known(judge, &region, (made.kind, made.used)));
    let edges = damaged::edges().map(|region| compared(judge, &region, None));
    let compare = |one: Damaged| compared(judge, &one.region, Some(&one.was));
    let bytes = damaged::byte_by_byte(seed, effort.byte_by_byte).map(compare);
    let at_random = damaged::at_random(seed, effort.at_random).map(compare);
    let opened = openings(judge, seed, effort.opened);
    vec![
        ("stores as they should be", Box::new(whole)),
        ("bounds of a store", Box::new(edges)),
        ("each byte of small stores", Box::new(bytes)),
        ("regions damaged at random", Box::new(at_random)),
        ("regions opened", Box::new(opened)),
    ]
}

/// What is wrong, with the region in hex.
fn wrong(what: &str, region: &[u8]) -> String {
    let hex: String = region.iter().map(|byte| format!("{byte:02X}")).collect();
    format!("{what}; region {hex}")
}

/// What the calls should answer about a region: counts where it is a store of the kind, else 11.
fn expected(subscriptions: Option<Counts>, retained: Option<Counts>) -> Counted {
    let told = |count: Option<usize>| -> Answer {
        count.map_or(refused(NOT_A_STORE), |count| Ok(count as u64))
    };
    Counted {
        nodes_size: told(subscriptions.map(|used| used.nodes)),
        values_size: told(subscriptions.map(|used| used.pairs)),
        count: told(retained.map(|used| used.pairs)),
    }
}

/// The library's answers about a region beside those of the judge. `was` are the nodes before the
/// damage.
fn compared(judge: &StoreJudge, region: &[u8], was: Option<&[Node]>) -> Case {
    let subscriptions = judge.store(Kind::Subscriptions, region);
    let retained = judge.store(Kind::Retained, region);
    let used = |store: &Option<Store>| store.as_ref().map(|store| store.used);
    agree(region, expected(used(&subscriptions), used(&retained)))?;
    let what = called_subscriptions::wrong(judge, region, subscriptions.as_ref())
        .or_else(|| called_names::wrong(judge, region, retained.as_ref()));
    if let Some(what) = what {
        return Err(wrong(&what, region));
    }
    Ok(match subscriptions.or(retained) {
        None => Found::NoStore,
        Some(store) if was.is_some_and(|was| was != store.row) => Found::OtherStore,
        Some(_) => Found::Store,
    })
}

fn agree(region: &[u8], expected: Counted) -> Result<(), String> {
    let Some(found) = regions::counted(region) else {
        return Err(wrong("a call that counts wrote bytes", region));
    };
    if found == expected {
        return Ok(());
    }
    let what = format!("library {found}, judge {expected}");
    Err(wrong(&what, region))
}

/// The same for a region that is known to be a store of this kind with these counts in use.
fn known(judge: &StoreJudge, region: &[u8], (kind, used): (Kind, Counts)) -> Case {
    let by_kind = |of: Kind| (of == kind).then_some(used);
    agree(
        region,
        expected(by_kind(Kind::Subscriptions), by_kind(Kind::Retained)),
    )?;
    match compared(judge, region, None)? {
        Found::NoStore => Err(wrong("the judge refuses a store", region)),
        found => Ok(found),
    }
}

/// Regions of all lengths about the one needed, opened with capacities in range and out of it.
fn openings(judge: &StoreJudge, seed: u64, count: usize) -> impl Iterator<Item = Case> + '_ {
    let mut random = Random(seed);
    (0..count).map(move |_| {
        let kind = random.of(&[Kind::Subscriptions, Kind::Retained]);
        let mut capacity = |last: usize| match random.below(40) {
            0 => 0,
            1 => last,
            2 => last + 1,
            3 => random.next() as usize,
            _ => 1 + random.below(5),
        };
        let most = Counts {
            nodes: capacity(4096),
            pairs: capacity(8192),
            cells: capacity(8192),
        };
        let needed = needed(most).unwrap_or(400);
        let by = random.of(&[0, 1, 17, 100]);
        let length = match random.once_in(2) {
            true => needed + by,
            false => needed.saturating_sub(by),
        };
        let region: Vec<u8> = (0..length).map(|_| random.next() as u8).collect();
        opened(judge, kind, most, &region)
    })
}

/// The bytes needed, where the capacities are in range.
fn needed(most: Counts) -> Option<usize> {
    most.are_in_range().then(|| most.needed())
}

/// Opens a region: a store that holds nothing, with the same bytes behind its header; or refused
/// 10, with all bytes as they were.
fn opened(judge: &StoreJudge, kind: Kind, most: Counts, region: &[u8]) -> Case {
    let refused = refused(BAD_SIZE);
    let none = stores::counts(&[]);
    let needed = needed(most);
    let found = regions::needed(most);
    if found != needed.map_or(refused, |bytes| Ok(bytes as u64)) {
        return Err(format!("the bytes needed for {most:?}: {found:?}"));
    }
    let Some((answer, after)) = regions::opened(kind, region, most) else {
        return Err(wrong("opening wrote beside the region", region));
    };
    let fits = needed.is_some_and(|bytes| bytes <= region.len());
    let mut expected = region.to_vec();
    if fits {
        expected[..18].copy_from_slice(&stores::header(kind, most, none, 0));
    }
    if answer != if fits { Ok(0) } else { refused } || after != expected {
        let what = format!("opened as {kind:?} with {most:?}: {answer:?}");
        return Err(wrong(&what, &after));
    }
    match fits {
        true => known(judge, &after, (kind, none)),
        false => compared(judge, &after, None),
    }
}
