//! Histories of calls on a store of one kind: how they are made, judged, counted, and made small
//! where one shows a difference.

use std::fmt::Debug;
use std::time::Instant;

use crate::random::Random;
use crate::stores::Counts;
use crate::texts::{self, FAULTY};
use crate::twists::Twist;
use crate::Totals;

/// How the histories of a stage are made.
pub struct Stage {
    name: &'static str,
    histories: usize,
    calls: usize,
    /// Capacities are up to these.
    most: Counts,
    pub texts: fn(&mut Random) -> Vec<u8>,
    /// So many values, or handles, are common.
    pub values: u32,
    /// The counts are asked once in so many calls.
    counts_once_in: usize,
}

const fn counts(nodes: usize, pairs: usize, cells: usize) -> Counts {
    Counts {
        nodes,
        pairs,
        cells,
    }
}

/// The stages of the gate. A self-test takes a part of each.
const STAGES: [Stage; 6] = [
    Stage {
        name: "histories of tiny stores",
        histories: 16_000,
        calls: 60,
        most: counts(7, 7, 4),
        texts: texts::small_text,
        values: 3,
        counts_once_in: 4,
    },
    Stage {
        name: "histories of small stores",
        histories: 10_000,
        calls: 120,
        most: counts(60, 60, 30),
        texts: texts::small_text,
        values: 4,
        counts_once_in: 8,
    },
    Stage {
        name: "histories with deep filters",
        histories: 400,
        calls: 60,
        most: counts(600, 20, 600),
        texts: texts::deep_text,
        values: 2,
        counts_once_in: 8,
    },
    Stage {
        name: "histories of a studio building",
        histories: 60,
        calls: 1_000,
        most: counts(700, 900, 700),
        texts: texts::studio_text,
        values: 6,
        counts_once_in: 64,
    },
    Stage {
        name: "histories with wide rows",
        histories: 6,
        calls: 3_000,
        most: counts(2_500, 3_000, 2_500),
        texts: texts::wide_text,
        values: 2,
        counts_once_in: 256,
    },
    Stage {
        name: "histories of the largest stores",
        histories: 2,
        calls: 6_000,
        most: counts(4_096, 8_192, 8_192),
        texts: texts::wide_text,
        values: 9,
        counts_once_in: 512,
    },
];

/// A buffer is longer than what is asked for by one of these, or shorter.
pub const BUFFERS: [i64; 10] = [0, 0, 0, 1, 9, 300, -1, -1, -2, -5_000];

/// What a call counts as: a change, a question, or neither.
pub enum Counted {
    Change,
    Question,
    Count,
}

/// A store of one kind, what it should hold, and the Rust.
pub trait Trial: Sized {
    const KIND: &'static str;
    /// The call that asks for the counts.
    const COUNTS: Self::Call;
    type Call: Clone + Debug;

    fn new(most: Counts, twist: Option<Twist>) -> Self;

    /// The next call: on what is held, or on this text.
    fn next(&self, random: &mut Random, stage: &Stage, text: Vec<u8>) -> Self::Call;

    /// Makes a call and judges it.
    fn make(&mut self, call: &Self::Call) -> Result<(), String>;

    fn counted(call: &Self::Call) -> Counted;
}

/// The calls of a stage by kind.
#[derive(Default)]
struct Tally {
    changes: u64,
    questions: u64,
}

/// A random capacity: often just so many, often a few.
fn capacities(random: &mut Random, most: Counts) -> Counts {
    let mut some = |most: usize| match random.once_in(3) {
        true => most,
        false => 1 + random.below(most),
    };
    counts(some(most.nodes), some(most.pairs), some(most.cells))
}

/// The first difference that these calls show, and how many of them it took.
fn replay<T: Trial>(
    most: Counts,
    twist: Option<Twist>,
    calls: &[T::Call],
) -> Option<(usize, String)> {
    let mut trial = T::new(most, twist);
    let mut made = calls.iter().enumerate();
    made.find_map(|(at, call)| trial.make(call).err().map(|wrong| (at + 1, wrong)))
}

/// A history that shows a difference, with calls left out that are not needed.
fn shrunk<T: Trial>(
    most: Counts,
    twist: Option<Twist>,
    mut calls: Vec<T::Call>,
) -> (Vec<T::Call>, String) {
    let first = replay::<T>(most, twist, &calls);
    let (made, mut wrong) = first.expect("the history shows a difference");
    calls.truncate(made);
    let mut at = calls.len().saturating_sub(1);
    while at > 0 {
        at -= 1;
        let mut fewer = calls.clone();
        fewer.remove(at);
        if let Some((made, other)) = replay::<T>(most, twist, &fewer) {
            fewer.truncate(made);
            at = at.min(fewer.len());
            (calls, wrong) = (fewer, other);
        }
    }
    (calls, wrong)
}

/// One history. Its calls so far are kept, to say what led to a difference.
fn history<T: Trial>(
    random: &mut Random,
    stage: &Stage,
    twist: Option<Twist>,
    tally: &mut Tally,
) -> Option<(Counts, Vec<T::Call>)> {
    let most = capacities(random, stage.most);
    let mut trial = T::new(most, twist);
    let mut calls = Vec::new();
    for _ in 0..stage.calls {
        let mut text = (stage.texts)(random);
        if random.once_in(50) {
            text = random.of(FAULTY).to_vec();
        }
        let next = trial.next(random, stage, text);
        match T::counted(&next) {
            Counted::Change => tally.changes += 1,
            Counted::Question => tally.questions += 1,
            Counted::Count => {}
        }
        let counts = random.once_in(stage.counts_once_in).then_some(T::COUNTS);
        for call in [Some(next), counts].into_iter().flatten() {
            let is_wrong = trial.make(&call).is_err();
            calls.push(call);
            if is_wrong {
                return Some((most, calls));
            }
        }
    }
    None
}

/// Every stage: a line with its changes and its questions, and the smallest history of the first
/// difference.
pub fn run<T: Trial>(seed: u64) -> Totals {
    let mut totals = Totals::default();
    for stage in &STAGES {
        let started = Instant::now();
        let mut random = Random(seed);
        let mut tally = Tally::default();
        let mut failed = 0;
        for _ in 0..stage.histories {
            if let Some((most, calls)) = history::<T>(&mut random, stage, None, &mut tally) {
                failed += 1;
                if failed == 1 {
                    let (calls, wrong) = shrunk::<T>(most, None, calls);
                    println!("  difference with seed {seed}, {most:?}, after {calls:?}: {wrong}");
                }
            }
        }
        let Tally { changes, questions } = tally;
        let seconds = started.elapsed().as_secs_f64();
        let (kind, name) = (T::KIND, stage.name);
        println!("{kind}, {name}: {changes} changes, {questions} questions, {seconds:.2} s");
        totals.failed += failed;
        totals.passed += changes + questions - failed;
    }
    totals
}

/// The smallest history of a small run in which the library and a twisted model differ.
pub fn first_difference<T: Trial>(
    twist: Option<Twist>,
    seed: u64,
) -> Option<(Vec<T::Call>, String)> {
    STAGES.iter().find_map(|stage| {
        let mut random = Random(seed);
        let mut tally = Tally::default();
        let part = (stage.histories / 50).max(1);
        let found = (0..part).find_map(|_| history::<T>(&mut random, stage, twist, &mut tally));
        found.map(|(most, calls)| shrunk::<T>(most, twist, calls))
    })
}
