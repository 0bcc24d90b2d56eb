//! The comparison harness of the library: arguments, judges and totals.

mod answers;
#[cfg_attr(not(feature = "rust"), path = "beside_none.rs")]
mod beside;
mod buffers;
mod called;
mod called_names;
mod called_subscriptions;
#[path = "../../include/cjumbradi.rs"]
mod cjumbradi;
#[path = "../../include/cjumbradi_known.rs"]
mod cjumbradi_known;
mod compare;
mod counts;
mod damage;
mod damaged;
mod differ;
#[cfg(feature = "rust")]
mod differences;
mod examples;
mod gate;
mod held;
mod history;
mod inputs;
mod known;
mod lent;
mod library;
mod lists;
mod long;
mod made_stores;
#[cfg(feature = "rust")]
mod matching;
mod mosquitto;
mod mutation;
mod name_histories;
mod named;
mod random;
mod random_inputs;
mod reference;
mod regions;
#[cfg(feature = "rust")]
mod replay;
#[cfg(feature = "rust")]
mod replay_histories;
#[cfg(feature = "rust")]
mod replay_texts;
mod report;
mod retained;
mod room;
#[cfg(feature = "rust")]
mod rust;
mod self_test;
mod shrink;
mod sides;
mod stages;
mod store_examples;
mod store_judge;
mod stores;
mod subscribed;
mod subscription_histories;
mod texts;
mod twists;

use std::env;
use std::process::ExitCode;
use std::time::Instant;

use compare::{Comparison, Judge};
use library::Library;
use name_histories::Names;
use reference::HONEST;
use subscription_histories::Subscriptions;

const USAGE: &str =
    "usage: oracle [--self-test | --differences | --replay [--check] | --minutes N] [--seed N]";

/// Cases without a difference, and cases with one.
#[derive(Default)]
pub struct Totals {
    pub passed: u64,
    pub failed: u64,
}

impl Totals {
    /// Both together.
    pub fn and(self, more: Totals) -> Self {
        Totals {
            passed: self.passed + more.passed,
            failed: self.failed + more.failed,
        }
    }

    /// Counts one check, which fails where there is a complaint.
    pub fn count(&mut self, complaint: Option<String>) {
        match complaint {
            None => self.passed += 1,
            Some(complaint) => {
                self.failed += 1;
                println!("FAILED: {complaint}");
            }
        }
    }
}

/// The Rust as a judge, where it is compiled in.
#[cfg(feature = "rust")]
pub fn rust_judge() -> Option<&'static dyn Judge> {
    Some(&rust::Rust)
}

#[cfg(not(feature = "rust"))]
pub fn rust_judge() -> Option<&'static dyn Judge> {
    None
}

/// All judges: the reference, the Rust where it is compiled in, and mosquitto where it is installed.
pub fn judges() -> Vec<&'static dyn Judge> {
    let reference: &dyn Judge = &HONEST;
    let mosquitto = mosquitto::judge().map(|judge| judge as &dyn Judge);
    [Some(reference), rust_judge(), mosquitto]
        .into_iter()
        .flatten()
        .collect()
}

enum Mode {
    Gate,
    /// Run after run with one seed after another, for so many minutes.
    Minutes(u64),
    SelfTest,
    Differences,
    /// Writes the files of crates/replay, or compares them.
    Replay {
        check: bool,
    },
}

/// The arguments; none where they are not understood.
fn arguments(mut words: impl Iterator<Item = String>) -> Option<(Mode, u64)> {
    let (mut mode, mut seed) = (Mode::Gate, 1);
    while let Some(word) = words.next() {
        match word.as_str() {
            "--self-test" => mode = Mode::SelfTest,
            "--differences" => mode = Mode::Differences,
            "--replay" => mode = Mode::Replay { check: false },
            "--check" if matches!(mode, Mode::Replay { .. }) => mode = Mode::Replay { check: true },
            "--minutes" => mode = Mode::Minutes(words.next()?.parse().ok()?),
            "--seed" => seed = words.next()?.parse().ok()?,
            _ => return None,
        }
    }
    Some((mode, seed))
}

#[cfg(feature = "rust")]
fn print_differences() {
    differences::print(&Library);
}

#[cfg(not(feature = "rust"))]
fn print_differences() {
    println!("the Rust is not compiled in: no differences from it");
}

/// Writes the replay, or compares what is written; then how many lines are as they should be.
#[cfg(feature = "rust")]
fn replay(check: bool) -> std::io::Result<Option<Totals>> {
    if check {
        return replay::check().map(Some);
    }
    replay::write().map(|()| None)
}

#[cfg(not(feature = "rust"))]
fn replay(_: bool) -> std::io::Result<Option<Totals>> {
    println!("the Rust is not compiled in: the replay is neither made nor compared");
    Ok(None)
}

/// One whole run: texts, regions, and histories of both stores.
fn compared(seed: u64) -> Totals {
    if mosquitto::judge().is_none() {
        println!("oracle: no libmosquitto, its comparison left out (Debian: libmosquitto1)");
    }
    let comparison = Comparison {
        candidate: &Library,
        judges: &judges(),
    };
    gate::run(&comparison, stages::stages(&stages::GATE, seed))
        .and(damage::run(&damage::GATE, seed))
        .and(history::run::<Subscriptions>(seed))
        .and(history::run::<Names>(seed))
}

/// Whole runs until so many minutes have passed, and then how often each call was made.
fn compared_for(minutes: u64, seed: u64) -> Totals {
    let started = Instant::now();
    let mut totals = Totals::default();
    for seed in seed.. {
        totals = totals.and(compared(seed));
        let seconds = started.elapsed().as_secs();
        println!(
            "after seed {seed}: {} passed, {} failed, {seconds} s",
            totals.passed, totals.failed
        );
        if seconds >= 60 * minutes {
            break;
        }
    }
    counts::print();
    totals
}

fn main() -> ExitCode {
    let Some((mode, seed)) = arguments(env::args().skip(1)) else {
        eprintln!("{USAGE}");
        return ExitCode::from(2);
    };
    let totals = match mode {
        Mode::Differences => {
            print_differences();
            return ExitCode::SUCCESS;
        }
        Mode::Replay { check } => match replay(check).expect("the replay's files are there") {
            Some(totals) => totals,
            None => return ExitCode::SUCCESS,
        },
        Mode::SelfTest => self_test::run(seed),
        Mode::Gate => compared(seed),
        Mode::Minutes(minutes) => compared_for(minutes, seed),
    };
    println!("{} passed, {} failed", totals.passed, totals.failed);
    ExitCode::from(u8::from(totals.failed > 0))
}
