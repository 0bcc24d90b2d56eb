//! What is measured of a workload.

use std::hint::black_box;
use std::time::Instant;

use rmqtt::topic::Topic;

use crate::read::Read;
use crate::rust::{parsed, Rust};
use crate::store::Form::{self, Known, Tested};
use crate::store::Store;
use crate::timing::{medians, Timed};
use crate::workloads::Workload;

/// A test of a region takes so much longer than a question that a few of the calls will do.
pub const TESTED_CALLS: usize = 40;

/// So many of the pairs of a full store are taken away and put back.
const RENEWED: usize = 200;

/// How much is measured: the rounds, the names that are asked, and how many pairs at most are
/// inserted and removed.
pub struct Effort {
    pub rounds: usize,
    pub names: usize,
    pub changed: usize,
}

/// Times in ns for each call.
pub struct Asked {
    pub known: f64,
    pub tested: f64,
    pub rust: f64,
    pub rust_parsed: f64,
}

pub struct Changed {
    pub insert: f64,
    pub remove: f64,
    pub insert_tested: f64,
    pub remove_tested: f64,
    pub rust_insert: f64,
    pub rust_remove: f64,
    pub renewed: f64,
    pub rust_renewed: f64,
}

pub struct Measured {
    pub nodes: u64,
    /// Values that a listing gives, on average.
    pub values: f64,
    pub listing: Asked,
    pub is_match: Asked,
    pub changed: Changed,
    /// For each node.
    pub test: f64,
}

pub fn measured(
    effort: &Effort,
    workload: &Workload,
    library: &mut Store,
    rust: &Rust,
) -> Measured {
    let rounds = effort.rounds;
    let topics: Vec<Topic> = workload.names.iter().map(|name| parsed(name)).collect();
    let mut read = Read::default();
    topics
        .iter()
        .for_each(|topic| read.add(rust.listing_parsed(topic)));
    Measured {
        nodes: library.nodes_size(),
        values: read.count() as f64 / topics.len() as f64,
        listing: listing(rounds, workload, &topics, library, rust),
        is_match: is_match(rounds, workload, &topics, library, rust),
        changed: changed(effort, workload, library),
        test: tested(rounds, library),
    }
}

/// The four of a question, by their medians.
fn asked(rounds: usize, mut four: [Timed; 4]) -> Asked {
    let times = medians(rounds, &mut four);
    Asked {
        known: times[0],
        tested: times[1],
        rust: times[2],
        rust_parsed: times[3],
    }
}

fn listing(
    rounds: usize,
    workload: &Workload,
    topics: &[Topic],
    library: &mut Store,
    rust: &Rust,
) -> Asked {
    let names = &workload.names;
    let few = &names[..TESTED_CALLS];
    let mut other = Store::of_subscriptions();
    other.become_as(library);
    let four = [
        Timed::whole(names.len(), || {
            for name in names {
                black_box(library.listing(Known, name));
            }
        }),
        Timed::whole(few.len(), || {
            for name in few {
                black_box(other.listing(Tested, name));
            }
        }),
        Timed::whole(names.len(), || {
            for name in names {
                black_box(rust.listing(name));
            }
        }),
        Timed::whole(topics.len(), || {
            for topic in topics {
                black_box(rust.listing_parsed(topic));
            }
        }),
    ];
    asked(rounds, four)
}

fn is_match(
    rounds: usize,
    workload: &Workload,
    topics: &[Topic],
    library: &Store,
    rust: &Rust,
) -> Asked {
    let names = &workload.names;
    let few = &names[..TESTED_CALLS];
    let of = |form: Form, names: &[String]| {
        for name in names {
            black_box(library.is_match(form, name));
        }
    };
    let four = [
        Timed::whole(names.len(), || of(Known, names)),
        Timed::whole(few.len(), || of(Tested, few)),
        Timed::whole(names.len(), || {
            for name in names {
                black_box(rust.is_match(name));
            }
        }),
        Timed::whole(topics.len(), || {
            for topic in topics {
                black_box(rust.is_match_parsed(topic));
            }
        }),
    ];
    asked(rounds, four)
}

/// Inserting into an empty store until it is full.
fn inserts<'a>(form: Form, pairs: &'a [(String, u32)]) -> Timed<'a> {
    let mut library = Store::of_subscriptions();
    Timed::part(pairs.len(), move || {
        library.empty();
        let began = Instant::now();
        for (filter, value) in pairs {
            black_box(library.insert(form, filter, *value));
        }
        began.elapsed()
    })
}

/// Removing from a full store until it is empty.
fn removes<'a>(form: Form, pairs: &'a [(String, u32)]) -> Timed<'a> {
    let mut full = Store::of_subscriptions();
    for (filter, value) in pairs {
        full.insert(Known, filter, *value);
    }
    let mut library = Store::of_subscriptions();
    Timed::part(pairs.len(), move || {
        library.become_as(&full);
        let began = Instant::now();
        for (filter, value) in pairs.iter().rev() {
            black_box(library.remove(form, filter, *value));
        }
        began.elapsed()
    })
}

fn rust_filled(pairs: &[(String, u32)]) -> Rust {
    let mut rust = Rust::default();
    for (filter, value) in pairs {
        rust.insert(filter, *value);
    }
    rust
}

/// A tree is dropped when the clock has been read.
fn rust_inserts(pairs: &[(String, u32)]) -> Timed<'_> {
    Timed::part(pairs.len(), move || {
        let began = Instant::now();
        let rust = rust_filled(pairs);
        let took = began.elapsed();
        drop(rust);
        took
    })
}

fn rust_removes(pairs: &[(String, u32)]) -> Timed<'_> {
    Timed::part(pairs.len(), move || {
        let mut rust = rust_filled(pairs);
        let began = Instant::now();
        for (filter, value) in pairs.iter().rev() {
            black_box(rust.remove(filter, *value));
        }
        began.elapsed()
    })
}

fn changed(effort: &Effort, workload: &Workload, library: &Store) -> Changed {
    let all = &workload.pairs;
    let pairs = &all[..all.len().min(effort.changed)];
    let few = &all[..RENEWED];
    let mut full = Store::of_subscriptions();
    full.become_as(library);
    let mut rust_full = rust_filled(all);
    let times = medians(
        effort.rounds,
        &mut [
            inserts(Known, pairs),
            removes(Known, pairs),
            inserts(Tested, pairs),
            removes(Tested, pairs),
            rust_inserts(pairs),
            rust_removes(pairs),
            Timed::whole(2 * few.len(), || {
                for (filter, value) in few {
                    black_box(full.remove(Known, filter, *value));
                    black_box(full.insert(Known, filter, *value));
                }
            }),
            Timed::whole(2 * few.len(), || {
                for (filter, value) in few {
                    black_box(rust_full.remove(filter, *value));
                    black_box(rust_full.insert(filter, *value));
                }
            }),
        ],
    );
    Changed {
        insert: times[0],
        remove: times[1],
        insert_tested: times[2],
        remove_tested: times[3],
        rust_insert: times[4],
        rust_remove: times[5],
        renewed: times[6],
        rust_renewed: times[7],
    }
}

/// The call that tells the nodes is the test of the region and one read.
fn tested(rounds: usize, library: &Store) -> f64 {
    let nodes = library.nodes_size() as f64;
    let times = medians(
        rounds,
        &mut [Timed::whole(TESTED_CALLS, || {
            for _ in 0..TESTED_CALLS {
                black_box(library.nodes_size());
            }
        })],
    );
    times[0] / nodes
}
