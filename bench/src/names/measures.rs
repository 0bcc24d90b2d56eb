//! What is measured of a workload of names.

use std::hint::black_box;
use std::time::{Duration, Instant};

use rmqtt::types::TopicName;

use super::rust::{texts, Rust};
use super::workloads::Workload;
use super::{moment, offsets, LIMIT, LOOKED_UP, SWEPT};
use crate::measures::{Effort, TESTED_CALLS};
use crate::read::Read;
use crate::store::Form::{self, Known, Tested};
use crate::store::Store;
use crate::timing::{medians, Timed};

/// So many of the records of a full store are replaced, so many pages are asked for, and so many
/// sweeps are made, in a round.
const REPLACED: usize = 200;
const PAGES: usize = 10;
const SWEEPS: usize = 4;

/// Times in ns for each call.
pub struct Times {
    pub known: f64,
    pub tested: f64,
    pub rust: f64,
}

pub struct Measured {
    pub nodes: u64,
    /// By the forms of a filter: the records that a lookup gives, on average, and its times.
    pub lookups: [(f64, Times); 3],
    /// At the beginning and in the middle.
    pub pages: [Times; 2],
    pub set: Times,
    pub erase: Times,
    pub replace: Times,
    /// Where all, half and none have expired.
    pub sweeps: [Swept; 3],
}

/// A sweep, and beside it the test of the full region.
pub struct Swept {
    pub times: Times,
    pub test: f64,
}

impl Swept {
    /// How many tests of the region a sweep of a known store takes.
    pub fn in_tests(&self) -> f64 {
        self.times.known / self.test
    }
}

impl Measured {
    /// The test of the region, where it was least disturbed.
    pub fn test(&self) -> f64 {
        let tests = self.sweeps.iter().map(|swept| swept.test);
        tests.fold(f64::INFINITY, f64::min)
    }
}

/// A workload's names as each side takes them; and both stores, filled.
struct Sides<'a> {
    rounds: usize,
    names: &'a [String],
    topics: Vec<TopicName>,
    full: &'a Store,
    rust: &'a Rust,
}

pub fn measured(effort: &Effort, workload: &Workload, full: &Store, rust: &Rust) -> Measured {
    let sides = Sides {
        rounds: effort.rounds,
        names: &workload.names,
        topics: texts(&workload.names),
        full,
        rust,
    };
    let changed = workload.names.len().min(effort.changed);
    let lookup = |form: usize| sides.lookup(&workload.filters[form]);
    Measured {
        nodes: rust.nodes(),
        lookups: [lookup(0), lookup(1), lookup(2)],
        pages: offsets(workload.names.len()).map(|offset| sides.page(offset)),
        set: sides.set(changed),
        erase: sides.erase(changed),
        replace: sides.replace(),
        sweeps: SWEPT.map(|(_, clock)| sides.sweep(clock)),
    }
}

/// The three of a call, by their medians.
fn times(rounds: usize, mut three: [Timed; 3]) -> Times {
    let times = medians(rounds, &mut three);
    Times {
        known: times[0],
        tested: times[1],
        rust: times[2],
    }
}

impl Sides<'_> {
    /// A store that holds what the full one holds.
    fn copy(&self) -> Store {
        let mut library = Store::of_names();
        library.become_as(self.full);
        library
    }

    /// The Rust with the first names.
    fn rust_filled(&self, count: usize) -> Rust {
        let rust = Rust::default();
        for (place, topic) in self.topics[..count].iter().enumerate() {
            rust.set(topic, place as u32, moment(place));
        }
        rust
    }

    fn lookup(&self, filters: &[String]) -> (f64, Times) {
        let topics = texts(filters);
        let mut read = Read::default();
        for topic in &topics {
            read.add(self.rust.lookup(topic, LOOKED_UP));
        }
        let few = &filters[..filters.len().min(TESTED_CALLS)];
        let three = [
            lookups(Known, filters, self.copy()),
            lookups(Tested, few, self.copy()),
            Timed::whole(topics.len(), || {
                for topic in &topics {
                    black_box(self.rust.lookup(topic, LOOKED_UP));
                }
            }),
        ];
        let records = read.count() as f64 / topics.len() as f64;
        (records, times(self.rounds, three))
    }

    fn page(&self, offset: u64) -> Times {
        let three = [
            pages(Known, offset, self.copy()),
            pages(Tested, offset, self.copy()),
            Timed::whole(PAGES, || {
                for _ in 0..PAGES {
                    black_box(self.rust.page(LOOKED_UP, offset, LIMIT));
                }
            }),
        ];
        times(self.rounds, three)
    }

    /// The first names, set in an empty store.
    fn set(&self, count: usize) -> Times {
        let three = [
            sets(Known, &self.names[..count]),
            sets(Tested, &self.names[..count]),
            Timed::part(count, || {
                let began = Instant::now();
                let rust = self.rust_filled(count);
                let took = began.elapsed();
                drop(rust); // when the clock has been read
                took
            }),
        ];
        times(self.rounds, three)
    }

    /// They are erased in the reverse order, until the store is empty.
    fn erase(&self, count: usize) -> Times {
        let three = [
            erases(Known, &self.names[..count]),
            erases(Tested, &self.names[..count]),
            Timed::part(count, || {
                let rust = self.rust_filled(count);
                let began = Instant::now();
                for topic in self.topics[..count].iter().rev() {
                    rust.erase(topic);
                }
                began.elapsed()
            }),
        ];
        times(self.rounds, three)
    }

    /// In a full store.
    fn replace(&self) -> Times {
        let few = &self.names[..REPLACED];
        let rust = self.rust_filled(self.names.len());
        let three = [
            replaces(Known, few, self.copy()),
            replaces(Tested, few, self.copy()),
            Timed::whole(few.len(), || {
                for (place, topic) in self.topics[..few.len()].iter().enumerate() {
                    rust.set(topic, 1, moment(place));
                }
            }),
        ];
        times(self.rounds, three)
    }

    /// Each from a full store. The call that tells the count is the test of the region and one read.
    fn sweep(&self, clock: u64) -> Swept {
        let mut four = [
            each_restored(self.full, move |library| library.sweep(Known, clock)),
            each_restored(self.full, move |library| library.sweep(Tested, clock)),
            Timed::part(SWEEPS, || {
                let mut took = Duration::ZERO;
                for _ in 0..SWEEPS {
                    let rust = self.rust_filled(self.names.len());
                    let began = Instant::now();
                    black_box(rust.sweep(clock));
                    took += began.elapsed();
                }
                took
            }),
            each_restored(self.full, |library| library.count()),
        ];
        let [known, tested, rust, test] = medians(self.rounds, &mut four)[..] else {
            panic!("four were timed");
        };
        let times = Times {
            known,
            tested,
            rust,
        };
        Swept { times, test }
    }
}

fn lookups(form: Form, filters: &[String], mut library: Store) -> Timed<'_> {
    Timed::whole(filters.len(), move || {
        for filter in filters {
            black_box(library.lookup(form, filter, LOOKED_UP));
        }
    })
}

fn pages<'a>(form: Form, offset: u64, mut library: Store) -> Timed<'a> {
    Timed::whole(PAGES, move || {
        for _ in 0..PAGES {
            black_box(library.page(form, LOOKED_UP, offset, LIMIT));
        }
    })
}

fn fill(form: Form, names: &[String], library: &mut Store) {
    for (place, name) in names.iter().enumerate() {
        black_box(library.set(form, name, place as u32, moment(place)));
    }
}

fn sets(form: Form, names: &[String]) -> Timed<'_> {
    let mut library = Store::of_names();
    Timed::part(names.len(), move || {
        library.empty();
        let began = Instant::now();
        fill(form, names, &mut library);
        began.elapsed()
    })
}

fn erases(form: Form, names: &[String]) -> Timed<'_> {
    let (mut full, mut library) = (Store::of_names(), Store::of_names());
    fill(Known, names, &mut full);
    Timed::part(names.len(), move || {
        library.become_as(&full);
        let began = Instant::now();
        for name in names.iter().rev() {
            black_box(library.erase(form, name));
        }
        began.elapsed()
    })
}

fn replaces(form: Form, names: &[String], mut library: Store) -> Timed<'_> {
    Timed::whole(names.len(), move || {
        for (place, name) in names.iter().enumerate() {
            black_box(library.set(form, name, 1, moment(place)));
        }
    })
}

/// A call that is made each time on the full store.
fn each_restored<'a>(full: &'a Store, call: impl Fn(&mut Store) -> u64 + 'a) -> Timed<'a> {
    let mut library = Store::of_names();
    Timed::part(SWEEPS, move || {
        let mut took = Duration::ZERO;
        for _ in 0..SWEEPS {
            library.become_as(full);
            let began = Instant::now();
            black_box(call(&mut library));
            took += began.elapsed();
        }
        took
    })
}
