//! Both sides must give the same answers before any is timed.

use rmqtt::types::TopicName;

use super::rust::{texts, Rust};
use super::workloads::Workload;
use super::{moment, offsets, Record, LIMIT, LOOKED_UP, SWEPT};
use crate::agree::either;
use crate::store::{Form, Store};

/// The two sides, and the names of a workload as each takes them.
struct Both<'a> {
    library: Store,
    rust: Rust,
    names: &'a [String],
    topics: Vec<TopicName>,
}

/// Fills both sides and compares every answer of a workload; the two, filled.
pub fn filled(workload: &Workload) -> (Store, Rust) {
    let mut both = Both {
        library: Store::of_names(),
        rust: Rust::default(),
        names: &workload.names,
        topics: texts(&workload.names),
    };
    both.set(7);
    both.set(0);
    both.erased();
    both.erased();
    for (what, clock) in SWEPT {
        both.set(0);
        both.swept(what, clock);
    }
    both.set(0);
    for filters in &workload.filters {
        both.looked_up(filters);
    }
    both.paged();
    (both.library, both.rust)
}

impl Both<'_> {
    /// The Rust tells nothing of a change but by its count: `answers` are for a count that stays and
    /// for one that changes.
    fn changed(&self, answers: [u64; 2], change: impl FnOnce(&Rust)) -> u64 {
        let before = self.rust.count();
        change(&self.rust);
        answers[usize::from(self.rust.count() != before)]
    }

    fn set(&mut self, more: u32) {
        for (place, name) in self.names.iter().enumerate() {
            let (handle, moment) = (place as u32 + more, moment(place));
            let topic = &self.topics[place];
            let expected = self.changed([2, 1], |rust| rust.set(topic, handle, moment));
            let found = self.library.set(either(place), name, handle, moment);
            assert_eq!(found, expected, "set {name}");
        }
        self.same_held();
    }

    fn erased(&mut self) {
        for (place, name) in self.names.iter().enumerate() {
            let topic = &self.topics[place];
            let expected = self.changed([4, 3], |rust| rust.erase(topic));
            let found = self.library.erase(either(place), name);
            assert_eq!(found, expected, "erase {name}");
        }
        self.same_held();
    }

    /// Both forms of the sweep, from the same store.
    fn swept(&mut self, what: &str, clock: u64) {
        let mut other = Store::of_names();
        other.become_as(&self.library);
        let removed = self.rust.sweep(clock);
        assert_eq!(other.sweep(Form::Known, clock), removed, "sweep of {what}");
        assert_eq!(
            self.library.sweep(Form::Tested, clock),
            removed,
            "sweep of {what}"
        );
        self.same_held();
        self.library = other;
        self.same_held();
    }

    /// The counts, and all records with their times at the clock 0.
    fn same_held(&mut self) {
        assert_eq!(self.library.count(), self.rust.count(), "count");
        let found = self.library.lookup_records(Form::Known, "#", 0);
        same("#", found, self.rust.records(&TopicName::from("#"), 0));
    }

    fn looked_up(&mut self, filters: &[String]) {
        let topics = texts(filters);
        for (place, filter) in filters.iter().enumerate() {
            let found = self
                .library
                .lookup_records(either(place), filter, LOOKED_UP);
            let expected = self.rust.records(&topics[place], LOOKED_UP);
            same(filter, found, expected);
            let read = self.library.lookup(Form::Known, filter, LOOKED_UP);
            let expected = self.rust.lookup(&topics[place], LOOKED_UP);
            assert_eq!(read, expected, "lookup {filter}");
        }
    }

    /// The Rust's pages have no order. So their sizes are compared, and what is on a page with the
    /// lookup of '#'.
    fn paged(&mut self) {
        let all = self.library.lookup_records(Form::Known, "#", LOOKED_UP);
        for offset in offsets(all.len()) {
            let expected = self.rust.page_size(LOOKED_UP, offset, LIMIT);
            for form in [Form::Known, Form::Tested] {
                let (page, more) = self.library.page_records(form, LOOKED_UP, offset, LIMIT);
                assert_eq!((page.len(), more), expected, "page at {offset}");
                assert_eq!(
                    page,
                    all[offset as usize..][..page.len()],
                    "page at {offset}"
                );
            }
        }
    }
}

/// The same records; ours in the order of the levels.
fn same(filter: &str, found: Vec<Record>, mut expected: Vec<Record>) {
    let levels = |(name, ..): &Record| -> Vec<Vec<u8>> {
        name.split(|byte| *byte == b'/')
            .map(<[u8]>::to_vec)
            .collect()
    };
    expected.sort_by_cached_key(levels);
    assert_eq!(found, expected, "lookup {filter}");
}
