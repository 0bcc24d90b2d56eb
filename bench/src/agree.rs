//! Both sides must give the same answers before any is timed.

use crate::rust::Rust;
use crate::store::{Form, Store};
use crate::workloads::Workload;

/// A call that tests the region is compared once in so many times: it takes long, and behind the
/// test it is the other call.
const TESTED_ONCE_IN: usize = 8;

/// Fills both sides and compares every answer of a workload; the two, filled.
pub fn filled(workload: &Workload) -> (Store, Rust) {
    let (mut library, mut rust) = (Store::of_subscriptions(), Rust::default());
    changed(workload, &mut library, &mut rust);
    for (filter, value) in &workload.pairs {
        let expected = rust.insert(filter, *value);
        assert_eq!(
            library.insert(Form::Known, filter, *value),
            expected,
            "insert {filter}"
        );
    }
    same_sizes(&library, &rust);
    for (place, name) in workload.names.iter().enumerate() {
        asked(place, name, &mut library, &rust);
    }
    (library, rust)
}

/// Both forms of the calls that change a store; it is empty again.
fn changed(workload: &Workload, library: &mut Store, rust: &mut Rust) {
    for (place, (filter, value)) in workload.pairs.iter().enumerate() {
        let expected = rust.insert(filter, *value);
        let found = library.insert(either(place), filter, *value);
        assert_eq!(found, expected, "insert {filter}");
    }
    same_sizes(library, rust);
    for (place, (filter, value)) in workload.pairs.iter().enumerate() {
        let expected = rust.remove(filter, *value);
        let found = library.remove(either(place), filter, *value);
        assert_eq!(found, expected, "remove {filter}");
    }
    same_sizes(library, rust);
}

/// The form in which the call at this place is compared.
pub fn either(place: usize) -> Form {
    match place % TESTED_ONCE_IN {
        0 => Form::Tested,
        _ => Form::Known,
    }
}

fn same_sizes(library: &Store, rust: &Rust) {
    assert_eq!(library.nodes_size(), rust.nodes_size(), "nodes");
    assert_eq!(library.values_size(), rust.values_size(), "values");
}

fn asked(place: usize, name: &str, library: &mut Store, rust: &Rust) {
    let form = either(place);
    let (records, read) = (rust.records(name), rust.listing(name));
    assert_eq!(
        library.records(Form::Known, name),
        records,
        "listing {name}"
    );
    assert_eq!(library.listing(form, name), read, "listing {name}");
    let is_match = rust.is_match(name);
    assert_eq!(library.is_match(form, name), is_match, "is_match {name}");
    assert_eq!(is_match, !records.is_empty(), "is_match {name}");
}
