//! The tables of subscriptions: times in ns for each call, and ratios ours / Rust.
//!
//! No time fails a run.

use std::{env, fs, thread};

use crate::lines::{budget, head, line, ns, ratio, Row};
use crate::measures::{Asked, Measured};

type Rows<'a> = &'a [Row<Measured>];

/// What a listing may take at most of the Rust's time, what a change may, and what the test of a
/// region may take for each node, in ns.
pub const LISTING: f64 = 0.7;
pub const CHANGE: f64 = 2.0;
pub const TEST: f64 = 15.0;

/// The processor and its cores.
pub fn machine() -> String {
    let info = fs::read_to_string("/proc/cpuinfo").unwrap_or_default();
    let line = info.lines().find(|line| line.starts_with("model name"));
    let model = line.and_then(|line| line.split_once(": "));
    let model = model.map_or(env::consts::ARCH, |(_, model)| model);
    let cores = thread::available_parallelism().map_or(0, usize::from);
    format!("{model} ({}), {cores} cores", env::consts::ARCH)
}

/// Whose figures the Rust's are.
pub fn hasher() -> &'static str {
    match env::var("BENCH_HASHER").as_deref() {
        Ok("real") => "the Rust has the hasher that it names, ahash",
        _ => {
            "NOT THE RUST'S HASHER: that of the standard library stands in for ahash, and is slower"
        }
    }
}

pub fn print(rows: Rows) {
    held(rows);
    asked("listing", rows, |measured| &measured.listing);
    asked("is_match", rows, |measured| &measured.is_match);
    changed(rows);
    budgets(rows);
}

fn held(rows: Rows) {
    head(
        "what is held",
        &["pairs", "nodes", "values/name", "test ns/node"],
    );
    for row in rows {
        let measured = &row.measured;
        line(
            row.name,
            &[
                row.held.to_string(),
                measured.nodes.to_string(),
                format!("{:.1}", measured.values),
                format!("{:.1}", measured.test),
            ],
        );
    }
}

/// The Rust parses the name's text as our call does; and once without that.
fn asked(call: &str, rows: Rows, of: fn(&Measured) -> &Asked) {
    head(
        call,
        &[
            "known ns",
            "Rust ns",
            "ratio",
            "parsed ns",
            "ratio",
            "tested ns",
            "ratio",
        ],
    );
    for row in rows {
        let measured = &row.measured;
        let asked = of(measured);
        line(
            row.name,
            &[
                ns(asked.known),
                ns(asked.rust),
                ratio(asked.known, asked.rust),
                ns(asked.rust_parsed),
                ratio(asked.known, asked.rust_parsed),
                ns(asked.tested),
                ratio(asked.tested, asked.rust),
            ],
        );
    }
}

fn changed(rows: Rows) {
    head(
        "insert + remove",
        &[
            "insert ns",
            "Rust ns",
            "remove ns",
            "Rust ns",
            "ratio",
            "tested ns",
            "ratio",
            "full ns",
            "Rust ns",
            "ratio",
        ],
    );
    for row in rows {
        let measured = &row.measured;
        let c = &measured.changed;
        let rust = c.rust_insert + c.rust_remove;
        let tested = c.insert_tested + c.remove_tested;
        line(
            row.name,
            &[
                ns(c.insert),
                ns(c.rust_insert),
                ns(c.remove),
                ns(c.rust_remove),
                ratio(c.insert + c.remove, rust),
                ns(tested / 2.0),
                ratio(tested, rust),
                ns(c.renewed),
                ns(c.rust_renewed),
                ratio(c.renewed, c.rust_renewed),
            ],
        );
    }
}

fn budgets(rows: Rows) {
    println!();
    budget(
        &format!("listing, known store, at most {LISTING} of the Rust"),
        rows,
        |m| m.listing.known <= LISTING * m.listing.rust,
    );
    budget(
        &format!("insert + remove, known store, at most {CHANGE} of the Rust"),
        rows,
        |m| {
            let c = &m.changed;
            c.insert + c.remove <= CHANGE * (c.rust_insert + c.rust_remove)
        },
    );
    budget(
        &format!("the test of a region, at most {TEST} ns for each node"),
        rows,
        |m| m.test <= TEST,
    );
}
