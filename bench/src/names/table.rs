//! The tables of names: times in ns for each call, and ratios ours / Rust.
//!
//! No time fails a run.

use super::measures::{Measured, Times};
use super::workloads::FORMS;
use super::SWEPT;
use crate::lines::{budget, head, line, ns, ratio, Row};
use crate::table::{CHANGE, LISTING, TEST};

type Rows<'a> = &'a [Row<Measured>];

/// A sweep may take so many times what the test of its region takes.
const SWEEP: f64 = 10.0;

pub fn print(rows: Rows) {
    held(rows);
    for (form, what) in FORMS.iter().enumerate() {
        looked_up(rows, form, what);
    }
    for (page, what) in ["page at 0", "page in the middle"].iter().enumerate() {
        head(what, &COLUMNS);
        for row in rows {
            line(row.name, &cells(&row.measured.pages[page]));
        }
    }
    changed(rows);
    replaced(rows);
    for (sweep, (what, _)) in SWEPT.iter().enumerate() {
        swept(rows, sweep, what);
    }
    budgets(rows);
}

const COLUMNS: [&str; 5] = ["known ns", "Rust ns", "ratio", "tested ns", "ratio"];

fn cells(times: &Times) -> Vec<String> {
    vec![
        ns(times.known),
        ns(times.rust),
        ratio(times.known, times.rust),
        ns(times.tested),
        ratio(times.tested, times.rust),
    ]
}

/// The columns of all calls, and one more.
fn head_with(what: &str, more: &str) {
    head(what, &[&COLUMNS[..], &[more]].concat());
}

fn held(rows: Rows) {
    head(
        "retained names held",
        &["names", "nodes", "test ns", "test ns/node"],
    );
    for row in rows {
        let measured = &row.measured;
        line(
            row.name,
            &[
                row.held.to_string(),
                measured.nodes.to_string(),
                ns(measured.test()),
                format!("{:.1}", measured.test() / measured.nodes as f64),
            ],
        );
    }
}

fn looked_up(rows: Rows, form: usize, what: &str) {
    head_with(&format!("lookup, {what}"), "records");
    for row in rows {
        let (records, times) = &row.measured.lookups[form];
        let mut cells = cells(times);
        cells.push(format!("{records:.1}"));
        line(row.name, &cells);
    }
}

fn changed(rows: Rows) {
    head(
        "set + erase",
        &[
            "set ns",
            "Rust ns",
            "erase ns",
            "Rust ns",
            "ratio",
            "tested ns",
            "ratio",
        ],
    );
    for row in rows {
        let Measured { set, erase, .. } = &row.measured;
        let rust = set.rust + erase.rust;
        let tested = set.tested + erase.tested;
        line(
            row.name,
            &[
                ns(set.known),
                ns(set.rust),
                ns(erase.known),
                ns(erase.rust),
                ratio(set.known + erase.known, rust),
                ns(tested / 2.0),
                ratio(tested, rust),
            ],
        );
    }
}

fn replaced(rows: Rows) {
    head("set that replaces", &COLUMNS);
    for row in rows {
        line(row.name, &cells(&row.measured.replace));
    }
}

/// Beside the times, how many tests of the region a sweep of a known store takes.
fn swept(rows: Rows, sweep: usize, what: &str) {
    head_with(&format!("sweep, {what} expired"), "in tests");
    for row in rows {
        let swept = &row.measured.sweeps[sweep];
        let mut cells = cells(&swept.times);
        cells.push(format!("{:.2}", swept.in_tests()));
        line(row.name, &cells);
    }
}

fn budgets(rows: Rows) {
    println!();
    for (form, what) in FORMS.iter().enumerate() {
        budget(
            &format!("lookup, {what}, known store, at most {LISTING} of the Rust"),
            rows,
            |m| {
                let times = &m.lookups[form].1;
                times.known <= LISTING * times.rust
            },
        );
    }
    budget(
        &format!("set + erase, known store, at most {CHANGE} of the Rust"),
        rows,
        |m| m.set.known + m.erase.known <= CHANGE * (m.set.rust + m.erase.rust),
    );
    budget(
        &format!("sweep, known store, at most {SWEEP} tests of the region"),
        rows,
        |m| m.sweeps.iter().all(|swept| swept.in_tests() <= SWEEP),
    );
    budget(
        &format!("the test of a region of names, at most {TEST} ns for each node"),
        rows,
        |m| m.test() <= TEST * m.nodes as f64,
    );
}
