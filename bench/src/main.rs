//! The library beside the Rust: times and their ratios, ours / Rust.
//!
//!     bench [--quick]

mod agree;
#[path = "../../include/cjumbradi.rs"]
mod cjumbradi;
#[path = "../../include/cjumbradi_known.rs"]
mod cjumbradi_known;
mod library;
mod lines;
mod measures;
mod names;
#[path = "../../oracle/src/random.rs"]
mod random;
mod read;
mod rust;
mod store;
mod table;
mod texts;
mod timing;
mod workloads;

use std::{env, process};

use lines::Row;
use measures::Effort;

/// A run, and one that only shows that all works.
const WHOLE: Effort = Effort {
    rounds: 21,
    names: 2_000,
    changed: 1_000,
};
const QUICK: Effort = Effort {
    rounds: 3,
    names: 100,
    changed: 200,
};

fn main() {
    let words: Vec<String> = env::args().skip(1).collect();
    let effort = match words.iter().map(String::as_str).collect::<Vec<_>>()[..] {
        [] => WHOLE,
        ["--quick"] => QUICK,
        _ => {
            eprintln!("usage: bench/run [--quick]");
            process::exit(2);
        }
    };
    println!("{}; medians of {} rounds", table::machine(), effort.rounds);
    println!("{}", table::hasher());
    let mut rows = Vec::new();
    for workload in workloads::all(effort.names) {
        let (mut library, rust) = agree::filled(&workload);
        let measured = measures::measured(&effort, &workload, &mut library, &rust);
        rows.push(Row {
            name: workload.name,
            held: workload.pairs.len(),
            measured,
        });
    }
    table::print(&rows);
    names::run(&effort);
    texts::run(&effort);
}
