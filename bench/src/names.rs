//! The store of retained names beside the Rust's.

mod agree;
mod library;
mod measures;
mod rust;
mod table;
mod workloads;

use crate::lines::Row;
use crate::measures::Effort;

/// A record: its name, its handle and its remaining time.
pub type Record = (Vec<u8>, u32, u64);

/// Half of the records expire at the first moment, the others at the second.
const MOMENTS: [u64; 2] = [1_000, 2_000];

/// When names are looked up: nothing has expired.
const LOOKED_UP: u64 = 500;

/// A sweep at these times removes all, half and none.
const SWEPT: [(&str, u64); 3] = [("all", 2_000), ("half", 1_000), ("none", 999)];

/// The records that a page has at most.
const LIMIT: u64 = 50;

/// The moment of the record that is set at this place.
fn moment(place: usize) -> u64 {
    MOMENTS[place % 2]
}

/// Where the two pages that are asked for begin.
fn offsets(count: usize) -> [u64; 2] {
    [0, count as u64 / 2]
}

/// Both sides are compared, measured and printed.
pub fn run(effort: &Effort) {
    let mut rows = Vec::new();
    for workload in workloads::all(effort.names) {
        let (library, rust) = agree::filled(&workload);
        let measured = measures::measured(effort, &workload, &library, &rust);
        rows.push(Row {
            name: workload.name,
            held: workload.names.len(),
            measured,
        });
    }
    table::print(&rows);
}
