//! The run of the gate: every stage compared, counted, and each kind of difference printed with
//! its smallest input.

use std::collections::BTreeMap;
use std::time::Instant;

use crate::compare::{Comparison, Difference};
use crate::inputs::Input;
use crate::shrink::shrunk;
use crate::stages::Stage;
use crate::Totals;

/// The inputs of one stage that show the same kind of difference.
struct Finding {
    count: u64,
    first: Input,
    difference: Difference,
}

/// The findings of a stage, by call and judge.
type Findings = BTreeMap<(&'static str, &'static str), Finding>;

pub fn run(comparison: &Comparison, stages: Vec<Stage>) -> Totals {
    let mut totals = Totals::default();
    for stage in stages {
        let started = Instant::now();
        let (cases, findings) = compared(comparison, stage.inputs);
        let seconds = started.elapsed().as_secs_f64();
        println!("{}: {cases} cases, {seconds:.2} s", stage.name);
        let failed: u64 = findings.values().map(|finding| finding.count).sum();
        totals.failed += failed;
        totals.passed += cases - failed;
        findings
            .into_values()
            .for_each(|finding| print(comparison, finding));
    }
    totals
}

/// How many cases there were, and what was found.
fn compared(comparison: &Comparison, inputs: impl Iterator<Item = Input>) -> (u64, Findings) {
    let mut cases = 0;
    let mut findings = Findings::new();
    for input in inputs {
        cases += 1;
        if let Some(difference) = comparison.difference(&input) {
            let kind = (difference.call, difference.judge);
            let finding = findings.entry(kind).or_insert(Finding {
                count: 0,
                first: input,
                difference,
            });
            finding.count += 1;
        }
    }
    (cases, findings)
}

fn print(comparison: &Comparison, finding: Finding) {
    let Finding {
        count,
        first,
        difference,
    } = finding;
    println!("  difference in {count} cases, first: {}", first.in_full());
    println!("    {}", difference.in_words());
    let same_kind =
        |other: &Difference| other.call == difference.call && other.judge == difference.judge;
    let smallest = shrunk(first, |input| {
        comparison
            .difference(input)
            .is_some_and(|other| same_kind(&other))
    });
    println!("  smallest: {}", smallest.in_full());
    if let Some(difference) = comparison.difference(&smallest) {
        println!("    {}", difference.in_words());
    }
}
