//! The calls on texts beside the Rust's: parsing, the validity and prefix tests, one filter and one name.

use std::hint::black_box;
use std::str::FromStr;

use rmqtt::topic::{self, Topic};

use crate::cjumbradi::{self, TextCall};
use crate::lines::{head, line, ns, ratio};
use crate::measures::Effort;
use crate::timing::{medians, Timed};
use crate::workloads::{self, Workload};

/// A call on one text, ours and the Rust's. Each says yes or no.
struct Call {
    name: &'static str,
    ours: fn(&str) -> bool,
    rust: fn(&str) -> bool,
}

const CALLS: [Call; 5] = [
    Call {
        name: "parse",
        ours: |text| is_fine(cjumbradi::cjumbradi_parse, text),
        rust: |text| black_box(Topic::from_str(text)).is_ok(),
    },
    Call {
        name: "is_valid_topic_name",
        ours: |text| is_fine(cjumbradi::cjumbradi_is_valid_topic_name, text),
        rust: |text| topic::is_valid_topic_name(text),
    },
    Call {
        name: "is_valid_topic_filter",
        ours: |text| is_fine(cjumbradi::cjumbradi_is_valid_topic_filter, text),
        rust: |text| topic::is_valid_topic_filter(text),
    },
    Call {
        name: "is_valid_subscription_filter",
        ours: |text| is_fine(cjumbradi::cjumbradi_is_valid_subscription_filter, text),
        rust: |text| topic::is_valid_subscription_filter(text),
    },
    Call {
        name: "is_shared_subscription",
        ours: |text| told(cjumbradi::cjumbradi_is_shared_subscription, text) == (0, 1),
        rust: |text| topic::is_shared_subscription(text),
    },
];

/// What a call returns, and what it hands back.
fn told(call: TextCall, text: &str) -> (u64, u64) {
    let mut value = 0;
    let number = unsafe { call(text.as_ptr(), text.len(), &mut value) };
    (number, value)
}

fn is_fine(call: TextCall, text: &str) -> bool {
    told(call, text).0 == 0
}

/// Whether a filter takes a name: ours, from the texts.
fn takes(filter: &str, name: &str) -> bool {
    let mut yes = 0;
    let number = unsafe {
        cjumbradi::cjumbradi_matches(
            filter.as_ptr(),
            filter.len(),
            name.as_ptr(),
            name.len(),
            &mut yes,
        )
    };
    assert_eq!(number, 0, "the texts of a workload are valid");
    yes == 1
}

/// The Rust's, from the texts too: the filter is parsed, and the name is asked as it stands.
fn rust_takes(filter: &str, name: &str) -> bool {
    let filter = Topic::from_str(filter).expect("the texts of a workload parse");
    filter.matches_str(name)
}

/// The times of both sides in ns for each call; they must answer alike first.
fn timed<T>(
    effort: &Effort,
    all: &[T],
    ours: impl Fn(&T) -> bool,
    rust: impl Fn(&T) -> bool,
) -> [f64; 2] {
    for one in all {
        assert_eq!(ours(one), rust(one), "both sides answer alike");
    }
    let count = |side: &dyn Fn(&T) -> bool| black_box(all.iter().filter(|one| side(one)).count());
    let times = medians(
        effort.rounds,
        &mut [
            Timed::whole(all.len(), || _ = count(&ours)),
            Timed::whole(all.len(), || _ = count(&rust)),
        ],
    );
    [times[0], times[1]]
}

fn row(name: &str, [ours, rust]: [f64; 2]) {
    line(name, &[ns(ours), ns(rust), ratio(ours, rust)]);
}

/// Both sides are compared, measured and printed.
pub fn run(effort: &Effort) {
    let workloads = workloads::all(effort.names);
    for call in &CALLS {
        head(call.name, &["ns", "Rust ns", "ratio"]);
        for workload in &workloads {
            let texts = texts(workload);
            row(
                workload.name,
                timed(
                    effort,
                    &texts,
                    |text| (call.ours)(text),
                    |text| (call.rust)(text),
                ),
            );
        }
    }
    head("matches", &["ns", "Rust ns", "ratio"]);
    for workload in &workloads {
        let pairs = pairs(workload);
        row(
            workload.name,
            timed(
                effort,
                &pairs,
                |(f, n)| takes(f, n),
                |(f, n)| rust_takes(f, n),
            ),
        );
    }
}

/// Its filters, and its names.
fn texts(workload: &Workload) -> Vec<&str> {
    let filters = workload.pairs.iter().map(|(filter, _)| filter.as_str());
    filters
        .chain(workload.names.iter().map(String::as_str))
        .collect()
}

/// A filter with a name, one after another.
fn pairs(workload: &Workload) -> Vec<(&str, &str)> {
    let filters = workload.pairs.iter().map(|(filter, _)| filter.as_str());
    let names = workload.names.iter().map(String::as_str);
    filters.cycle().zip(names).collect()
}
