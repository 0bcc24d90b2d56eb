//! Where the Rust leaves the standards, outside the domain of document 01: the classes of
//! difference, how often each occurs among short inputs, and its smallest input.

use std::collections::BTreeMap;
use std::str;

use rmqtt::topic::is_valid_subscription_filter;

use crate::answers::{in_words, TopicCalls};
use crate::inputs::{spelled, valid_pairs, Input, SYMBOLS};
use crate::matching::{class_of, Class, Matching, ValidPair};
use crate::reference::HONEST;

/// The inputs of one class: how many were seen, and the smallest.
#[derive(Default)]
struct Seen {
    count: u64,
    smallest: Option<Input>,
}

impl Seen {
    fn add(&mut self, input: &Input) {
        self.count += 1;
        let is_smaller = |smallest: &Input| by_size(input) < by_size(smallest);
        if self.smallest.as_ref().is_none_or(is_smaller) {
            self.smallest = Some(input.clone());
        }
    }
}

/// One input is smaller than another if it is shorter, or as long and first by its bytes.
fn by_size(input: &Input) -> (usize, &[u8], &[u8]) {
    match input {
        Input::Text(text) => (text.len(), text, b""),
        Input::Pair { filter, name } => (filter.len() + name.len(), filter, name),
    }
}

/// The classes by their functions. A difference in no known class is kept too, as none.
type Classes = BTreeMap<(Option<Class>, Matching), Seen>;

/// The differences in matching, among all pairs of short valid filters and names.
fn matching_classes(library: &dyn TopicCalls) -> Classes {
    let mut classes = Classes::new();
    for input in valid_pairs(5) {
        let Input::Pair { filter, name } = &input else {
            continue;
        };
        let Some(pair) = ValidPair::of(filter, name) else {
            continue;
        };
        let found = library.matches(filter, name);
        for matching in Matching::BOTH {
            if found != Ok(u64::from(matching.takes(&pair))) {
                let class = class_of(matching, &pair);
                classes.entry((class, matching)).or_default().add(&input);
            }
        }
    }
    classes
}

/// Subscription filters with an empty group. 5.0 section 4.8.2 wants one character or more; the
/// Rust takes none, and document 01 follows it.
fn empty_groups() -> Seen {
    let texts = spelled(SYMBOLS, 4).map(|inner| [b"$share//", &inner[..]].concat());
    let accepted =
        texts.filter(|text| str::from_utf8(text).is_ok_and(is_valid_subscription_filter));
    let mut seen = Seen::default();
    accepted.for_each(|text| seen.add(&Input::Text(text)));
    seen
}

/// Prints every class: how many short inputs, the smallest of them, and the answers to it.
pub fn print(library: &dyn TopicCalls) {
    for ((class, matching), seen) in matching_classes(library) {
        let class = class.map_or("no known class".to_string(), |class| format!("{class:?}"));
        println!("{class}, {}: {} pairs", matching.name(), seen.count);
        if let Some(smallest @ Input::Pair { filter, name }) = &seen.smallest {
            let pair = ValidPair::of(filter, name).expect("it was compared");
            let (standard, found) = (HONEST.matches(filter, name), library.matches(filter, name));
            let rust = u64::from(matching.takes(&pair));
            print_smallest(
                smallest,
                &in_words(&standard),
                &rust.to_string(),
                &in_words(&found),
            );
        }
    }
    let seen = empty_groups();
    println!(
        "EmptyGroup, is_valid_subscription_filter: {} texts",
        seen.count
    );
    if let Some(smallest @ Input::Text(text)) = &seen.smallest {
        let found = library.is_valid_subscription_filter(text);
        print_smallest(smallest, "refused", "accepted", &in_words(&found));
    }
}

fn print_smallest(input: &Input, standard: &str, rust: &str, library: &str) {
    println!("  smallest: {}", input.quoted());
    println!("  standard {standard}, Rust {rust}, library {library}");
}
