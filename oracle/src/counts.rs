//! How often each call of the library was made.

use std::cell::Cell;

macro_rules! calls {
    ($($call:ident: $name:literal,)*) => {
        /// The calls, as the C interface names them.
        #[derive(Clone, Copy)]
        pub enum Called {
            $($call,)*
        }

        const NAMES: &[&str] = &[$($name),*];
    };
}

calls! {
    Parse: "parse",
    LevelKind: "level_kind",
    LevelPart: "level_part",
    IsValidTopicName: "is_valid_topic_name",
    IsValidTopicFilter: "is_valid_topic_filter",
    IsValidSubscriptionFilter: "is_valid_subscription_filter",
    IsSharedSubscription: "is_shared_subscription",
    IsLimitSubscription: "is_limit_subscription",
    IsExclusiveSubscription: "is_exclusive_subscription",
    Matches: "matches",
    Needed: "needed",
    Open: "open_subscriptions, open_retained",
    NodesSize: "nodes_size",
    ValuesSize: "values_size",
    Count: "count",
    Insert: "insert",
    Remove: "remove",
    IsMatch: "is_match",
    Listing: "listing",
    Set: "set",
    Lookup: "lookup",
    Page: "page",
    Sweep: "sweep",
    KnownInsert: "known_insert",
    KnownRemove: "known_remove",
    KnownIsMatch: "known_is_match",
    KnownListing: "known_listing",
    KnownSet: "known_set",
    KnownLookup: "known_lookup",
    KnownPage: "known_page",
    KnownSweep: "known_sweep",
}

thread_local! {
    static MADE: [Cell<u64>; NAMES.len()] = const { [const { Cell::new(0) }; NAMES.len()] };
}

pub fn count(call: Called) {
    MADE.with(|made| {
        let made = &made[call as usize];
        made.set(made.get() + 1);
    });
}

/// A line for each call, and one for all.
pub fn print() {
    let mut all = 0;
    MADE.with(|made| {
        for (name, made) in NAMES.iter().zip(made) {
            println!("{name}: {}", made.get());
            all += made.get();
        }
    });
    println!("all calls: {all}");
}
