//! The test of the harness itself: the reference answers the examples of document 01, an honest
//! run finds nothing, and every mutation is noticed by each judge that has a say in it.
//!
//! The same for regions: examples, calls whose two forms do not do the same, an honest run, and every condition of a store left
//! out.

use crate::answers::TopicCalls;
use crate::compare::{Comparison, Difference, Judge};
use crate::damage;
use crate::examples;
use crate::history::{self, Trial};
use crate::inputs::Input;
use crate::known;
use crate::library::Library;
use crate::mutation::{self, Mutation};
use crate::name_histories::Names;
use crate::reference::{Reference, HONEST};
use crate::stages::{stages, QUICK};
use crate::store_examples;
use crate::store_judge::{self, StoreJudge};
use crate::subscription_histories::Subscriptions;
use crate::twists::{Twist, OF_EITHER, OF_NAMES, OF_SUBSCRIPTIONS};
use crate::{judges, rust_judge, Totals};

pub fn run(seed: u64) -> Totals {
    let mut totals = Totals::default();
    for (example, is_right) in examples::answered(&HONEST) {
        totals.count((!is_right).then(|| format!("the reference is wrong about {example}")));
    }
    let noise = first_difference(&Library, &judges(), seed);
    totals.count(noise.map(|(input, difference)| {
        format!(
            "an honest run differs, {}: {}",
            input.in_full(),
            difference.in_words()
        )
    }));
    for (mutation, rust_has_a_say) in mutation::all() {
        let mutated = Reference {
            mutation: Some(mutation),
        };
        let noticed = first_difference(&Library, &[&mutated], seed);
        totals.count(unnoticed_mutation(mutation, "reference", noticed));
        if let Some(rust) = rust_judge().filter(|_| rust_has_a_say) {
            let noticed = first_difference(&mutated, &[rust], seed);
            totals.count(unnoticed_mutation(mutation, "Rust", noticed));
        }
    }
    totals
        .and(of_regions(seed))
        .and(of_histories::<Subscriptions>(OF_SUBSCRIPTIONS, seed))
        .and(of_histories::<Names>(OF_NAMES, seed))
}

/// The judge of regions: what it writes down, an honest run, and a judge without each condition.
fn of_regions(seed: u64) -> Totals {
    let mut totals = Totals::default();
    for (example, is_right) in store_examples::written_down() {
        totals.count((!is_right).then(|| format!("{example} is written down wrongly")));
    }
    for (what, is_right) in known::noticed() {
        totals.count((!is_right).then(|| format!("a call in two forms, {what}: not noticed")));
    }
    let noise = damage::first_difference(&damage::HONEST, seed);
    totals.count(noise.map(|wrong| format!("an honest run on regions differs, {wrong}")));
    let is_left = damage::leaves_other_stores(seed);
    totals.count((!is_left).then(|| "no damage leaves another store".to_string()));
    for condition in store_judge::CONDITIONS {
        let judge = StoreJudge {
            left_out: Some(*condition),
        };
        let noticed = damage::first_difference(&judge, seed);
        let noticed = noticed.map(|wrong| format!("without {condition:?}: {wrong:.120}"));
        totals.count(unnoticed(
            &format!("a judge without {condition:?}"),
            noticed,
        ));
    }
    totals
}

/// The model of what is held: an honest run, and every rule of it broken, those of its own kind of
/// store last.
fn of_histories<T: Trial>(of_its_own: &[Twist], seed: u64) -> Totals {
    let mut totals = Totals::default();
    let noise = history::first_difference::<T>(None, seed);
    totals.count(
        noise.map(|(calls, wrong)| format!("an honest history differs, {calls:?}: {wrong}")),
    );
    for twist in [OF_EITHER, of_its_own].concat() {
        let noticed = history::first_difference::<T>(Some(twist), seed);
        let noticed = noticed
            .map(|(calls, wrong)| format!("{twist:?}: after {} calls, {wrong:.100}", calls.len()));
        totals.count(unnoticed(&format!("{twist:?} of {}", T::KIND), noticed));
    }
    totals
}

/// Prints where something wrong was noticed; a complaint if it was not.
fn unnoticed(what: &str, noticed: Option<String>) -> Option<String> {
    match noticed {
        None => Some(format!("{what} is not noticed")),
        Some(where_it_was) => {
            println!("{where_it_was}");
            None
        }
    }
}

/// The same for a mutation before a judge.
fn unnoticed_mutation(mutation: Mutation, judge: &str, noticed: Noticed) -> Option<String> {
    let noticed = noticed.map(|(input, difference)| {
        let (call, input) = (difference.call, input.quoted());
        format!("{mutation:?}: {call} by the {judge}, {input}")
    });
    unnoticed(&format!("by the {judge}, {mutation:?}"), noticed)
}

type Noticed = Option<(Input, Difference)>;

/// The first difference of a small run.
fn first_difference(candidate: &dyn TopicCalls, judges: &[&dyn Judge], seed: u64) -> Noticed {
    let comparison = Comparison { candidate, judges };
    let mut inputs = stages(&QUICK, seed)
        .into_iter()
        .flat_map(|stage| stage.inputs);
    inputs.find_map(|input| {
        let difference = comparison.difference(&input)?;
        Some((input, difference))
    })
}
