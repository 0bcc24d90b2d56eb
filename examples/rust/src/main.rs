//! What a gateway does with the two stores, in one small program.
//!
//! It prints what examples/c/broker.c prints.

#[allow(dead_code)]
mod cjumbradi;

use cjumbradi::{Answer, Capacities, Found, Retained, Set, Subscriptions};

const MOST: Capacities = Capacities {
    nodes: 16,
    pairs: 16,
    cells: 16,
};

fn text(bytes: &[u8]) -> String {
    String::from_utf8_lossy(bytes).into_owned()
}

fn answer(what: &str, told: Answer<u64>) {
    match told {
        Ok(value) => println!("{what}: {value}"),
        Err(refusal) => println!("{what}: {refusal}"),
    }
}

fn subscribe(store: &mut Subscriptions, filter: &str, value: u32) {
    let told = store.insert(filter.as_bytes(), value).map(u64::from);
    answer(&format!("subscribe {filter}"), told);
}

fn unsubscribe(store: &mut Subscriptions, filter: &str, value: u32) {
    let told = store.remove(filter.as_bytes(), value).map(u64::from);
    answer(&format!("unsubscribe {filter}"), told);
}

/// Whom a message reaches.
fn list(store: &Subscriptions, name: &str) {
    match store.listing(name.as_bytes()) {
        Err(refusal) => println!("{name}: {refusal}"),
        Ok(hits) => {
            println!("{name} reaches {}", hits.len());
            for (filter, values) in hits {
                let values: Vec<String> = values.iter().map(u32::to_string).collect();
                println!("  {} {}", text(&filter), values.join(" "));
            }
        }
    }
}

fn keep(store: &mut Retained, name: &str, payload: u64, handle: u32, moment: Option<u64>) {
    let what = if payload == 0 { "erase" } else { "keep" };
    let told = store.set(name.as_bytes(), payload, handle, moment);
    answer(&format!("{what} {name}"), told.map(|set: Set| set as u64));
}

fn print_names(names: Vec<Found>) {
    for (name, handle, left) in names {
        let left = left.unwrap_or(0);
        println!("  {}: message {handle}, {left} ms left", text(&name));
    }
}

fn look_up(store: &Retained, filter: &str, clock: u64) {
    match store.lookup(filter.as_bytes(), clock) {
        Err(refusal) => println!("{filter}: {refusal}"),
        Ok(names) => {
            println!("{filter} at {clock}: {}", names.len());
            print_names(names);
        }
    }
}

fn page(store: &Retained, clock: u64, offset: u64, limit: u64) {
    match store.page(clock, offset, limit) {
        Err(refusal) => println!("page: {refusal}"),
        Ok((names, more)) => {
            let more = if more { ", more follow" } else { "" };
            println!("page from {offset}: {}{more}", names.len());
            print_names(names);
        }
    }
}

fn main() -> Answer<()> {
    let mut subscriptions = Subscriptions::open(MOST)?;
    let mut names = Retained::open(MOST)?;

    subscribe(&mut subscriptions, "studioA/+/talk", 7);
    subscribe(&mut subscriptions, "studioA/booth1/#", 3);
    subscribe(&mut subscriptions, "studioA/booth1/#", 2);
    subscribe(&mut subscriptions, "studioA/booth1/#", 2);
    subscribe(&mut subscriptions, "studioA/booth+", 1);
    list(&subscriptions, "studioA/booth1/talk");
    let mut short = [0; 10];
    let told = subscriptions.listing_into(b"studioA/booth1/talk", &mut short);
    answer("studioA/booth1/talk", told);
    unsubscribe(&mut subscriptions, "studioA/+/talk", 7);
    list(&subscriptions, "studioA/booth2/talk");
    let other_kind = Subscriptions::from_region(names.region().to_vec());
    list(&other_kind, "studioA/booth2/talk");

    keep(&mut names, "studioA/booth1/mute", 1, 41, None);
    keep(&mut names, "studioA/booth1/cue", 1, 42, Some(1000));
    keep(&mut names, "studioA/booth1/cue", 1, 43, Some(1500));
    keep(&mut names, "studioA/#", 1, 44, None);
    look_up(&names, "studioA/+/cue", 1000);
    page(&names, 1000, 0, 1);
    page(&names, 1000, 1, 1);
    answer("sweep of names", names.sweep(1500));
    keep(&mut names, "studioA/booth1/mute", 0, 0, None);
    keep(&mut names, "studioA/booth1/mute", 0, 0, None);
    answer("count of names", names.count());
    Ok(())
}
