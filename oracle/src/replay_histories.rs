//! The calls on stores of the replay: histories of each kind, from a seed, with what the Rust
//! answers. They stay within the room of the program's store, because the Rust refuses none for it.

use rmqtt::topic::{is_valid_topic_filter, is_valid_topic_name};

use crate::beside::{Storage as Names, Tree as Subscriptions};
use crate::named::Record;
use crate::random::Random;
use crate::replay::Script;
use crate::replay_texts::yes;
use crate::stores::Stored;
use crate::texts::{self, levels, FAULTY};

/// The room of the program's store: nodes and pairs. It has two cells for each node, and no level
/// here is longer than two cells.
const ROOM: [u64; 2] = [2_048, 512];

/// The most levels that a store takes.
const DEEPEST: usize = 128;

/// How many histories, how many calls in each, and their texts.
type Stage = (u64, usize, fn(&mut Random) -> Vec<u8>);

const STAGES: [Stage; 3] = [
    (8, 105, texts::small_text),
    (2, 120, texts::studio_text),
    (1, 24, texts::deep_text),
];

/// Moments, and clocks around them.
const MOMENTS: [u64; 8] = [1, 999, 1_000, 1_001, 5_000, 5_000, u64::MAX - 1, u64::MAX];
const CLOCKS: [u64; 9] = [0, 0, 1, 998, 999, 1_000, 1_001, 4_999, u64::MAX - 1];

const SEED: u64 = 202;

/// All calls on stores.
pub fn ask(script: &mut Script) {
    for (histories, calls, text) in STAGES {
        for seed in SEED..SEED + histories {
            subscribe(script, Made::new(seed, text), calls);
            retain(script, Made::new(seed, text), calls);
        }
    }
}

/// Texts from a seed, and those that were stored before, so that calls meet what is held.
struct Made {
    random: Random,
    text: fn(&mut Random) -> Vec<u8>,
    /// With their values.
    stored: Vec<(String, u32)>,
}

impl Made {
    fn new(seed: u64, text: fn(&mut Random) -> Vec<u8>) -> Self {
        Made {
            random: Random(seed),
            text,
            stored: Vec::new(),
        }
    }

    /// A name, not too deep for a store.
    fn name(&mut self) -> String {
        loop {
            let text = (self.text)(&mut self.random);
            if levels(&text).len() <= DEEPEST {
                return String::from_utf8(text).expect("it is made of text");
            }
        }
    }

    /// A filter out of a name, not too deep for a store.
    fn filter(&mut self) -> String {
        loop {
            let name = self.name();
            let text = texts::filter(&mut self.random, name.as_bytes());
            if levels(&text).len() <= DEEPEST {
                return String::from_utf8(text).expect("it is made of text");
            }
        }
    }

    /// A text that some call refuses.
    fn faulty(&mut self) -> Option<String> {
        let faulty = self.random.once_in(24).then(|| self.random.of(FAULTY));
        faulty.and_then(|text| String::from_utf8(text.to_vec()).ok())
    }

    /// What was stored before, with its value or another, or another text.
    fn before(&mut self, other: fn(&mut Made) -> String) -> (String, u32) {
        let value = value(&mut self.random);
        if self.stored.is_empty() || self.random.once_in(5) {
            return (other(self), value);
        }
        let place = self.random.below(self.stored.len());
        let (text, old) = self.stored[place].clone();
        match self.random.once_in(5) {
            true => (text, value),
            false => (text, old),
        }
    }

    fn asked_name(&mut self) -> String {
        match self.random.once_in(3) {
            true => self.name(),
            false => self.name_below(),
        }
    }

    /// A name that the filters stored before may take: their wildcards become levels of another name.
    fn name_below(&mut self) -> String {
        let (filter, _) = self.before(Made::name);
        let other = self.name();
        let hash_is_parent = self.random.once_in(3);
        let mut parts = other.split('/');
        let mut made = Vec::new();
        for level in filter.split('/') {
            match level {
                "+" => made.extend(parts.next()),
                "#" if hash_is_parent => {}
                "#" => made.extend(parts.by_ref()),
                level => made.push(level),
            }
        }
        match made.join("/") {
            name if name.is_empty() => other,
            name => name,
        }
    }
}

/// A history on a store of subscriptions.
fn subscribe(script: &mut Script, mut made: Made, calls: usize) {
    let mut rust = Subscriptions::default();
    script.open("subscriptions");
    for _ in 0..calls {
        match made.random.below(16) {
            0..=5 => insert(script, &mut rust, &mut made),
            6..=8 => remove(script, &mut rust, &mut made),
            9..=10 => {
                let name = made.faulty().unwrap_or_else(|| made.asked_name());
                let taken = is_valid_topic_name(&name).then(|| rust.is_match(name.as_bytes()));
                script.ask(
                    "is_match",
                    &name,
                    told(taken, |is_so| yes(is_so == 1).into()),
                );
            }
            11..=14 => listing(script, &rust, &mut made),
            _ => sizes(script, &rust),
        }
        within_room(rust.sizes().expect("the Rust counts"));
    }
}

/// `refused` where the Rust's own test refuses the text, else its answer in words.
fn told<T>(answer: Option<Option<T>>, words: impl FnOnce(T) -> String) -> String {
    match answer {
        None => "refused".into(),
        Some(answer) => words(answer.expect("the Rust answers")),
    }
}

fn number(answer: u64) -> String {
    answer.to_string()
}

fn insert(script: &mut Script, rust: &mut Subscriptions, made: &mut Made) {
    let (held, value) = made.before(Made::filter);
    let filter = match made.random.once_in(4) {
        true => held,
        false => made.faulty().unwrap_or_else(|| made.filter()),
    };
    let is_taken = is_valid_topic_filter(&filter);
    let answer = is_taken.then(|| rust.insert(filter.as_bytes(), value));
    script.ask("insert", format!("{value} {filter}"), told(answer, number));
    if is_taken {
        made.stored.push((filter, value));
    }
}

fn value(random: &mut Random) -> u32 {
    match random.once_in(8) {
        true => random.of(&[0, 255, 256, 70_000, u32::MAX]),
        false => random.below(4) as u32,
    }
}

fn remove(script: &mut Script, rust: &mut Subscriptions, made: &mut Made) {
    let (held, value) = made.before(Made::filter);
    let filter = made.faulty().unwrap_or(held);
    let is_taken = is_valid_topic_filter(&filter);
    let answer = is_taken.then(|| rust.remove(filter.as_bytes(), value));
    script.ask("remove", format!("{value} {filter}"), told(answer, number));
}

/// The records in the Rust's own order, which for one name is settled: of the children of a node only
/// `#`, `+` and one other can be taken.
fn listing(script: &mut Script, rust: &Subscriptions, made: &mut Made) {
    let name = made.faulty().unwrap_or_else(|| made.asked_name());
    let answer = is_valid_topic_name(&name).then(|| rust.listing(name.as_bytes()));
    let words = |records: Vec<(Vec<u8>, Vec<u32>)>| {
        let mut all = String::new();
        for (filter, values) in &records {
            let values: Vec<String> = values.iter().map(u32::to_string).collect();
            all += &format!("hit {} {}; ", text(filter), values.join(" "));
        }
        let values: usize = records.iter().map(|(_, values)| values.len()).sum();
        format!("{all}total {} {values}", records.len())
    };
    script.ask("listing", &name, told(answer, words));
}

fn text(bytes: &[u8]) -> &str {
    std::str::from_utf8(bytes).expect("the Rust's texts are UTF-8")
}

fn sizes(script: &mut Script, rust: &Subscriptions) {
    let [nodes, values] = rust.sizes().expect("the Rust counts");
    script.ask("nodes_size", "", nodes);
    script.ask("values_size", "", values);
}

fn within_room(sizes: [u64; 2]) {
    let fits = sizes.iter().zip(ROOM).all(|(size, room)| *size <= room);
    assert!(
        fits,
        "{sizes:?} are more than the program's store has room for"
    );
}

/// A history on a store of retained names.
fn retain(script: &mut Script, mut made: Made, calls: usize) {
    let mut rust = Names::default();
    script.open("retained");
    for _ in 0..calls {
        match made.random.below(16) {
            0..=6 => set(script, &mut rust, &mut made),
            7..=11 => lookup(script, &rust, &mut made),
            12..=13 => page(script, &rust, &mut made.random),
            14 if made.random.once_in(2) => {
                let clock = made.random.of(&CLOCKS[..7]);
                let removed = rust.sweep(clock).expect("the Rust sweeps");
                script.ask("sweep", clock, removed);
            }
            _ => script.ask("count", "", rust.count().expect("the Rust counts")),
        }
        let sizes = [rust.nodes(), rust.count()];
        within_room(sizes.map(|size| size.expect("the Rust counts")));
    }
}

fn set(script: &mut Script, rust: &mut Names, made: &mut Made) {
    let payload = made.random.of(&[0, 1, 1, 1, 9, u64::MAX]);
    let (held, handle) = made.before(Made::name);
    let name = match payload == 0 || made.random.once_in(3) {
        true => held,
        false => made.faulty().unwrap_or_else(|| made.name()),
    };
    let moment = (!made.random.once_in(3)).then(|| made.random.of(&MOMENTS));
    let is_taken = is_valid_topic_name(&name);
    let answer = is_taken.then(|| rust.set(name.as_bytes(), payload, Stored { handle, moment }));
    let moment = moment.map_or("never".into(), number);
    let arguments = format!("{payload} {handle} {moment} {name}");
    script.ask("set", arguments, told(answer, number));
    if is_taken {
        made.stored.push((name, handle));
    }
}

/// Document 01 compares lookups as sets, so the records stand in its order: by levels, levels by
/// their bytes.
fn lookup(script: &mut Script, rust: &Names, made: &mut Made) {
    let (held, _) = made.before(Made::filter);
    let filter = match made.random.below(6) {
        0 => held,
        1 => made.faulty().unwrap_or_else(|| made.filter()),
        _ => {
            // Twice, so that wildcards are common.
            let filter = texts::filter(&mut made.random, held.as_bytes());
            text(&texts::filter(&mut made.random, &filter)).into()
        }
    };
    let clock = made.random.of(&CLOCKS);
    let answer = is_valid_topic_filter(&filter).then(|| rust.lookup(filter.as_bytes(), clock));
    let words = |mut records: Vec<Record>| {
        records.sort_by(|(one, ..), (other, ..)| levels(one).cmp(&levels(other)));
        let mut all = String::new();
        for (name, handle, left) in &records {
            all += &format!("kept {} {handle} {left}; ", text(name));
        }
        format!("{all}total {}", records.len())
    };
    script.ask("lookup", format!("{clock} {filter}"), told(answer, words));
}

/// Document 01 compares pages by their number of records and whether more follows.
fn page(script: &mut Script, rust: &Names, random: &mut Random) {
    let clock = random.of(&CLOCKS);
    let offset = random.of(&[0, 0, 1, 2, 3, 7, 30, 100]);
    let limit = random.of(&[0, 1, 2, 3, 7, 30, u64::MAX - 100]);
    let page = rust.page(clock, offset, limit);
    let (records, more) = page.expect("the Rust's sum does not overflow");
    let more = if more { "more" } else { "no more" };
    let arguments = format!("{clock} {offset} {limit}");
    script.ask("page", arguments, format!("{records} {more}"));
}
