//! Calls on a store of subscriptions: after each the library must say what the model says, and the
//! Rust where no refusal of 12 to 15 was given.

use crate::answers::{in_words, Answer};
use crate::beside::Tree;
use crate::buffers::Buffer;
use crate::differ::{debug, differ, differ_from_rust};
use crate::held::Held;
use crate::history::{Counted, Stage, Trial, BUFFERS};
use crate::random::Random;
use crate::sides::Sides;
use crate::stores::{Counts, Kind};
use crate::texts;
use crate::twists::Twist;

/// One call.
#[derive(Clone, Debug)]
pub enum Call {
    Insert(Vec<u8>, u32),
    Remove(Vec<u8>, u32),
    IsMatch(Vec<u8>),
    /// With a buffer that is longer than the listing by so many bytes, or shorter.
    Listing(Vec<u8>, i64),
    Sizes,
}

pub struct Subscriptions(Sides<Held, Tree>);

impl Trial for Subscriptions {
    const KIND: &'static str = "subscriptions";
    const COUNTS: Call = Call::Sizes;
    type Call = Call;

    fn new(most: Counts, twist: Option<Twist>) -> Self {
        let held = Held::new(most, twist);
        Subscriptions(Sides::opened(Kind::Subscriptions, most, held))
    }

    fn make(&mut self, call: &Call) -> Result<(), String> {
        match call {
            Call::Insert(filter, value) => self.0.change(
                |store| store.insert(filter, *value),
                |held| held.insert(filter, *value),
                |rust| rust.insert(filter, *value),
            ),
            Call::Remove(filter, value) => self.0.change(
                |store| store.remove(filter, *value),
                |held| held.remove(filter, *value),
                |rust| rust.remove(filter, *value),
            ),
            Call::IsMatch(name) => self.is_match(name),
            Call::Listing(name, over) => self.listing(name, *over),
            Call::Sizes => self.sizes(),
        }
    }

    fn counted(call: &Call) -> Counted {
        match call {
            Call::Insert(..) | Call::Remove(..) => Counted::Change,
            Call::IsMatch(_) | Call::Listing(..) => Counted::Question,
            Call::Sizes => Counted::Count,
        }
    }

    fn next(&self, random: &mut Random, stage: &Stage, text: Vec<u8>) -> Call {
        let value = match random.once_in(8) {
            true => random.next() as u32,
            false => random.below(stage.values as usize) as u32,
        };
        match random.below(20) {
            0..=6 => Call::Insert(texts::filter(random, &text), value),
            7 => Call::Remove(texts::filter(random, &text), value),
            8..=9 => match self.0.model.some(random) {
                Some((filter, value)) => Call::Remove(filter, value),
                None => Call::Sizes,
            },
            10 => Call::IsMatch(text),
            _ => Call::Listing(text, random.of(&BUFFERS)),
        }
    }
}

impl Subscriptions {
    fn is_match(&mut self, name: &[u8]) -> Result<(), String> {
        let Sides { store, model, rust } = &mut self.0;
        let found = store.is_match(name);
        differ("model", &found, &model.is_match(name), in_words)?;
        let of_rust = found.is_ok().then(|| rust.is_match(name)).flatten();
        differ_from_rust(&found, of_rust.map(Ok), in_words)
    }

    /// The listing into a buffer that is longer or shorter by so many bytes: the answer, the bytes,
    /// and that those past the listing stay.
    fn listing(&mut self, name: &[u8], over: i64) -> Result<(), String> {
        let Sides { store, model, rust } = &mut self.0;
        let expected = model.listing(name);
        let is_short = |buffer, bytes| model.room().is_short(buffer, bytes);
        let mut buffer = Buffer::new(&expected, |_| over, is_short);
        let found = store.listing(name, &mut buffer.lent);
        buffer.judge("model", &found, |listed| listed)?;
        expected.map_or(Ok(()), |records| {
            differ_from_rust(&records, rust.listing(name), debug)
        })
    }

    fn sizes(&mut self) -> Result<(), String> {
        let Sides { store, model, rust } = &mut self.0;
        let found: [Answer; 2] = store.sizes();
        differ("model", &found, &model.sizes(), debug)?;
        differ_from_rust(&found, rust.sizes().map(|sizes| sizes.map(Ok)), debug)
    }
}
