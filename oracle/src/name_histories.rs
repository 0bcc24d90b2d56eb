//! Calls on a store of retained names: after each the library must say what the model says, and the
//! Rust where no refusal of 12 to 15 was given.

use crate::answers::in_words;
use crate::beside::Storage;
use crate::buffers::Buffer;
use crate::differ::{debug, differ, differ_from_rust};
use crate::history::{Counted, Stage, Trial, BUFFERS};
use crate::named::{Named, Record};
use crate::random::Random;
use crate::retained::Paged;
use crate::sides::Sides;
use crate::stores::{Counts, Kind, Stored};
use crate::texts;
use crate::twists::Twist;

/// One call. A buffer is longer than what is asked for by so many bytes, or shorter.
#[derive(Clone, Debug)]
pub enum Call {
    Set {
        name: Vec<u8>,
        payload: u64,
        stored: Stored,
    },
    Sweep(u64),
    Lookup {
        filter: Vec<u8>,
        clock: u64,
        over: i64,
    },
    Page {
        clock: u64,
        offset: u64,
        limit: u64,
        over: i64,
    },
    Count,
}

/// Moments and clocks lie around these.
const TIMES: [u64; 9] = [0, 1, 998, 999, 1_000, 1_001, 5_000, u64::MAX - 1, u64::MAX];

/// The sides, and the clock that was read last.
pub struct Names {
    sides: Sides<Named, Storage>,
    clock: u64,
}

fn sorted(mut records: Vec<Record>) -> Vec<Record> {
    records.sort();
    records
}

impl Trial for Names {
    const KIND: &'static str = "names";
    const COUNTS: Call = Call::Count;
    type Call = Call;

    fn new(most: Counts, twist: Option<Twist>) -> Self {
        let named = Named::new(most, twist);
        Names {
            sides: Sides::opened(Kind::Retained, most, named),
            clock: 0,
        }
    }

    fn next(&self, random: &mut Random, stage: &Stage, text: Vec<u8>) -> Call {
        let clock = random.of(&TIMES);
        let over = random.of(&BUFFERS);
        match random.below(20) {
            0..=7 => Call::Set {
                name: text,
                payload: random.of(&[0, 1, 1, 2, 9, u64::MAX]),
                stored: Stored {
                    handle: random.below(stage.values as usize) as u32 * 0x0101_0307,
                    moment: (!random.once_in(3)).then(|| random.of(&TIMES)),
                },
            },
            8..=9 => match self.sides.model.some(random) {
                Some((name, stored)) => Call::Set {
                    name,
                    payload: random.below(2) as u64,
                    stored,
                },
                None => Call::Count,
            },
            10 if random.once_in(4) => Call::Sweep(clock),
            10..=13 => Call::Page {
                clock,
                offset: random.of(&[0, 0, 1, 2, 3, 7, 100, u64::MAX]),
                limit: random.of(&[0, 1, 2, 3, 7, 100, u64::MAX - 1, u64::MAX]),
                over,
            },
            14 => Call::Lookup {
                filter: text,
                clock,
                over,
            },
            _ => Call::Lookup {
                filter: texts::filter(random, &text),
                clock,
                over,
            },
        }
    }

    fn make(&mut self, call: &Call) -> Result<(), String> {
        match call {
            Call::Set {
                name,
                payload,
                stored,
            } => {
                let clock = self.clock;
                self.sides.change(
                    |store| store.set(name, *payload, *stored),
                    |named| named.set(name, *payload, *stored, clock),
                    |rust| rust.set(name, *payload, *stored),
                )
            }
            Call::Sweep(clock) => self.sides.change(
                |store| store.sweep(*clock),
                |named| named.sweep(*clock),
                |rust| rust.sweep(*clock),
            ),
            Call::Lookup {
                filter,
                clock,
                over,
            } => self.lookup(filter, *clock, *over),
            Call::Page {
                clock,
                offset,
                limit,
                over,
            } => self.page(*clock, *offset, *limit, *over),
            Call::Count => self.count(),
        }
    }

    fn counted(call: &Call) -> Counted {
        match call {
            Call::Set { .. } | Call::Sweep(_) => Counted::Change,
            Call::Lookup { .. } | Call::Page { .. } => Counted::Question,
            Call::Count => Counted::Count,
        }
    }
}

impl Names {
    fn lookup(&mut self, filter: &[u8], clock: u64, over: i64) -> Result<(), String> {
        self.clock = clock;
        let Sides { store, model, rust } = &mut self.sides;
        let expected = model.lookup(filter, clock);
        let is_short = |buffer, bytes| model.room().is_short(buffer, bytes);
        let mut buffer = Buffer::new(&expected, |_| over, is_short);
        let found = store.lookup(filter, clock, &mut buffer.lent);
        buffer.judge("model", &found, |listed| listed)?;
        expected.map_or(Ok(()), |records| {
            let of_rust = rust.lookup(filter, clock).map(sorted);
            differ_from_rust(&sorted(records), of_rust, debug)
        })
    }

    fn page(&mut self, clock: u64, offset: u64, limit: u64, over: i64) -> Result<(), String> {
        self.clock = clock;
        let Sides { store, model, rust } = &mut self.sides;
        let (records, more) = model.page(clock, offset, limit);
        let size = (records.len(), more);
        let is_short = |buffer, bytes| model.room().is_short(buffer, bytes);
        let mut buffer = Buffer::new(&Ok(records), |_| over, is_short);
        let found = store.page(clock, offset, limit, &mut buffer.lent);
        let more = u64::from(more);
        buffer.judge("model", &found, |listed| Paged { listed, more })?;
        differ_from_rust(&size, rust.page(clock, offset, limit), debug)
    }

    fn count(&mut self) -> Result<(), String> {
        let Sides { store, model, rust } = &mut self.sides;
        let found = store.count();
        differ("model", &found, &model.count(self.clock), in_words)?;
        let nodes = model.room().nodes() as u64;
        let of_rust = rust.count().map(Ok).zip(rust.nodes());
        differ_from_rust(&(found, nodes), of_rust, debug)
    }
}
