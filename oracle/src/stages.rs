//! Which inputs make up a run, stage by stage.

use crate::inputs::{self, Input, LEVEL_SYMBOLS, SYMBOLS, UTF8_EDGES};
use crate::{long, random_inputs};

/// A named set of inputs.
pub struct Stage {
    pub name: &'static str,
    pub inputs: Box<dyn Iterator<Item = Input>>,
}

/// How far a run goes: the longest inputs of a stage, in symbols, and the number of random ones.
/// Of the sets that have no such bound, one input in `one_in` is taken.
pub struct Effort {
    short_texts: u32,
    level_texts: u32,
    behind_starts: u32,
    utf8_edges: u32,
    oddities: usize,
    valid_pairs: u32,
    faulty_pairs: u32,
    random: usize,
    random_long: usize,
    one_in: usize,
}

/// The run of the gate.
pub const GATE: Effort = Effort {
    short_texts: 5,
    level_texts: 7,
    behind_starts: 4,
    utf8_edges: 4,
    oddities: 40,
    valid_pairs: 5,
    faulty_pairs: 3,
    random: 200_000,
    random_long: 50,
    one_in: 1,
};

/// A small part of it, for trying mutations. What this notices, the gate notices.
pub const QUICK: Effort = Effort {
    short_texts: 3,
    level_texts: 4,
    behind_starts: 2,
    utf8_edges: 2,
    oddities: 3,
    valid_pairs: 3,
    faulty_pairs: 1,
    random: 1_000,
    random_long: 0,
    one_in: 13,
};

fn texts(name: &'static str, texts: impl Iterator<Item = Vec<u8>> + 'static) -> Stage {
    let inputs = Box::new(texts.map(Input::Text));
    Stage { name, inputs }
}

fn pairs(name: &'static str, pairs: impl Iterator<Item = Input> + 'static) -> Stage {
    let inputs = Box::new(pairs);
    Stage { name, inputs }
}

/// The stages, quick ones first.
pub fn stages(effort: &Effort, seed: u64) -> Vec<Stage> {
    vec![
        pairs("valid pairs", inputs::valid_pairs(effort.valid_pairs)),
        pairs("random pairs", random_inputs::pairs(seed, effort.random)),
        texts("short texts", inputs::spelled(SYMBOLS, effort.short_texts)),
        texts(
            "texts of / + # $ a",
            inputs::spelled(LEVEL_SYMBOLS, effort.level_texts),
        ),
        texts(
            "behind $share/ and the like",
            inputs::behind_starts(effort.behind_starts),
        ),
        texts(
            "changed prefixes",
            inputs::changed_prefixes().step_by(effort.one_in),
        ),
        texts(
            "one byte and two",
            inputs::one_and_two_bytes().step_by(effort.one_in),
        ),
        texts(
            "edges of UTF-8",
            inputs::spelled(UTF8_EDGES, effort.utf8_edges),
        ),
        texts(
            "one oddity at each place",
            inputs::oddities(effort.oddities),
        ),
        texts("random texts", random_inputs::texts(seed, effort.random)),
        pairs(
            "pairs with faults",
            inputs::faulty_pairs(effort.faulty_pairs),
        ),
        texts("long texts", long::texts().step_by(effort.one_in)),
        texts(
            "random long texts",
            random_inputs::long_texts(seed, effort.random_long),
        ),
        pairs("long pairs", long::pairs().step_by(effort.one_in)),
    ]
}
