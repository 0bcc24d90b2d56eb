//! The comparison: a candidate is asked once about an input, and each judge looks at its answers.

use std::fmt::Display;

use crate::answers::{in_words, Answer, LevelAnswers, TextAnswers, TopicCalls};
use crate::inputs::{asked_levels, Input};
use crate::reference::Reference;

/// An answer that a judge does not accept.
pub struct Difference {
    pub call: &'static str,
    /// The level that was asked for, in the calls that ask for one.
    pub level: Option<u64>,
    pub judge: &'static str,
    pub found: String,
    pub expected: String,
}

impl Difference {
    /// None where the answer is fine.
    pub fn unless<T: Display>(
        is_fine: bool,
        (judge, call): (&'static str, &'static str),
        found: &Answer<T>,
        expected: impl FnOnce() -> String,
    ) -> Option<Self> {
        (!is_fine).then(|| Difference {
            call,
            level: None,
            judge,
            found: in_words(found),
            expected: expected(),
        })
    }

    pub fn of_level(self, k: u64) -> Self {
        Difference {
            level: Some(k),
            ..self
        }
    }
}

/// Judges answers. It gives the first difference that it sees, or none.
pub trait Judge {
    fn text(&self, text: &[u8], found: &TextAnswers) -> Option<Difference>;
    fn pair(&self, filter: &[u8], name: &[u8], found: Answer) -> Option<Difference>;
}

/// Who answers, and who judges the answers.
pub struct Comparison<'a> {
    pub candidate: &'a dyn TopicCalls,
    pub judges: &'a [&'a dyn Judge],
}

impl Comparison<'_> {
    /// The first difference that a judge sees in the answers to this input.
    pub fn difference(&self, input: &Input) -> Option<Difference> {
        let mut judges = self.judges.iter();
        match input {
            Input::Text(text) => {
                let found = TextAnswers::of(self.candidate, text, &asked_levels(text));
                judges.find_map(|judge| judge.text(text, &found))
            }
            Input::Pair { filter, name } => {
                let found = self.candidate.matches(filter, name);
                judges.find_map(|judge| judge.pair(filter, name, found))
            }
        }
    }
}

/// None where the answers are the same.
fn against_reference<T: Display + PartialEq>(
    call: &'static str,
    found: &Answer<T>,
    expected: &Answer<T>,
) -> Option<Difference> {
    Difference::unless(found == expected, ("reference", call), found, || {
        in_words(expected)
    })
}

fn level_against_reference(found: &LevelAnswers, expected: &LevelAnswers) -> Option<Difference> {
    let kind = against_reference("level_kind", &found.kind, &expected.kind);
    let level = kind.or_else(|| against_reference("level_part", &found.part, &expected.part));
    level.map(|difference| difference.of_level(found.k))
}

/// The reference judges every answer to every input: numbers, places, counts, kinds and parts.
impl Judge for Reference {
    fn text(&self, text: &[u8], found: &TextAnswers) -> Option<Difference> {
        let asked: Vec<u64> = found.levels.iter().map(|level| level.k).collect();
        let expected = TextAnswers::of(self, text, &asked);
        let mut calls = found.by_call().into_iter().zip(expected.by_call());
        let mut levels = found.levels.iter().zip(&expected.levels);
        calls
            .find_map(|((call, found), (_, expected))| against_reference(call, &found, &expected))
            .or_else(|| {
                levels.find_map(|(found, expected)| level_against_reference(found, expected))
            })
    }

    fn pair(&self, filter: &[u8], name: &[u8], found: Answer) -> Option<Difference> {
        against_reference("matches", &found, &self.matches(filter, name))
    }
}
