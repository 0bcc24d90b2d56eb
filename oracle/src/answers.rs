//! The calls of the topic layer and what they answer: the words that the library, the reference
//! and the judges share.

use std::fmt;

use crate::cjumbradi::kind;
pub use crate::cjumbradi::refusal as number;

/// A refusal of document 01: its number, and its place (0 where no place is named).
#[derive(Clone, Copy, Debug, PartialEq, Eq)]
pub struct Refusal {
    pub number: u64,
    pub place: u64,
}

/// What a call answers: its value, or a refusal.
pub type Answer<T = u64> = Result<T, Refusal>;

/// A refusal that names no place.
pub fn refused<T>(number: u64) -> Answer<T> {
    Err(Refusal { number, place: 0 })
}

/// A level as a part of the caller's text.
#[derive(Clone, Copy, Debug, PartialEq, Eq)]
pub struct Part {
    pub start: u64,
    pub length: u64,
}

/// The kinds of a level, with the numbers of the C interface.
#[derive(Clone, Copy, Debug, PartialEq, Eq)]
pub enum Kind {
    None = kind::NONE as isize,
    Normal = kind::NORMAL as isize,
    Metadata = kind::METADATA as isize,
    Blank = kind::BLANK as isize,
    SingleWildcard = kind::SINGLE_WILDCARD as isize,
    MultiWildcard = kind::MULTI_WILDCARD as isize,
}

/// The public calls of the topic layer. The library has them, and so has the reference.
pub trait TopicCalls {
    /// The number of levels; refused with 3, 6 or 7.
    fn parse(&self, text: &[u8]) -> Answer;
    /// The kind of level k and where it stands in the text: two calls of the library.
    fn level(&self, text: &[u8], k: u64) -> LevelAnswers;
    /// The three validity tests answer 0 for a text that they accept.
    fn is_valid_topic_name(&self, text: &[u8]) -> Answer;
    fn is_valid_topic_filter(&self, text: &[u8]) -> Answer;
    fn is_valid_subscription_filter(&self, text: &[u8]) -> Answer;
    /// The three prefix tests answer 1 for yes and 0 for no.
    fn is_shared_subscription(&self, text: &[u8]) -> Answer;
    fn is_limit_subscription(&self, text: &[u8]) -> Answer;
    fn is_exclusive_subscription(&self, text: &[u8]) -> Answer;
    /// 1 where the filter takes the name, else 0.
    fn matches(&self, filter: &[u8], name: &[u8]) -> Answer;
}

/// What is answered for level k: the number of its `Kind`, and its part.
pub struct LevelAnswers {
    pub k: u64,
    pub kind: Answer,
    pub part: Answer<Part>,
}

/// What is answered for one text, by every call that takes one text.
pub struct TextAnswers {
    pub parse: Answer,
    pub name: Answer,
    pub filter: Answer,
    pub subscription: Answer,
    pub shared: Answer,
    pub limit: Answer,
    pub exclusive: Answer,
    pub levels: Vec<LevelAnswers>,
}

impl TextAnswers {
    /// Asks every call about the text, and the level calls about each level of `asked`.
    pub fn of(calls: &dyn TopicCalls, text: &[u8], asked: &[u64]) -> Self {
        TextAnswers {
            parse: calls.parse(text),
            name: calls.is_valid_topic_name(text),
            filter: calls.is_valid_topic_filter(text),
            subscription: calls.is_valid_subscription_filter(text),
            shared: calls.is_shared_subscription(text),
            limit: calls.is_limit_subscription(text),
            exclusive: calls.is_exclusive_subscription(text),
            levels: asked.iter().map(|k| calls.level(text, *k)).collect(),
        }
    }

    /// The answers that are one number, by the names of their calls.
    pub fn by_call(&self) -> [(&'static str, Answer); 7] {
        [
            ("parse", self.parse),
            ("is_valid_topic_name", self.name),
            ("is_valid_topic_filter", self.filter),
            ("is_valid_subscription_filter", self.subscription),
            ("is_shared_subscription", self.shared),
            ("is_limit_subscription", self.limit),
            ("is_exclusive_subscription", self.exclusive),
        ]
    }
}

/// An answer as a reader of document 01 would write it.
pub fn in_words<T: fmt::Display>(answer: &Answer<T>) -> String {
    match answer {
        Ok(value) => value.to_string(),
        Err(refusal) => format!("refused {} at {}", refusal.number, refusal.place),
    }
}

impl fmt::Display for Part {
    fn fmt(&self, f: &mut fmt::Formatter<'_>) -> fmt::Result {
        write!(f, "{} bytes from {}", self.length, self.start)
    }
}
