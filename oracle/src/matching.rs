//! The two functions of the Rust that match one filter with one name: where document 01 binds
//! them to 4.7, and how they leave it elsewhere.

use std::str::{self, FromStr};

use rmqtt::topic::{is_valid_topic_filter, is_valid_topic_name, Topic};

/// A filter and a name that the Rust accepts, as it takes them.
pub struct ValidPair<'t> {
    filter: &'t str,
    name: &'t str,
    parsed_filter: Topic,
    parsed_name: Topic,
}

impl<'t> ValidPair<'t> {
    /// None where the Rust does not accept them.
    pub fn of(filter: &'t [u8], name: &'t [u8]) -> Option<Self> {
        let filter = str::from_utf8(filter).ok()?;
        let name = str::from_utf8(name).ok()?;
        let is_valid = is_valid_topic_filter(filter) && is_valid_topic_name(name);
        is_valid.then(|| ValidPair {
            filter,
            name,
            parsed_filter: Topic::from_str(filter).expect("a valid filter parses"),
            parsed_name: Topic::from_str(name).expect("a valid name parses"),
        })
    }
}

#[derive(Clone, Copy, Debug, PartialEq, Eq, PartialOrd, Ord)]
pub enum Matching {
    /// `Topic::matches`
    Topics,
    /// `Topic::matches_str`
    Strings,
}

impl Matching {
    pub const BOTH: [Matching; 2] = [Matching::Topics, Matching::Strings];

    pub fn name(self) -> &'static str {
        match self {
            Matching::Topics => "Topic::matches",
            Matching::Strings => "Topic::matches_str",
        }
    }

    /// What the Rust answers.
    pub fn takes(self, pair: &ValidPair) -> bool {
        match self {
            Matching::Topics => pair.parsed_filter.matches(&pair.parsed_name),
            Matching::Strings => pair.parsed_filter.matches_str(pair.name),
        }
    }

    /// Document 01's domain: where the answer must be that of 4.7.
    pub fn is_bound(self, pair: &ValidPair) -> bool {
        let no_dollar = !pair.name.split('/').any(|level| level.starts_with('$'));
        let no_blank = !pair.filter.split('/').any(str::is_empty);
        no_dollar && (no_blank || self == Matching::Strings)
    }
}

/// How the Rust leaves 4.7, by the first level where its walk does so.
#[derive(Clone, Copy, Debug, PartialEq, Eq, PartialOrd, Ord)]
pub enum Class {
    /// `+` as the first level takes a name that starts with `$`.
    LeadingPlusOverDollar,
    /// The walk stops at a deeper `+` over a `$` level: a filter that ends there takes the rest.
    PlusOverDollarTakesTheRest,
    /// The walk stops at a deeper `+` over a `$` level: a filter that goes on takes nothing.
    PlusOverDollarTakesNothing,
    /// A deeper `#` takes no level that starts with `$`.
    HashOverDollar,
    /// A blank level of the filter takes any level.
    BlankTakesAnyLevel,
}

/// The class of a pair for which the Rust's answer is not that of 4.7. None where no known class
/// has it.
pub fn class_of(matching: Matching, pair: &ValidPair) -> Option<Class> {
    let takes = matching.takes(pair);
    let levels = pair.filter.split('/').zip(pair.name.split('/'));
    for (depth, (filter, name)) in levels.enumerate() {
        let over_dollar = name.starts_with('$');
        match (filter, takes) {
            ("+", true) if over_dollar && depth == 0 => return Some(Class::LeadingPlusOverDollar),
            ("+", true) if over_dollar => return Some(Class::PlusOverDollarTakesTheRest),
            ("+", false) if over_dollar && depth > 0 => {
                return Some(Class::PlusOverDollarTakesNothing)
            }
            ("#", false) if over_dollar && depth > 0 => return Some(Class::HashOverDollar),
            ("", true) if !name.is_empty() && matching == Matching::Topics => {
                return Some(Class::BlankTakesAnyLevel)
            }
            _ if filter == name || (filter == "+" && !over_dollar) => {}
            _ => return None,
        }
    }
    None
}
