//! The library under test, through its C interface.

use crate::answers::{Answer, LevelAnswers, Part, Refusal, TopicCalls};
use crate::cjumbradi::*;
use crate::counts::{count, Called};
use crate::lent::Lent;

/// What stands in a number before the call writes it. No right answer is this number, so a call
/// that writes nothing is noticed.
pub const UNWRITTEN: u64 = 0x5555_5555_5555_5555;

/// The library. An empty slice of Rust has a pointer that is not null, as the interface wants.
pub struct Library;

/// Makes a call that hands back one number.
pub fn asked(called: Called, call: impl FnOnce(&mut u64) -> u64) -> Answer {
    count(called);
    let mut value = UNWRITTEN;
    match call(&mut value) {
        0 => Ok(value),
        number => Err(Refusal {
            number,
            place: value,
        }),
    }
}

fn ask(called: Called, call: TextCall, text: &[u8]) -> Answer {
    let text = Lent::new(text);
    // SAFETY: the pointer and the length are those of a slice, and the value outlives the call.
    asked(called, |value| unsafe {
        call(text.as_ptr(), text.len(), value)
    })
}

impl TopicCalls for Library {
    fn parse(&self, text: &[u8]) -> Answer {
        ask(Called::Parse, cjumbradi_parse, text)
    }

    fn level(&self, text: &[u8], k: u64) -> LevelAnswers {
        let text = Lent::new(text);
        let (at, len) = (text.as_ptr(), text.len());
        let mut length = UNWRITTEN;
        // SAFETY: as in `ask`, with one number more.
        let kind = asked(Called::LevelKind, |kind| unsafe {
            cjumbradi_level_kind(at, len, k, kind)
        });
        let start = asked(Called::LevelPart, |start| unsafe {
            cjumbradi_level_part(at, len, k, start, &mut length)
        });
        LevelAnswers {
            k,
            kind,
            part: start.map(|start| Part { start, length }),
        }
    }

    fn is_valid_topic_name(&self, text: &[u8]) -> Answer {
        ask(
            Called::IsValidTopicName,
            cjumbradi_is_valid_topic_name,
            text,
        )
    }

    fn is_valid_topic_filter(&self, text: &[u8]) -> Answer {
        ask(
            Called::IsValidTopicFilter,
            cjumbradi_is_valid_topic_filter,
            text,
        )
    }

    fn is_valid_subscription_filter(&self, text: &[u8]) -> Answer {
        ask(
            Called::IsValidSubscriptionFilter,
            cjumbradi_is_valid_subscription_filter,
            text,
        )
    }

    fn is_shared_subscription(&self, text: &[u8]) -> Answer {
        ask(
            Called::IsSharedSubscription,
            cjumbradi_is_shared_subscription,
            text,
        )
    }

    fn is_limit_subscription(&self, text: &[u8]) -> Answer {
        ask(
            Called::IsLimitSubscription,
            cjumbradi_is_limit_subscription,
            text,
        )
    }

    fn is_exclusive_subscription(&self, text: &[u8]) -> Answer {
        ask(
            Called::IsExclusiveSubscription,
            cjumbradi_is_exclusive_subscription,
            text,
        )
    }

    fn matches(&self, filter: &[u8], name: &[u8]) -> Answer {
        let (filter, name) = (Lent::new(filter), Lent::new(name));
        // SAFETY: as in `ask`, for two slices.
        asked(Called::Matches, |yes| unsafe {
            cjumbradi_matches(
                filter.as_ptr(),
                filter.len(),
                name.as_ptr(),
                name.len(),
                yes,
            )
        })
    }
}
