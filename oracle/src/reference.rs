//! The text rules written a second time: from MQTT 4.7 and 4.8.2, RFC 3629 section 4 and
//! document 01, not from the Rust nor from the library.
//!
//! Every fault of a text is found on its own, and the one with the least number goes out: that is
//! document 01's order. Where a `mutation` is named, that one rule is broken on purpose.

use std::ops::RangeInclusive;

use crate::answers::number::*;
use crate::answers::{Answer, Kind, LevelAnswers, Part, Refusal, TopicCalls};
use crate::mutation::Mutation::{self, *};

/// The reference, honest where no mutation is named.
#[derive(Clone, Copy, Debug)]
pub struct Reference {
    pub mutation: Option<Mutation>,
}

/// The reference that judges.
pub const HONEST: Reference = Reference { mutation: None };

/// RFC 3629 section 4, UTF8-tail: what stands behind the first byte of a character.
const TAIL: RangeInclusive<u8> = 0x80..=0xBF;

/// A fault of a text, or none.
type Fault = Option<Refusal>;

/// A fault that names no level.
fn fault(number: u64, stands: bool) -> Fault {
    stands.then_some(Refusal { number, place: 0 })
}

fn has_wildcard(text: &[u8]) -> bool {
    text.iter().any(|byte| b"+#".contains(byte))
}

impl Reference {
    fn broken(&self, rule: Mutation) -> bool {
        self.mutation == Some(rule)
    }

    /// RFC 3629 section 4: how many bytes a character has that begins with `lead`, and between
    /// which two its second byte stands. No character begins with any other byte.
    fn lead(&self, lead: u8) -> Option<(usize, RangeInclusive<u8>)> {
        match lead {
            0x00..=0x7F => Some((1, TAIL)),
            0xC0 | 0xC1 if self.broken(OverlongFormAccepted(2)) => Some((2, TAIL)),
            0xC2..=0xDF => Some((2, TAIL)),
            0xE0 if self.broken(OverlongFormAccepted(3)) => Some((3, TAIL)),
            0xE0 => Some((3, 0xA0..=0xBF)),
            0xED if self.broken(SurrogateAccepted) => Some((3, TAIL)),
            0xED => Some((3, 0x80..=0x9F)),
            0xE1..=0xEC | 0xEE..=0xEF => Some((3, TAIL)),
            0xF0 if self.broken(OverlongFormAccepted(4)) => Some((4, TAIL)),
            0xF0 => Some((4, 0x90..=0xBF)),
            0xF1..=0xF3 => Some((4, TAIL)),
            0xF4 if self.broken(AboveLastCharacterAccepted) => Some((4, TAIL)),
            0xF4 => Some((4, 0x80..=0x8F)),
            _ => None,
        }
    }

    /// How many bytes the first character of a text has. None where no character stands there.
    fn first_character(&self, text: &[u8]) -> Option<usize> {
        let (length, second) = self.lead(*text.first()?)?;
        let character = match self.mutation {
            Some(CutCharacterAccepted) => &text[..length.min(text.len())],
            _ => text.get(..length)?,
        };
        let is_whole = match character {
            [_, byte, tails @ ..] => {
                second.contains(byte) && tails.iter().all(|tail| TAIL.contains(tail))
            }
            _ => true,
        };
        is_whole.then_some(character.len())
    }

    /// RFC 3629 section 4, UTF8-octets: a text is characters one after another.
    fn is_utf8(&self, text: &[u8]) -> bool {
        let mut rest = text;
        while let Some(length) = self.first_character(rest) {
            rest = &rest[length..];
        }
        rest.is_empty()
    }

    /// 1 to 65,535 bytes (MQTT 1.5.4, 4.7.3).
    fn is_too_long(&self, text: &[u8]) -> bool {
        match self.mutation {
            Some(LongestIs(longest)) => text.len() > longest,
            Some(LengthInCharacters) => String::from_utf8_lossy(text).chars().count() > 65_535,
            _ => text.len() > 65_535,
        }
    }

    /// 1 to 4, the faults of any text on the wire (MQTT 1.5.4, 4.7.3).
    fn wire_faults(&self, text: &[u8]) -> [Fault; 4] {
        [
            fault(EMPTY, text.is_empty() && !self.broken(EmptyAccepted)),
            fault(TOO_LONG, self.is_too_long(text)),
            fault(NOT_UTF8, !self.is_utf8(text)),
            fault(HAS_NUL, text.contains(&0) && !self.broken(NulAccepted)),
        ]
    }

    /// A text splits at each `/`. The empty text is one blank level.
    fn levels<'t>(&self, text: &'t [u8]) -> Vec<&'t [u8]> {
        let mut levels: Vec<_> = text.split(|byte| *byte == b'/').collect();
        if self.broken(LastBlankLevelDropped) && levels.last().is_some_and(|last| last.is_empty()) {
            levels.pop();
        }
        levels
    }

    /// The kind of a level. A longer level that contains `+` or `#` is bad and has none.
    fn kind(&self, level: &[u8]) -> Option<Kind> {
        match level {
            b"" => Some(Kind::Blank),
            b"+" => Some(Kind::SingleWildcard),
            b"#" => Some(Kind::MultiWildcard),
            _ if has_wildcard(level) && !self.broken(WildcardInLevelAccepted) => None,
            [b'$', ..] if !self.broken(MetadataIsNormal) => Some(Kind::Metadata),
            _ => Some(Kind::Normal),
        }
    }

    /// 6 and 7, each with the first level that has the fault: a bad level, and a `#` that is not
    /// last.
    fn level_faults(&self, levels: &[&[u8]]) -> [Fault; 2] {
        let before_last = &levels[..levels.len().saturating_sub(1)];
        let is_hash = |level: &&[u8]| *level == b"#" && !self.broken(HashInTheMiddleAccepted);
        [
            self.level_fault(BAD_LEVEL, levels, |level| self.kind(level).is_none()),
            self.level_fault(HASH_NOT_LAST, before_last, is_hash),
        ]
    }

    /// The place of a faulty level is its number, from 0.
    fn level_fault(
        &self,
        number: u64,
        levels: &[&[u8]],
        is_faulty: impl Fn(&&[u8]) -> bool,
    ) -> Fault {
        let level = match self.mutation {
            Some(LastFaultyLevelNamed) => levels.iter().rposition(is_faulty),
            Some(PlaceOffByOne) => levels.iter().position(is_faulty).map(|level| level + 1),
            _ => levels.iter().position(is_faulty),
        };
        level.map(|level| Refusal {
            number,
            place: level as u64,
        })
    }

    /// Document 01's order: of several faults the one with the least number is the refusal.
    fn answer<T>(&self, faults: impl IntoIterator<Item = Fault>, value: T) -> Answer<T> {
        let faults: Vec<Refusal> = faults.into_iter().flatten().collect();
        match faults.iter().min_by_key(|fault| fault.number) {
            None => Ok(value),
            Some(&least) => Err(self.refusal(least, &faults)),
        }
    }

    /// The fault of the least number as it goes out: as it is, unless the mutation is about it.
    fn refusal(&self, least: Refusal, faults: &[Refusal]) -> Refusal {
        let other = |number| faults.iter().find(|fault| fault.number == number).copied();
        let place = least.place;
        match self.mutation {
            Some(OrderTurned(low, high)) if least.number == low => other(high).unwrap_or(least),
            Some(NumbersSwapped(a, number)) if least.number == a => Refusal { number, place },
            Some(NumbersSwapped(number, b)) if least.number == b => Refusal { number, place },
            _ => least,
        }
    }

    /// A fixed byte string compared with the start of the text.
    fn starts_with(&self, text: &[u8], prefix: &[u8]) -> bool {
        match self.mutation {
            Some(PrefixWithoutItsSlash) => text.starts_with(&prefix[..prefix.len() - 1]),
            Some(PrefixInAnyCase) => text
                .get(..prefix.len())
                .is_some_and(|start| start.eq_ignore_ascii_case(prefix)),
            _ => text.starts_with(prefix),
        }
    }

    /// The test of a shared subscription (MQTT 5.0, 4.8.2): `rest` stands after `$share/`. The
    /// group goes up to the next `/`, and the inner filter stands after that.
    fn shared_filter(&self, text: &[u8], rest: &[u8]) -> Answer {
        let end = rest.iter().position(|byte| *byte == b'/');
        let (group, inner) = rest.split_at(end.unwrap_or(rest.len()));
        let inner = inner.get(1..).filter(|inner| !inner.is_empty());
        let no_inner = inner.is_none() && !self.broken(MissingInnerAccepted);
        let bad_group = match self.mutation {
            Some(EmptyGroupRefused) if group.is_empty() => true,
            Some(WildcardInGroupAccepted) => false,
            _ => has_wildcard(group) || group.contains(&0),
        };
        let faults = self.wire_faults(text).into_iter();
        let faults = faults.chain(inner.map_or([None, None], |inner| self.inner_faults(inner)));
        let faults = faults.chain([fault(NO_INNER, no_inner), fault(BAD_GROUP, bad_group)]);
        self.answer(faults, 0)
    }

    /// 6 and 7 of an inner filter count its own levels.
    fn inner_faults(&self, inner: &[u8]) -> [Fault; 2] {
        let outer_levels = match self.mutation {
            Some(InnerCountedOverWholeText) => 2,
            _ => 0,
        };
        self.level_faults(&self.levels(inner)).map(|fault| {
            fault.map(|Refusal { number, place }| Refusal {
                number,
                place: place + outer_levels,
            })
        })
    }

    /// The levels of a text that parsing accepts. It refuses with 3, 6 and 7 alone.
    fn parsed<'t>(&self, text: &'t [u8]) -> Answer<Vec<&'t [u8]>> {
        let levels = self.levels(text);
        let not_utf8 = fault(NOT_UTF8, !self.is_utf8(text));
        let faults = self.level_faults(&levels).into_iter().chain([not_utf8]);
        self.answer(faults, levels)
    }

    /// Level k and where it begins; none past the end, and none of a text that parsing refuses.
    fn level_at<'t>(&self, text: &'t [u8], k: u64) -> Option<(u64, &'t [u8])> {
        let levels = match self.mutation {
            Some(RefusedTextHasLevels) => self.levels(text),
            _ => self.parsed(text).ok()?,
        };
        let k = match self.mutation {
            Some(LevelNumberCutTo32Bits) => u64::from(k as u32),
            _ => k,
        };
        let k = usize::try_from(k).ok()?;
        let level = levels.get(k)?;
        let start: usize = levels[..k].iter().map(|before| before.len() + 1).sum();
        Some((start as u64, level))
    }

    /// MQTT 4.7 for the levels of a valid filter and those of a valid name.
    fn takes(&self, filter: &[&[u8]], name: &[&[u8]]) -> bool {
        let (before_hash, has_hash) = match filter {
            [before @ .., b"#"] => (before, true),
            _ => (filter, false),
        };
        !self.dollar_rule_forbids(filter, name)
            && self.depth_fits(before_hash, has_hash, name.len())
            && before_hash
                .iter()
                .zip(name)
                .all(|(filter, name)| self.level_takes(filter, name))
    }

    /// 4.7.2: a leading `+` or `#` takes no name whose first level starts with `$`.
    fn dollar_rule_forbids(&self, filter: &[&[u8]], name: &[&[u8]]) -> bool {
        let over_dollar = |(filter, name): (&&[u8], &&[u8])| match *filter {
            b"+" => name.starts_with(b"$") && !self.broken(DollarRuleForHashAlone),
            b"#" => name.starts_with(b"$") && !self.broken(DollarRuleForPlusAlone),
            _ => false,
        };
        let mut levels = filter.iter().zip(name);
        match self.mutation {
            Some(DollarRuleDropped) => false,
            Some(DollarRuleAtEveryLevel) => levels.any(over_dollar),
            _ => levels.next().is_some_and(over_dollar),
        }
    }

    /// 4.7.1.2: `#` takes the rest and also its parent. Without it the levels are as many.
    fn depth_fits(&self, before_hash: &[&[u8]], has_hash: bool, name: usize) -> bool {
        let depth = before_hash.len();
        match self.mutation {
            Some(HashLosesItsParent) if has_hash => name > depth,
            Some(HashTakesOneLevel) if has_hash => name == depth || name == depth + 1,
            Some(PlusTakesEnd) if before_hash.ends_with(&[b"+"]) && name + 1 == depth => true,
            _ if has_hash => name >= depth,
            _ => name == depth,
        }
    }

    /// 4.7.1.3: `+` takes one level, blank included. Any other level takes its equal.
    fn level_takes(&self, filter: &[u8], name: &[u8]) -> bool {
        match self.mutation {
            Some(BlankTakesAnyLevel) if filter.is_empty() => true,
            Some(PlusTakesNoBlank) if name.is_empty() => filter.is_empty(),
            Some(LiteralTakesLongerLevel) if !filter.is_empty() => {
                filter == b"+" || name.starts_with(filter)
            }
            _ => filter == b"+" || filter == name,
        }
    }
}

impl TopicCalls for Reference {
    fn parse(&self, text: &[u8]) -> Answer {
        self.parsed(text).map(|levels| levels.len() as u64)
    }

    fn level(&self, text: &[u8], k: u64) -> LevelAnswers {
        let level = self.level_at(text, k);
        let kind = level.and_then(|(_, level)| self.kind(level));
        let (start, level) = level.unwrap_or(match self.mutation {
            Some(EmptyPartAtStart) => (0, b""),
            _ => (text.len() as u64, b""),
        });
        let length = level.len() as u64;
        LevelAnswers {
            k,
            kind: Ok(kind.unwrap_or(Kind::None) as u64),
            part: Ok(Part { start, length }),
        }
    }

    fn is_valid_topic_name(&self, text: &[u8]) -> Answer {
        let wildcard = has_wildcard(text) && !self.broken(WildcardInNameAccepted);
        let faults = self.wire_faults(text).into_iter();
        self.answer(faults.chain([fault(HAS_WILDCARD, wildcard)]), 0)
    }

    fn is_valid_topic_filter(&self, text: &[u8]) -> Answer {
        let faults = self.wire_faults(text).into_iter();
        self.answer(faults.chain(self.level_faults(&self.levels(text))), 0)
    }

    fn is_valid_subscription_filter(&self, text: &[u8]) -> Answer {
        if self.starts_with(text, b"$share/") {
            self.shared_filter(text, text.get(b"$share/".len()..).unwrap_or_default())
        } else {
            self.is_valid_topic_filter(text)
        }
    }

    fn is_shared_subscription(&self, text: &[u8]) -> Answer {
        Ok(u64::from(self.starts_with(text, b"$share/")))
    }

    fn is_limit_subscription(&self, text: &[u8]) -> Answer {
        Ok(u64::from(self.starts_with(text, b"$limit/")))
    }

    fn is_exclusive_subscription(&self, text: &[u8]) -> Answer {
        Ok(u64::from(self.starts_with(text, b"$exclusive/")))
    }

    fn matches(&self, filter: &[u8], name: &[u8]) -> Answer {
        let of_filter = self.is_valid_topic_filter(filter);
        let of_name = self.is_valid_topic_name(name);
        let fault = match self.mutation {
            Some(NameFaultFirst) => of_name.and(of_filter),
            _ => of_filter.and(of_name),
        };
        fault.map(|_| u64::from(self.takes(&self.levels(filter), &self.levels(name))))
    }
}
