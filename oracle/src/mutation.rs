//! Rules broken on purpose, one at a time.
//!
//! The self-test gives each to the reference and sees whether the comparison notices.

use crate::answers::number::*;
use Mutation::*;

#[derive(Clone, Copy, Debug, PartialEq, Eq)]
pub enum Mutation {
    // UTF-8.
    /// Of so many bytes.
    OverlongFormAccepted(usize),
    SurrogateAccepted,
    AboveLastCharacterAccepted,
    CutCharacterAccepted,
    // Lengths and bytes of a text.
    EmptyAccepted,
    LongestIs(usize),
    LengthInCharacters,
    NulAccepted,
    WildcardInNameAccepted,
    // Levels.
    LastBlankLevelDropped,
    WildcardInLevelAccepted,
    HashInTheMiddleAccepted,
    MetadataIsNormal,
    RefusedTextHasLevels,
    LevelNumberCutTo32Bits,
    EmptyPartAtStart,
    // Numbers, places and their order.
    PlaceOffByOne,
    LastFaultyLevelNamed,
    NumbersSwapped(u64, u64),
    /// Where both faults stand, the one of the greater number goes out.
    OrderTurned(u64, u64),
    NameFaultFirst,
    // Subscription filters and prefixes.
    InnerCountedOverWholeText,
    EmptyGroupRefused,
    WildcardInGroupAccepted,
    MissingInnerAccepted,
    PrefixWithoutItsSlash,
    PrefixInAnyCase,
    // Matching.
    HashLosesItsParent,
    HashTakesOneLevel,
    DollarRuleDropped,
    DollarRuleAtEveryLevel,
    DollarRuleForPlusAlone,
    DollarRuleForHashAlone,
    BlankTakesAnyLevel,
    PlusTakesNoBlank,
    PlusTakesEnd,
    LiteralTakesLongerLevel,
}

/// The mutations of one rule each, and whether the Rust has a say in it. It has none in the place
/// of an empty part, in the numbers of the validity tests, and in matching `$` levels of names.
const OF_ONE_RULE: [(Mutation, bool); 40] = [
    (OverlongFormAccepted(2), true),
    (OverlongFormAccepted(3), true),
    (OverlongFormAccepted(4), true),
    (SurrogateAccepted, true),
    (AboveLastCharacterAccepted, true),
    (CutCharacterAccepted, true),
    (EmptyAccepted, true),
    (LongestIs(65_534), true),
    (LongestIs(65_536), true),
    (LengthInCharacters, true),
    (NulAccepted, true),
    (WildcardInNameAccepted, true),
    (LastBlankLevelDropped, true),
    (WildcardInLevelAccepted, true),
    (HashInTheMiddleAccepted, true),
    (MetadataIsNormal, true),
    (RefusedTextHasLevels, true),
    (LevelNumberCutTo32Bits, true),
    (EmptyPartAtStart, false),
    (PlaceOffByOne, true),
    (LastFaultyLevelNamed, true),
    (NumbersSwapped(BAD_LEVEL, HASH_NOT_LAST), true),
    (NumbersSwapped(NO_INNER, BAD_GROUP), false),
    (NameFaultFirst, false),
    (InnerCountedOverWholeText, false),
    (EmptyGroupRefused, true),
    (WildcardInGroupAccepted, true),
    (MissingInnerAccepted, true),
    (PrefixWithoutItsSlash, true),
    (PrefixInAnyCase, true),
    (HashLosesItsParent, true),
    (HashTakesOneLevel, true),
    (DollarRuleDropped, false),
    (DollarRuleAtEveryLevel, false),
    (DollarRuleForPlusAlone, false),
    (DollarRuleForHashAlone, false),
    (BlankTakesAnyLevel, true),
    (PlusTakesNoBlank, true),
    (PlusTakesEnd, true),
    (LiteralTakesLongerLevel, true),
];

/// Every mutation, and whether the Rust has a say in it.
pub fn all() -> impl Iterator<Item = (Mutation, bool)> {
    let pairs = (TOO_LONG..=BAD_GROUP)
        .flat_map(|low| (low + 1..=BAD_GROUP).map(move |high| (low, high)))
        .filter(|&(low, high)| can_meet(low, high))
        .map(|(low, high)| (OrderTurned(low, high), is_of_parsing(low, high)));
    OF_ONE_RULE.into_iter().chain(pairs)
}

/// Whether one text can have both faults. 5 is of names alone, and where the inner filter of a
/// subscription is missing (8) it has no levels for 6 and 7.
fn can_meet(low: u64, high: u64) -> bool {
    low != HAS_WILDCARD && !(high == NO_INNER && [BAD_LEVEL, HASH_NOT_LAST].contains(&low))
}

/// Whether parsing gives both numbers; of these the Rust tells the one from the other.
fn is_of_parsing(low: u64, high: u64) -> bool {
    let numbers = [NOT_UTF8, BAD_LEVEL, HASH_NOT_LAST];
    numbers.contains(&low) && numbers.contains(&high)
}
