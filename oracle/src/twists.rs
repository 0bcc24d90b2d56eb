//! Rules broken on purpose, one at a time: document 01's 'Classroom errors', its wrong programs, and
//! the rules of room, orders, listings, lookups and pages.

use crate::lists::lists;

lists! {
    /// A rule that is broken.
    Twist {
        /// Of either store.
        OF_EITHER: [
            AlwaysEmpty,
            RefusesAll,
            HeldRefusedWhenFull,
            EmptyChainStays,
            OneNodeMore,
            OnePairMore,
            OneCellMore,
            SeventeenBytesAreOneCell,
            Level129Accepted,
            RoomBeforeDepth,
            PairsBeforeNodes,
            TakingOfDeepRefused,
            WritesOneByteShort,
            DollarRuleDropped,
            DollarRuleAtEveryLevel,
            BlankTakesAnyLevel,
        ];
        /// Of subscriptions alone.
        OF_SUBSCRIPTIONS: [
            ParentListedTwice,
            InsertDoesNothing,
            InsertOnlyIntoEmpty,
            NodesMadeUp,
            PlusBeforeHash,
            EndAfterHash,
            ValuesDescend,
            WildcardTakesCell,
        ];
        /// Of retained names alone.
        OF_NAMES: [
            SetDoesNothing,
            ExpiresOneLate,
            ExpiredListed,
            MomentForRemaining,
            MoreAtTheTotal,
            PageBeginsOneLate,
            SumOverflows,
            DollarOnPages,
            NamesByWholeBytes,
            ParentAfterChildren,
            ReplacedExpiredIsNew,
            SweepStopsEarly,
            SweepTakesUnexpired,
            CountSkipsExpired,
            ErasedIsNotHeld,
        ];
    }
}
