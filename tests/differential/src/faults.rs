//! Mistakes that can be planted in the evaluator, to see that the comparison notices each of them.

use crate::evaluator::{
    certified, equals, is_key, limited, matches, reached, value, Certified, Date, Definition, Entry, Expression, Format, Judged, Link, Name,
    Numbered, Place, Reading, Record, Row, Set, Slot, Term, Validity,
};
use crate::numbers::{
    FIRST_KEY, LAST_NAME, LINKS_WORDS, LINK_WORDS, MOST_CERTIFICATES, MOST_LINKS, MOST_ROWS, NOT_IN_SCOPE, QUERY_PART, RECORD_WORDS, TOO_MANY_ROWS,
};
use std::cmp::{Ordering, Reverse};
use std::collections::BTreeSet;
use std::ops::Range;

/// One mistake. Document 01's "Curators' errors" come first.
#[derive(Clone, Copy, PartialEq, Eq, Debug)]
pub enum Fault {
    UnknownListTakenAsEmpty,
    ComparedTermsCounted,
    AbsentNotTurnedRound,
    ComplementAndFiniteJoined,
    ComplementsSubtractedStraight,
    UnionDropsTail,
    UnionDropsCommonRows,
    ComplementUnitedKept,
    ComplementsUnitedJoined,
    FiniteSubtractedKept,
    ComplementSubtractedStraight,
    FiniteFromComplementKept,
    DrawsCountedWhenMatching,
    DrawsStartAgainInEachPart,
    GuardsAfterFailedOneRead,
    UnionBuiltInPlace,
    LimitBeforeRepeats,
    NameOf129RowsRead,
    NinthDrawPasses,
    Depth16Passes,
    SeventeenthVariablePasses,
    OpenRightCounts,
    UnusedDefinitionNotRead,
    NumberIssuerHasNoRows,
    PatternVariableNotCompared,
    MillionthDrawRefused,
    LeftOverWordsAfterPolarity,
    TableSumWraps,
    AreasBeforeStore,
    FullBeforeHeld,
    RefusedQueryClearsAnswer,
    FilingClearsPastTheEnd,
    VariableIssuerUnknown,
    ParsedBeforeJudged,
    QueryLengthFirst,
    OperandReadOnce,
    LaidOutByWidth,
    LongerRowFirst,
    AtomsComparedSigned,
    AtomsFromTheLast,
    FiledByWidth,
    DrawnByWidth,
    VettedListReadFirst,
    VettedNotLookedUp,
    LookUpTurnedRound,
    LookUpAmongListed,
    LookUpByFirstAtom,
    LookUpCountedAsDraw,
    VettedByDefinition0,
    VettedMinusPasses,
    VettedMinusRefusedLate,
    VettedAlwaysPlus,
    VettedTurnsRound,
    VettedOpen,
    NotExternalBeforePolarity,
    ShortAreaBeforeNotExternal,
    NotExternalHasAPart,
    MinusElsewhereAccepted,
    MinusOfAnotherNameCompromised,
    NamePlusCompromised,
    RulesAskedOfCompromisedAlone,
    DifferenceAccepted,
    AbsentAccepted,
    VettedAccepted,
    OutputOf8192Refused,
    OutputOf8193Passes,
    Definition0RewrittenToo,
    VariableIssuerNotRewritten,
    OneListRewritten,
    OffsetsNotMoved,
    LengthsNotChanged,
    AreaAsLongAsTheInput,
    ShortAreaWritten,
    PastOutputCleared,
    RefusedLengthHandedOut,
    EndHolds,
    FirstDoesNotHold,
    MinuteIgnored,
    ExpiredRead,
    NotYetHoldingRead,
    MinutesComparedSigned,
    LastMinuteHolds,
    FirstRecordOfRowDecides,
    LastRecordOfRowDecides,
    RepeatedRowsCounted,
    RowsThatDoNotHoldCounted,
    DrawnForEachRecord,
    VettedAtAnyMinute,
    AbsentAtAnyMinute,
    DefinitionsAtMinute0,
    MinuteWithoutDateRefused,
    BadTermBeforeStore,
    BadTermBeforeCertificate,
    FullBeforeTerm,
    HeldBeforeTerm,
    BadTermAsCertificate,
    EndAtFirstFiled,
    TermNotTestedWhenFiled,
    TermWithoutDateRefused,
    HeldTermNotTested,
    HeldEndAtFirst,
    HeldTermsDisjoint,
    HeldFirstsDiffer,
    HeldTermsInAnyOrder,
    HeldTermsByEnd,
    HeldWithAnotherTerm,
    HeldWithTheSameFirst,
    HeldByALongerTerm,
    TermReplaced,
    FiledByEnd,
    FiledByTermFirst,
    FiledBehindItsRow,
    MovedByEightWords,
    CapacityOf2000,
    FullAt1599,
    NamePartByRows,
    NoYearLeap,
    EveryYearLeap,
    Year2000NotLeap,
    MonthsAlternate,
    LeapDayOfEveryYear,
    Day31OfEveryMonth,
    Day0Passes,
    Hour24Passes,
    Minute60Passes,
    Month0Passes,
    Month13Passes,
    DateWordsCut,
    DaysFrom0,
    Year2099Refused,
    Year2100Passes,
    RefusedMinutesHandedOut,
    RefusedDateHandedOut,
    LinksNotRead,
    LinksFollowedOneStep,
    LinksFollowed15Steps,
    LinksTheWrongWay,
    LinksBothWays,
    MinusLinksTheWrongWay,
    MinusLinksNotRead,
    LinkPolarityIgnored,
    LinkPolarityTurnedRound,
    ItselfNotJoined,
    ItselfNotJoinedWhereLinked,
    CirclesCut,
    SearchStopsAtNameMetBefore,
    FirstLinkOfNameAlone,
    LinksGoneThroughOnce,
    LinksOfKey,
    LinksOfNumber,
    OtherKeyIgnored,
    OtherNameIgnored,
    NamesUpTo128Joined,
    VariableIssuerWithoutLinks,
    VettedWithoutLinks,
    ReachedVetted,
    AbsentWithoutLinks,
    DefinitionsWithoutLinks,
    MinusListsUnited,
    ReachedAtAnyMinute,
    ReachedOfBothPolarities,
    RowsOfEachNameCounted,
    LimitBeforeJoining,
    DrawnForEachName,
    HeldBeforeUnsoundLinks,
    LinksFullAsStoreFull,
    LinksFullBeforeBadLink,
    LinksFullBeforeHeld,
    CapacityOf257Links,
    LinksFullAt255,
    BadLinkAsCertificate,
    UnsoundLinksAsStore,
    LongerLinkFiled,
    LinkKeyNotTested,
    LinkOtherKeyNotTested,
    LinkNameNotTested,
    LinkOtherNameNotTested,
    LinkPolarityNotTested,
    HeldLinksNotTested,
    LinksInAnyOrder,
    LinkHeldTwice,
    LinksByPolarityLast,
    LinkPutBehindItsName,
    ShortLinksTaken,
    LongLinksRefused,
    LinksMovedByTenWords,
    LinkPastTheEndCleared,
    LinkHeldWithOtherPolarity,
    LinkHeldTheOtherWay,
    ImpliedLinkHeld,
    SelfLinkRefused,
    CircleRefused,
    CirclesUnsound,
    BadLinkBeforeJudging,
    BadLinkBeforeStore,
    AreasBeforeLinks,
    LinksTestedWhereRead,
    UnsoundLinksTakenAsNone,
    BadLinkHasAPart,
    Format1Wider,
    Format2Equal,
    Format1Padded,
    NarrowerRowMatched,
    NarrowerRowPadded,
    LastAtomsMatched,
    OneAtomMoreAtMost,
    EqualWidthPassedOver,
    BehindPatternBound,
    FixedTermOfWiderRowPasses,
    VariableOfWiderRowPasses,
    LastSlotOfWiderRowPasses,
    OtherWidthsNotCounted,
    NarrowerRowsNotCounted,
    RowsCutBeforeDrawn,
    SameAtomsPassedOnce,
    QueryEqual,
    QueryWider,
    DefinitionsEqual,
    DefinitionsWider,
    QueryAloneEqual,
    UnderAbsentEqual,
    UnderDrawEqual,
    LiteralsDrawnEqual,
    NamesDrawnEqual,
    AbsentByFirstAtoms,
    AbsentByShorterRow,
    AbsentFromLiteralByFirstAtoms,
    LookUpByFirstAtomInFormat2,
    SubtractedByFirstAtoms,
    Format2Refused,
    Format0Passes,
    Format3Passes,
    FormatWordCut,
    FormatAfterTable,
    PartRefusesFormat2,
    JudgeRefusesFormat2,
    RewriterRefusesFormat2,
    RewriterWritesFormat1,
    RewriterWritesFormat2,
    OurKeyIgnored,
    DefinitionsWithoutOwnNames,
    QueryWithoutOwnNames,
    VettedWithoutOwnNames,
    CertificatesReadForOwnName,
    CertificatesReadForOwnVetted,
    OwnDrawnFromCertificates,
    OwnAbsentFromCertificates,
    OwnMissingReadsCertificates,
    OwnJoinedWithCertificates,
    OwnJoinedWithLinks,
    OwnReadAgain,
    OwnReadAsFirst,
    OwnReadAsLast,
    LaterDefinitionAvailable,
    DefinitionItselfAvailable,
    Definition0Missing,
    OwnMissingInQuery,
    LastMissingInQuery,
    OwnMissingInVetted,
    OwnFoundByNameAlone,
    OtherPolarityTaken,
    OwnMissingBeforePolarity,
    OwnMissingAtName,
    OwnMissingAfterTheRest,
    OwnFoundAfterDefinitionWord,
    OwnOpenByPolarity,
    OwnNeverOpen,
    OwnVettedNeverOpen,
    OwnVettedOpenAsItsGuard,
    OwnVettedAlwaysPlus,
    OwnPolaritiesOfExpression,
    OwnVettedNotLookedUp,
    OwnVettedReadAsItsGuard,
    VariableReadsDefinition,
    VettedVariableReadsDefinition,
    VariableOfOurKeyUnknown,
    LinkReachesDefinition,
    LinkToOurKeyNotFollowed,
    OwnNotRewritten,
    OwnNotExternal,
    RewriterWithoutOurKey,
    JudgeWithoutOurKey,
    NotAKeyAfterHeader,
    NotAKeyAfterTable,
    NotAKeyAfterJudging,
    NotAKeyLast,
    NotAKeyWhereWritten,
    JudgeTakesANumber,
    QueryTakesANumber,
    RewriterTakesANumber,
    NotAKeyHasAPart,
    K0TakenForANumber,
    LastNumberTakenForAKey,
    ZeroTakenForNone,
}

impl Fault {
    /// Every fault; `--plant K` plants the one at K, counted from 1.
    pub const ALL: [Fault; 294] = [
        Fault::UnknownListTakenAsEmpty,
        Fault::ComparedTermsCounted,
        Fault::AbsentNotTurnedRound,
        Fault::ComplementAndFiniteJoined,
        Fault::ComplementsSubtractedStraight,
        Fault::UnionDropsTail,
        Fault::UnionDropsCommonRows,
        Fault::ComplementUnitedKept,
        Fault::ComplementsUnitedJoined,
        Fault::FiniteSubtractedKept,
        Fault::ComplementSubtractedStraight,
        Fault::FiniteFromComplementKept,
        Fault::DrawsCountedWhenMatching,
        Fault::DrawsStartAgainInEachPart,
        Fault::GuardsAfterFailedOneRead,
        Fault::UnionBuiltInPlace,
        Fault::LimitBeforeRepeats,
        Fault::NameOf129RowsRead,
        Fault::NinthDrawPasses,
        Fault::Depth16Passes,
        Fault::SeventeenthVariablePasses,
        Fault::OpenRightCounts,
        Fault::UnusedDefinitionNotRead,
        Fault::NumberIssuerHasNoRows,
        Fault::PatternVariableNotCompared,
        Fault::MillionthDrawRefused,
        Fault::LeftOverWordsAfterPolarity,
        Fault::TableSumWraps,
        Fault::AreasBeforeStore,
        Fault::FullBeforeHeld,
        Fault::RefusedQueryClearsAnswer,
        Fault::FilingClearsPastTheEnd,
        Fault::VariableIssuerUnknown,
        Fault::ParsedBeforeJudged,
        Fault::QueryLengthFirst,
        Fault::OperandReadOnce,
        Fault::LaidOutByWidth,
        Fault::LongerRowFirst,
        Fault::AtomsComparedSigned,
        Fault::AtomsFromTheLast,
        Fault::FiledByWidth,
        Fault::DrawnByWidth,
        Fault::VettedListReadFirst,
        Fault::VettedNotLookedUp,
        Fault::LookUpTurnedRound,
        Fault::LookUpAmongListed,
        Fault::LookUpByFirstAtom,
        Fault::LookUpCountedAsDraw,
        Fault::VettedByDefinition0,
        Fault::VettedMinusPasses,
        Fault::VettedMinusRefusedLate,
        Fault::VettedAlwaysPlus,
        Fault::VettedTurnsRound,
        Fault::VettedOpen,
        Fault::NotExternalBeforePolarity,
        Fault::ShortAreaBeforeNotExternal,
        Fault::NotExternalHasAPart,
        Fault::MinusElsewhereAccepted,
        Fault::MinusOfAnotherNameCompromised,
        Fault::NamePlusCompromised,
        Fault::RulesAskedOfCompromisedAlone,
        Fault::DifferenceAccepted,
        Fault::AbsentAccepted,
        Fault::VettedAccepted,
        Fault::OutputOf8192Refused,
        Fault::OutputOf8193Passes,
        Fault::Definition0RewrittenToo,
        Fault::VariableIssuerNotRewritten,
        Fault::OneListRewritten,
        Fault::OffsetsNotMoved,
        Fault::LengthsNotChanged,
        Fault::AreaAsLongAsTheInput,
        Fault::ShortAreaWritten,
        Fault::PastOutputCleared,
        Fault::RefusedLengthHandedOut,
        Fault::EndHolds,
        Fault::FirstDoesNotHold,
        Fault::MinuteIgnored,
        Fault::ExpiredRead,
        Fault::NotYetHoldingRead,
        Fault::MinutesComparedSigned,
        Fault::LastMinuteHolds,
        Fault::FirstRecordOfRowDecides,
        Fault::LastRecordOfRowDecides,
        Fault::RepeatedRowsCounted,
        Fault::RowsThatDoNotHoldCounted,
        Fault::DrawnForEachRecord,
        Fault::VettedAtAnyMinute,
        Fault::AbsentAtAnyMinute,
        Fault::DefinitionsAtMinute0,
        Fault::MinuteWithoutDateRefused,
        Fault::BadTermBeforeStore,
        Fault::BadTermBeforeCertificate,
        Fault::FullBeforeTerm,
        Fault::HeldBeforeTerm,
        Fault::BadTermAsCertificate,
        Fault::EndAtFirstFiled,
        Fault::TermNotTestedWhenFiled,
        Fault::TermWithoutDateRefused,
        Fault::HeldTermNotTested,
        Fault::HeldEndAtFirst,
        Fault::HeldTermsDisjoint,
        Fault::HeldFirstsDiffer,
        Fault::HeldTermsInAnyOrder,
        Fault::HeldTermsByEnd,
        Fault::HeldWithAnotherTerm,
        Fault::HeldWithTheSameFirst,
        Fault::HeldByALongerTerm,
        Fault::TermReplaced,
        Fault::FiledByEnd,
        Fault::FiledByTermFirst,
        Fault::FiledBehindItsRow,
        Fault::MovedByEightWords,
        Fault::CapacityOf2000,
        Fault::FullAt1599,
        Fault::NamePartByRows,
        Fault::NoYearLeap,
        Fault::EveryYearLeap,
        Fault::Year2000NotLeap,
        Fault::MonthsAlternate,
        Fault::LeapDayOfEveryYear,
        Fault::Day31OfEveryMonth,
        Fault::Day0Passes,
        Fault::Hour24Passes,
        Fault::Minute60Passes,
        Fault::Month0Passes,
        Fault::Month13Passes,
        Fault::DateWordsCut,
        Fault::DaysFrom0,
        Fault::Year2099Refused,
        Fault::Year2100Passes,
        Fault::RefusedMinutesHandedOut,
        Fault::RefusedDateHandedOut,
        Fault::LinksNotRead,
        Fault::LinksFollowedOneStep,
        Fault::LinksFollowed15Steps,
        Fault::LinksTheWrongWay,
        Fault::LinksBothWays,
        Fault::MinusLinksTheWrongWay,
        Fault::MinusLinksNotRead,
        Fault::LinkPolarityIgnored,
        Fault::LinkPolarityTurnedRound,
        Fault::ItselfNotJoined,
        Fault::ItselfNotJoinedWhereLinked,
        Fault::CirclesCut,
        Fault::SearchStopsAtNameMetBefore,
        Fault::FirstLinkOfNameAlone,
        Fault::LinksGoneThroughOnce,
        Fault::LinksOfKey,
        Fault::LinksOfNumber,
        Fault::OtherKeyIgnored,
        Fault::OtherNameIgnored,
        Fault::NamesUpTo128Joined,
        Fault::VariableIssuerWithoutLinks,
        Fault::VettedWithoutLinks,
        Fault::ReachedVetted,
        Fault::AbsentWithoutLinks,
        Fault::DefinitionsWithoutLinks,
        Fault::MinusListsUnited,
        Fault::ReachedAtAnyMinute,
        Fault::ReachedOfBothPolarities,
        Fault::RowsOfEachNameCounted,
        Fault::LimitBeforeJoining,
        Fault::DrawnForEachName,
        Fault::HeldBeforeUnsoundLinks,
        Fault::LinksFullAsStoreFull,
        Fault::LinksFullBeforeBadLink,
        Fault::LinksFullBeforeHeld,
        Fault::CapacityOf257Links,
        Fault::LinksFullAt255,
        Fault::BadLinkAsCertificate,
        Fault::UnsoundLinksAsStore,
        Fault::LongerLinkFiled,
        Fault::LinkKeyNotTested,
        Fault::LinkOtherKeyNotTested,
        Fault::LinkNameNotTested,
        Fault::LinkOtherNameNotTested,
        Fault::LinkPolarityNotTested,
        Fault::HeldLinksNotTested,
        Fault::LinksInAnyOrder,
        Fault::LinkHeldTwice,
        Fault::LinksByPolarityLast,
        Fault::LinkPutBehindItsName,
        Fault::ShortLinksTaken,
        Fault::LongLinksRefused,
        Fault::LinksMovedByTenWords,
        Fault::LinkPastTheEndCleared,
        Fault::LinkHeldWithOtherPolarity,
        Fault::LinkHeldTheOtherWay,
        Fault::ImpliedLinkHeld,
        Fault::SelfLinkRefused,
        Fault::CircleRefused,
        Fault::CirclesUnsound,
        Fault::BadLinkBeforeJudging,
        Fault::BadLinkBeforeStore,
        Fault::AreasBeforeLinks,
        Fault::LinksTestedWhereRead,
        Fault::UnsoundLinksTakenAsNone,
        Fault::BadLinkHasAPart,
        Fault::Format1Wider,
        Fault::Format2Equal,
        Fault::Format1Padded,
        Fault::NarrowerRowMatched,
        Fault::NarrowerRowPadded,
        Fault::LastAtomsMatched,
        Fault::OneAtomMoreAtMost,
        Fault::EqualWidthPassedOver,
        Fault::BehindPatternBound,
        Fault::FixedTermOfWiderRowPasses,
        Fault::VariableOfWiderRowPasses,
        Fault::LastSlotOfWiderRowPasses,
        Fault::OtherWidthsNotCounted,
        Fault::NarrowerRowsNotCounted,
        Fault::RowsCutBeforeDrawn,
        Fault::SameAtomsPassedOnce,
        Fault::QueryEqual,
        Fault::QueryWider,
        Fault::DefinitionsEqual,
        Fault::DefinitionsWider,
        Fault::QueryAloneEqual,
        Fault::UnderAbsentEqual,
        Fault::UnderDrawEqual,
        Fault::LiteralsDrawnEqual,
        Fault::NamesDrawnEqual,
        Fault::AbsentByFirstAtoms,
        Fault::AbsentByShorterRow,
        Fault::AbsentFromLiteralByFirstAtoms,
        Fault::LookUpByFirstAtomInFormat2,
        Fault::SubtractedByFirstAtoms,
        Fault::Format2Refused,
        Fault::Format0Passes,
        Fault::Format3Passes,
        Fault::FormatWordCut,
        Fault::FormatAfterTable,
        Fault::PartRefusesFormat2,
        Fault::JudgeRefusesFormat2,
        Fault::RewriterRefusesFormat2,
        Fault::RewriterWritesFormat1,
        Fault::RewriterWritesFormat2,
        Fault::OurKeyIgnored,
        Fault::DefinitionsWithoutOwnNames,
        Fault::QueryWithoutOwnNames,
        Fault::VettedWithoutOwnNames,
        Fault::CertificatesReadForOwnName,
        Fault::CertificatesReadForOwnVetted,
        Fault::OwnDrawnFromCertificates,
        Fault::OwnAbsentFromCertificates,
        Fault::OwnMissingReadsCertificates,
        Fault::OwnJoinedWithCertificates,
        Fault::OwnJoinedWithLinks,
        Fault::OwnReadAgain,
        Fault::OwnReadAsFirst,
        Fault::OwnReadAsLast,
        Fault::LaterDefinitionAvailable,
        Fault::DefinitionItselfAvailable,
        Fault::Definition0Missing,
        Fault::OwnMissingInQuery,
        Fault::LastMissingInQuery,
        Fault::OwnMissingInVetted,
        Fault::OwnFoundByNameAlone,
        Fault::OtherPolarityTaken,
        Fault::OwnMissingBeforePolarity,
        Fault::OwnMissingAtName,
        Fault::OwnMissingAfterTheRest,
        Fault::OwnFoundAfterDefinitionWord,
        Fault::OwnOpenByPolarity,
        Fault::OwnNeverOpen,
        Fault::OwnVettedNeverOpen,
        Fault::OwnVettedOpenAsItsGuard,
        Fault::OwnVettedAlwaysPlus,
        Fault::OwnPolaritiesOfExpression,
        Fault::OwnVettedNotLookedUp,
        Fault::OwnVettedReadAsItsGuard,
        Fault::VariableReadsDefinition,
        Fault::VettedVariableReadsDefinition,
        Fault::VariableOfOurKeyUnknown,
        Fault::LinkReachesDefinition,
        Fault::LinkToOurKeyNotFollowed,
        Fault::OwnNotRewritten,
        Fault::OwnNotExternal,
        Fault::RewriterWithoutOurKey,
        Fault::JudgeWithoutOurKey,
        Fault::NotAKeyAfterHeader,
        Fault::NotAKeyAfterTable,
        Fault::NotAKeyAfterJudging,
        Fault::NotAKeyLast,
        Fault::NotAKeyWhereWritten,
        Fault::JudgeTakesANumber,
        Fault::QueryTakesANumber,
        Fault::RewriterTakesANumber,
        Fault::NotAKeyHasAPart,
        Fault::K0TakenForANumber,
        Fault::LastNumberTakenForAKey,
        Fault::ZeroTakenForNone,
    ];

    pub fn meaning(self) -> &'static str {
        match self {
            Fault::UnknownListTakenAsEmpty => "a withdrawn list of which nothing is held is taken as empty",
            Fault::ComparedTermsCounted => "a comparison of terms counts in the polarity, as if it were +",
            Fault::AbsentNotTurnedRound => "the polarity is not turned round under an absent guard",
            Fault::ComplementAndFiniteJoined => "complement united with finite is the complement of both lists joined",
            Fault::ComplementsSubtractedStraight => "complement A minus complement B is A minus B",
            Fault::UnionDropsTail => "a union drops the left's rows that come before all of the right's",
            Fault::UnionDropsCommonRows => "a union drops the rows that both parts list",
            Fault::ComplementUnitedKept => "complement united with finite is the complement as it was",
            Fault::ComplementsUnitedJoined => "two complements united are the complement of both lists joined",
            Fault::FiniteSubtractedKept => "finite minus finite is the left as it was",
            Fault::ComplementSubtractedStraight => "finite minus complement is the left list without the right one",
            Fault::FiniteFromComplementKept => "complement minus finite is the complement as it was",
            Fault::DrawsCountedWhenMatching => "a draw is counted only when its row matches",
            Fault::DrawsStartAgainInEachPart => "the count of draws starts at 0 in each definition and in the query",
            Fault::GuardsAfterFailedOneRead => "guards after a failed comparison are read",
            Fault::UnionBuiltInPlace => "13 is met in a union while its right part is still being read",
            Fault::LimitBeforeRepeats => "a union's limit is tested before rows in both parts are counted once",
            Fault::NameOf129RowsRead => "a name may have 129 rows",
            Fault::NinthDrawPasses => "a ninth draw passes",
            Fault::Depth16Passes => "an expression at depth 16 passes",
            Fault::SeventeenthVariablePasses => "a 17th variable passes",
            Fault::OpenRightCounts => "a difference is open if its right part is",
            Fault::UnusedDefinitionNotRead => "a definition that nobody uses is not read",
            Fault::NumberIssuerHasNoRows => "a variable issuer that holds a number reads as no rows with − too",
            Fault::PatternVariableNotCompared => "a variable that was new earlier in the same pattern is not compared",
            Fault::MillionthDrawRefused => "the 1,000,000th draw is refused",
            Fault::LeftOverWordsAfterPolarity => "left-over words are looked for after polarity",
            Fault::TableSumWraps => "the sums of the policy's table wrap at 2^32",
            Fault::AreasBeforeStore => "11 comes before 8",
            Fault::FullBeforeHeld => "10 comes before Held",
            Fault::RefusedQueryClearsAnswer => "a refused query clears the answer area",
            Fault::FilingClearsPastTheEnd => "filing clears the word past the last record",
            Fault::VariableIssuerUnknown => "a list whose issuer is a variable is read as if nothing were held of it",
            Fault::ParsedBeforeJudged => "all definitions are parsed before any is judged",
            Fault::QueryLengthFirst => "the query's length is tested before the definitions",
            Fault::OperandReadOnce => "the draws of an absent guard's operand are counted the first time only",
            Fault::LaidOutByWidth => "an answer's rows are laid out by width first",
            Fault::LongerRowFirst => "an answer has a longer row before its own beginning",
            Fault::AtomsComparedSigned => "an answer's rows are compared by signed atoms",
            Fault::AtomsFromTheLast => "an answer's rows are compared from the last atom on",
            Fault::FiledByWidth => "a record's place is found by its words as they stand, by width first",
            Fault::DrawnByWidth => "rows are drawn by width first",
            Fault::VettedListReadFirst => "code 8 reads the list before it looks the issuer up",
            Fault::VettedNotLookedUp => "code 8 is read as the list itself",
            Fault::LookUpTurnedRound => "code 8 reads the list of an issuer that is in the definition, and of no other",
            Fault::LookUpAmongListed => "code 8 looks the issuer up among the rows listed, also those of a complement",
            Fault::LookUpByFirstAtom => "code 8 takes a longer row that begins with the issuer for the issuer's",
            Fault::LookUpCountedAsDraw => "code 8's look-up counts as a draw",
            Fault::VettedByDefinition0 => "code 8 looks the issuer up in definition 0, whatever its number",
            Fault::VettedMinusPasses => "code 8 with − passes",
            Fault::VettedMinusRefusedLate => "code 8's polarity is tested after its definition",
            Fault::VettedAlwaysPlus => "code 8 has + whatever its definition declares",
            Fault::VettedTurnsRound => "code 8 has the polarity opposite to its definition's, − too",
            Fault::VettedOpen => "code 8 is open if its definition is",
            Fault::NotExternalBeforePolarity => "15 comes before 6 and 7",
            Fault::ShortAreaBeforeNotExternal => "11 comes before 15",
            Fault::NotExternalHasAPart => "15 comes with the definition that breaks the rule",
            Fault::MinusElsewhereAccepted => "a later definition of an external policy may be −",
            Fault::MinusOfAnotherNameCompromised => "definition 0 lists compromised keys under any − name",
            Fault::NamePlusCompromised => "definition 0 lists compromised keys under the name 0 + too",
            Fault::RulesAskedOfCompromisedAlone => "the external rules are asked only of a policy that lists compromised keys",
            Fault::DifferenceAccepted => "an external policy may have a difference",
            Fault::AbsentAccepted => "an external policy may have an absent guard",
            Fault::VettedAccepted => "an external policy may have code 8",
            Fault::OutputOf8192Refused => "an output of 8,192 words is refused",
            Fault::OutputOf8193Passes => "the output's length is not bounded",
            Fault::Definition0RewrittenToo => "the lists of definition 0 are rewritten too",
            Fault::VariableIssuerNotRewritten => "a list whose issuer is a variable is not rewritten",
            Fault::OneListRewritten => "only the first list of a definition is rewritten",
            Fault::OffsetsNotMoved => "the output's offsets are those of the input",
            Fault::LengthsNotChanged => "the output's lengths are those of the input",
            Fault::AreaAsLongAsTheInput => "an area as long as the input is taken as long enough",
            Fault::ShortAreaWritten => "the area is written before 11 is known",
            Fault::PastOutputCleared => "the word past the output is cleared",
            Fault::RefusedLengthHandedOut => "a refused rewriting hands out the input's length",
            Fault::EndHolds => "a certificate holds at its end minute too",
            Fault::FirstDoesNotHold => "a certificate does not hold at its first minute",
            Fault::MinuteIgnored => "certificates are read whatever the minute",
            Fault::ExpiredRead => "a certificate is read after its end too",
            Fault::NotYetHoldingRead => "a certificate is read before its first minute too",
            Fault::MinutesComparedSigned => "minutes are compared as signed numbers",
            Fault::LastMinuteHolds => "a certificate with the greatest end holds at that minute too",
            Fault::FirstRecordOfRowDecides => "a row is read only if the first of its records holds",
            Fault::LastRecordOfRowDecides => "a row is read only if the last of its records holds",
            Fault::RepeatedRowsCounted => "13 counts the records that hold, a row as often as it has one",
            Fault::RowsThatDoNotHoldCounted => "13 counts the rows of all records, also those that do not hold",
            Fault::DrawnForEachRecord => "a row is drawn as often as its records hold",
            Fault::VettedAtAnyMinute => "code 8 reads certificates whatever the minute",
            Fault::AbsentAtAnyMinute => "an absent guard asks a name's certificates whatever the minute",
            Fault::DefinitionsAtMinute0 => "definitions are read at minute 0",
            Fault::MinuteWithoutDateRefused => "a query at a minute that has no date is refused with 16",
            Fault::BadTermBeforeStore => "17 comes before 8",
            Fault::BadTermBeforeCertificate => "17 comes before 9",
            Fault::FullBeforeTerm => "10 comes before 17",
            Fault::HeldBeforeTerm => "Held comes before 17, for a row that is held with another term",
            Fault::BadTermAsCertificate => "an end not after its first minute is refused with 9",
            Fault::EndAtFirstFiled => "a certificate that ends at its first minute is filed",
            Fault::TermNotTestedWhenFiled => "an end not after its first minute is filed",
            Fault::TermWithoutDateRefused => "a term that ends after 2099 is refused with 17",
            Fault::HeldTermNotTested => "a held record may have an end that is not after its first minute",
            Fault::HeldEndAtFirst => "a held record may end at its first minute",
            Fault::HeldTermsDisjoint => "a store is unsound if two terms of a row overlap",
            Fault::HeldFirstsDiffer => "a store is unsound if two terms of a row have the same first minute",
            Fault::HeldTermsInAnyOrder => "a store is sound whatever the order of a row's terms",
            Fault::HeldTermsByEnd => "a store is sound if a row's terms ascend by end, then by first minute",
            Fault::HeldWithAnotherTerm => "a certificate is Held if its row is held with another term",
            Fault::HeldWithTheSameFirst => "a certificate is Held if its row is held with the same first minute",
            Fault::HeldByALongerTerm => "a certificate is Held if its row is held with a term that covers its own",
            Fault::TermReplaced => "another term of a held row takes the place of the one held",
            Fault::FiledByEnd => "records of a row are put in order by end, then by first minute",
            Fault::FiledByTermFirst => "records of a name are put in order by term, then by row",
            Fault::FiledBehindItsRow => "a record is put behind all others of its row",
            Fault::MovedByEightWords => "filing moves later records by eight words",
            Fault::CapacityOf2000 => "2,000 certificates may be held where the store is long enough",
            Fault::FullAt1599 => "the 1,600th certificate is refused",
            Fault::NamePartByRows => "a name's part of the store has one record for each row",
            Fault::NoYearLeap => "February has 28 days in every year",
            Fault::EveryYearLeap => "February has 29 days in every year",
            Fault::Year2000NotLeap => "2000 is no leap year",
            Fault::MonthsAlternate => "months have 31 and 30 days by turns, August 30",
            Fault::LeapDayOfEveryYear => "29 February of every year is taken for a date",
            Fault::Day31OfEveryMonth => "the 31st of every month is taken for a date",
            Fault::Day0Passes => "day 0 is taken as day 1",
            Fault::Hour24Passes => "24:00 is taken for the next day's first minute",
            Fault::Minute60Passes => "minute 60 is taken for the next hour's first",
            Fault::Month0Passes => "month 0 is taken as month 1",
            Fault::Month13Passes => "month 13 is taken as the next year's first",
            Fault::DateWordsCut => "a date's words are cut to their last eight bits, the year to sixteen",
            Fault::DaysFrom0 => "a minute's day counts from 0",
            Fault::Year2099Refused => "dates end with 2098",
            Fault::Year2100Passes => "dates end with 2100",
            Fault::RefusedMinutesHandedOut => "a refused date hands out minutes",
            Fault::RefusedDateHandedOut => "a refused minute hands out a date",
            Fault::LinksNotRead => "links are not read",
            Fault::LinksFollowedOneStep => "links are followed one step only",
            Fault::LinksFollowed15Steps => "links are followed at most 15 steps",
            Fault::LinksTheWrongWay => "links are followed from their second name to their first",
            Fault::LinksBothWays => "links are followed both ways",
            Fault::MinusLinksTheWrongWay => "− links are followed from their second name to their first",
            Fault::MinusLinksNotRead => "− links are not read",
            Fault::LinkPolarityIgnored => "links are followed whatever their polarity",
            Fault::LinkPolarityTurnedRound => "+ links are followed for − names, and − links for + names",
            Fault::ItselfNotJoined => "a name's own rows are not joined",
            Fault::ItselfNotJoinedWhereLinked => "a name's own rows are not joined if it has a link",
            Fault::CirclesCut => "a name on a circle has its own rows alone",
            Fault::SearchStopsAtNameMetBefore => "the search for names stops at one that it met before",
            Fault::FirstLinkOfNameAlone => "only the first link of a name is followed",
            Fault::LinksGoneThroughOnce => "links are gone through once, in their order",
            Fault::LinksOfKey => "a name's links are those of its key, whatever their name",
            Fault::LinksOfNumber => "a name's links are those of its number, whatever their key",
            Fault::OtherKeyIgnored => "a link's second name is taken to be of its first key",
            Fault::OtherNameIgnored => "a link's second name is taken to have its first number",
            Fault::NamesUpTo128Joined => "no more than 128 names are joined",
            Fault::VariableIssuerWithoutLinks => "a list whose issuer is a variable is read without links",
            Fault::VettedWithoutLinks => "code 8 reads the list without links",
            Fault::ReachedVetted => "code 8 looks up the keys of the names that links reach too",
            Fault::AbsentWithoutLinks => "an absent guard asks a name without links",
            Fault::DefinitionsWithoutLinks => "definitions are read without links",
            Fault::MinusListsUnited => "the − lists that links reach are united with the name's own, as + lists are",
            Fault::ReachedAtAnyMinute => "the certificates of the names that links reach are read whatever the minute",
            Fault::ReachedOfBothPolarities => "the rows of both polarities of a number that links reach are joined",
            Fault::RowsOfEachNameCounted => "13 counts a row once for each name that it is certified of",
            Fault::LimitBeforeJoining => "13 is asked of each name's own rows and not of those joined",
            Fault::DrawnForEachName => "a row is drawn once for each name that it is certified of",
            Fault::HeldBeforeUnsoundLinks => "Held comes before 18, for a link that an unsound link store has",
            Fault::LinksFullAsStoreFull => "a full link store refuses with 10",
            Fault::LinksFullBeforeBadLink => "19 comes before 18",
            Fault::LinksFullBeforeHeld => "19 comes before Held",
            Fault::CapacityOf257Links => "257 links may be held where the link store is long enough",
            Fault::LinksFullAt255 => "the 256th link is refused",
            Fault::BadLinkAsCertificate => "a malformed link is refused with 9",
            Fault::UnsoundLinksAsStore => "an unsound link store is refused with 8",
            Fault::LongerLinkFiled => "of a longer link the first five words are filed",
            Fault::LinkKeyNotTested => "a link's first key may be a number",
            Fault::LinkOtherKeyNotTested => "a link's other key may be a number",
            Fault::LinkNameNotTested => "a link's first name may be over 65,535",
            Fault::LinkOtherNameNotTested => "a link's other name may be over 65,535",
            Fault::LinkPolarityNotTested => "a link's polarity may be over 1",
            Fault::HeldLinksNotTested => "a held link may be malformed",
            Fault::LinksInAnyOrder => "a link store is sound whatever the order of its links",
            Fault::LinkHeldTwice => "a link store may hold a link twice",
            Fault::LinksByPolarityLast => "links are in order by the polarity last",
            Fault::LinkPutBehindItsName => "a link is put behind all others of its first name",
            Fault::ShortLinksTaken => "a link store need have room for one link more than it holds, and for no other",
            Fault::LongLinksRefused => "a link store of over 1,281 words is refused",
            Fault::LinksMovedByTenWords => "filing moves later links by ten words",
            Fault::LinkPastTheEndCleared => "filing clears the word past the last link",
            Fault::LinkHeldWithOtherPolarity => "a link is Held if it is held with the other polarity",
            Fault::LinkHeldTheOtherWay => "a link is Held if it is held the other way round",
            Fault::ImpliedLinkHeld => "a link is Held if the links held reach its second name from its first",
            Fault::SelfLinkRefused => "a link from a name to itself is refused with 18",
            Fault::CircleRefused => "a link that closes a circle is refused with 18",
            Fault::CirclesUnsound => "a link store with a circle is refused with 18 in a query",
            Fault::BadLinkBeforeJudging => "18 comes before 1 to 7",
            Fault::BadLinkBeforeStore => "18 comes before 8",
            Fault::AreasBeforeLinks => "11 comes before 18",
            Fault::LinksTestedWhereRead => "18 is asked only where a name is written",
            Fault::UnsoundLinksTakenAsNone => "an unsound link store is read as an empty one",
            Fault::BadLinkHasAPart => "18 comes with the query as its part",
            Fault::Format1Wider => "format 1 is read as format 2: a row that is wider than the pattern is matched by its first atoms",
            Fault::Format2Equal => "format 2 is read as format 1: a row that is wider than the pattern is passed over",
            Fault::Format1Padded => "format 1: pattern and row are compared as if zeros followed the shorter one",
            Fault::NarrowerRowMatched => "format 2: a row that is narrower than the pattern is matched by the atoms that it has",
            Fault::NarrowerRowPadded => "format 2: a row that is narrower than the pattern is matched as if zeros followed its atoms",
            Fault::LastAtomsMatched => "format 2: a wider row is matched by its last atoms",
            Fault::OneAtomMoreAtMost => "format 2: a row that has over one atom more than the pattern is passed over",
            Fault::EqualWidthPassedOver => "format 2: a row of the pattern's own width is passed over",
            Fault::BehindPatternBound => "format 2: the atom of a wider row behind those matched is bound as a new variable",
            Fault::FixedTermOfWiderRowPasses => "format 2: a fixed term is not compared with a wider row's atom",
            Fault::VariableOfWiderRowPasses => "format 2: a variable is not compared with a wider row's atom",
            Fault::LastSlotOfWiderRowPasses => "format 2: a wider row is matched by one atom less than the pattern has",
            Fault::OtherWidthsNotCounted => "format 2: a row of another width than the pattern's is not counted as a draw",
            Fault::NarrowerRowsNotCounted => "format 2: a row that is narrower than the pattern is not counted as a draw",
            Fault::RowsCutBeforeDrawn => {
                "format 2: rows are cut to the pattern's width before they are drawn, so that those with the same first atoms are drawn once"
            }
            Fault::SameAtomsPassedOnce => "format 2: of rows with the same first atoms one alone goes on to the later guards",
            Fault::QueryEqual => "the query is read under format 1 whatever its policy's format",
            Fault::QueryWider => "the query is read under format 2 whatever its policy's format",
            Fault::DefinitionsEqual => "definitions are read under format 1 whatever their policy's format",
            Fault::DefinitionsWider => "definitions are read under format 2 whatever their policy's format",
            Fault::QueryAloneEqual => "the query of a policy without definitions is read under format 1",
            Fault::UnderAbsentEqual => "draws inside an absent guard's operand are read under format 1",
            Fault::UnderDrawEqual => "draws inside a drawn expression are read under format 1",
            Fault::LiteralsDrawnEqual => "format 2: rows drawn from a literal match by equal widths",
            Fault::NamesDrawnEqual => "format 2: rows drawn from a name match by equal widths",
            Fault::AbsentByFirstAtoms => "format 2: an absent guard's row is taken to be listed where a longer row begins with it",
            Fault::AbsentByShorterRow => "format 2: an absent guard's row is taken to be listed where it begins with a shorter row",
            Fault::AbsentFromLiteralByFirstAtoms => {
                "format 2: an absent guard's row is taken to be among a literal's where a longer row begins with it"
            }
            Fault::LookUpByFirstAtomInFormat2 => "format 2: code 8 takes a longer row that begins with the issuer for the issuer's",
            Fault::SubtractedByFirstAtoms => "format 2: a difference takes away every row that begins with one on its right",
            Fault::Format2Refused => "refusal 1 lets format 1 alone pass",
            Fault::Format0Passes => "format 0 is taken as format 1",
            Fault::Format3Passes => "format 3 is taken as format 2",
            Fault::FormatWordCut => "of a format's word the last eight bits are looked at",
            Fault::FormatAfterTable => "the format is tested after the table, 1 after 2",
            Fault::PartRefusesFormat2 => "a policy of format 2 has no parts to hand back",
            Fault::JudgeRefusesFormat2 => "judging alone refuses format 2",
            Fault::RewriterRefusesFormat2 => "rewriting refuses format 2",
            Fault::RewriterWritesFormat1 => "a rewritten policy is of format 1 whatever the input's",
            Fault::RewriterWritesFormat2 => "a rewritten policy is of format 2 whatever the input's",
            Fault::OurKeyIgnored => "our key is taken as any other: certificates are read of own names",
            Fault::DefinitionsWithoutOwnNames => "own names are known in the query alone: in definitions certificates are read of them",
            Fault::QueryWithoutOwnNames => "own names are known in definitions alone: in the query certificates are read of them",
            Fault::VettedWithoutOwnNames => "own names are known in code 4 alone: in code 8 certificates are read of them",
            Fault::CertificatesReadForOwnName => "certificates are read of an own name, though its definition is asked for",
            Fault::CertificatesReadForOwnVetted => "certificates are read of an own name in code 8, though its definition is asked for",
            Fault::OwnDrawnFromCertificates => "a draw from an own name is from its certificates",
            Fault::OwnAbsentFromCertificates => "an absent guard asks an own name's certificates",
            Fault::OwnMissingReadsCertificates => "certificates are read of an own name that has no definition available",
            Fault::OwnJoinedWithCertificates => "the certificates of an own name are joined with its definition",
            Fault::OwnJoinedWithLinks => "what links reach from an own name is joined with its definition",
            Fault::OwnReadAgain => "the definition of an own name is read once more where the name stands, and its draws counted",
            Fault::OwnReadAsFirst => "an own name is read as definition 0",
            Fault::OwnReadAsLast => "an own name is read as the last definition available",
            Fault::LaterDefinitionAvailable => "a later definition is available to an own name",
            Fault::DefinitionItselfAvailable => "a definition is available to an own name in itself",
            Fault::Definition0Missing => "definition 0 is available to no own name",
            Fault::OwnMissingInQuery => "no definition is available to an own name in the query",
            Fault::LastMissingInQuery => "the last definition is not available to an own name in the query",
            Fault::OwnMissingInVetted => "no definition is available to an own name in code 8",
            Fault::OwnFoundByNameAlone => "an own name stands for the first definition of its name, whatever the polarity",
            Fault::OtherPolarityTaken => "an own name stands for the definition of the other polarity where its own has none",
            Fault::OwnMissingBeforePolarity => "at an own name's polarity word 4 comes before 3",
            Fault::OwnMissingAtName => "an own name whose name no definition has is refused with 4 at its name",
            Fault::OwnMissingAfterTheRest => "an own name without a definition is refused with 4 after 3, 4 and 5 of the words behind it",
            Fault::OwnFoundAfterDefinitionWord => "an own name's definition is sought after the last word of code 8",
            Fault::OwnOpenByPolarity => "an own name is open if it is −",
            Fault::OwnNeverOpen => "an own name is never open",
            Fault::OwnVettedNeverOpen => "code 8 of an own name is never open",
            Fault::OwnVettedOpenAsItsGuard => "code 8 of an own name is open if the definition is that it looks our key up in",
            Fault::OwnVettedAlwaysPlus => "code 8 of an own name has + whatever the definition declares that it looks our key up in",
            Fault::OwnPolaritiesOfExpression => "an own name has the polarities of its definition's expression, and not the declared one alone",
            Fault::OwnVettedNotLookedUp => "code 8 does not look our key up",
            Fault::OwnVettedReadAsItsGuard => "code 8 of an own name is read as the definition that it looks our key up in",
            Fault::VariableReadsDefinition => "a variable that holds our key reads the definition",
            Fault::VettedVariableReadsDefinition => "a variable that holds our key reads the definition in code 8",
            Fault::VariableOfOurKeyUnknown => "a list whose issuer is a variable that holds our key is read as if nothing were held of it",
            Fault::LinkReachesDefinition => "a link to a name under our key reaches the definition",
            Fault::LinkToOurKeyNotFollowed => "a link to a name under our key is not followed",
            Fault::OwnNotRewritten => "own names are not rewritten",
            Fault::OwnNotExternal => "an external policy has no own names",
            Fault::RewriterWithoutOurKey => "rewriting takes our key as any other",
            Fault::JudgeWithoutOurKey => "judging takes our key as any other",
            Fault::NotAKeyAfterHeader => "20 comes after 1",
            Fault::NotAKeyAfterTable => "20 comes after 2",
            Fault::NotAKeyAfterJudging => "20 comes after 3 to 7",
            Fault::NotAKeyLast => "20 comes after 8, 18, 15 and 11",
            Fault::NotAKeyWhereWritten => "20 is asked only where our key is written as an issuer, and there a number is refused with 3",
            Fault::JudgeTakesANumber => "judging takes a number as our key",
            Fault::QueryTakesANumber => "a query takes a number as our key",
            Fault::RewriterTakesANumber => "rewriting takes a number as our key",
            Fault::NotAKeyHasAPart => "20 comes with the query as its part",
            Fault::K0TakenForANumber => "k0 as our key is taken for a number",
            Fault::LastNumberTakenForAKey => "2,147,483,647 as our key is taken for a key",
            Fault::ZeroTakenForNone => "0 as our key is taken for none, and passes",
        }
    }
}

// ---- our key ----

/// When 20 is asked.
#[derive(Clone, Copy, PartialEq, Eq, Debug)]
pub enum Asked {
    First,
    AfterHeader,
    AfterTable,
    AfterJudging,
    Last,
    Never,
}

/// First, unless a fault asks later or not at all.
pub fn key_asked(fault: Option<Fault>) -> Asked {
    match fault {
        Some(Fault::NotAKeyAfterHeader) => Asked::AfterHeader,
        Some(Fault::NotAKeyAfterTable) => Asked::AfterTable,
        Some(Fault::NotAKeyAfterJudging) => Asked::AfterJudging,
        Some(Fault::NotAKeyLast) => Asked::Last,
        Some(Fault::NotAKeyWhereWritten) => Asked::Never,
        _ => Asked::First,
    }
}

/// Whether a word is wrongly taken for a key, or for a number.
pub fn wrongly_a_key(fault: Option<Fault>, our_key: u32) -> Option<bool> {
    match fault? {
        Fault::K0TakenForANumber if our_key == FIRST_KEY => Some(false),
        Fault::LastNumberTakenForAKey if our_key == FIRST_KEY - 1 => Some(true),
        Fault::ZeroTakenForNone if our_key == 0 => Some(true),
        _ => None,
    }
}

/// A number, which is no fixed issuer: there are then no own names.
const NO_KEY: u32 = 0;

/// Our key, as the query's own names are known by it, unless a fault knows none there.
pub fn our_key_in_query(fault: Option<Fault>, our_key: u32) -> u32 {
    let unknown = matches!(fault, Some(Fault::OurKeyIgnored | Fault::QueryWithoutOwnNames));
    if unknown {
        NO_KEY
    } else {
        our_key
    }
}

/// The same in definitions.
pub fn our_key_in_definitions(fault: Option<Fault>, our_key: u32) -> u32 {
    let unknown = matches!(fault, Some(Fault::OurKeyIgnored | Fault::DefinitionsWithoutOwnNames));
    if unknown {
        NO_KEY
    } else {
        our_key
    }
}

/// The same in rewriting.
pub fn our_key_in_rewriting(fault: Option<Fault>, our_key: u32) -> u32 {
    if fault == Some(Fault::RewriterWithoutOurKey) {
        NO_KEY
    } else {
        our_key
    }
}

/// The definition that an own name of code 4 or 8 wrongly stands for, or that it wrongly stands for none, or its refusal. `found` is the right one.
pub fn wrongly_found(fault: Option<Fault>, code: u32, place: Place, name: [u32; 2], found: Option<usize>) -> Option<Numbered<Option<usize>>> {
    let Place { entries, available, .. } = place;
    let in_query = available == entries.len();
    let by = |which: &dyn Fn(&Entry) -> bool, among: Range<usize>| {
        let place = among.clone().find(|&place| entries.get(place).is_some_and(which));
        Some(place.map(Some).ok_or(NOT_IN_SCOPE))
    };
    let named = |entry: &Entry| [entry.name, entry.polarity] == name;
    let by_name_alone = |entry: &Entry| entry.name == name[0];
    match fault? {
        Fault::VettedWithoutOwnNames if code == 8 => Some(Ok(None)),
        Fault::OwnMissingReadsCertificates if found.is_none() => Some(Ok(None)),
        Fault::LaterDefinitionAvailable => by(&named, 0..entries.len()),
        Fault::DefinitionItselfAvailable => by(&named, 0..available + 1),
        Fault::Definition0Missing => by(&named, 1..available),
        Fault::OwnMissingInQuery if in_query => Some(Err(NOT_IN_SCOPE)),
        Fault::LastMissingInQuery if in_query => by(&named, 0..available.saturating_sub(1)),
        Fault::OwnMissingInVetted if code == 8 => Some(Err(NOT_IN_SCOPE)),
        Fault::OwnFoundByNameAlone => by(&by_name_alone, 0..available),
        Fault::OtherPolarityTaken if found.is_none() => by(&by_name_alone, 0..available),
        _ => None,
    }
}

/// Whether an own name is wrongly refused with 4 before its polarity word, the next one, was tested.
pub fn missing_early(fault: Option<Fault>, place: Place, name: u32, next: Option<u32>) -> bool {
    let available = &place.entries[..place.available];
    match fault {
        Some(Fault::OwnMissingBeforePolarity) => {
            next.is_some_and(|polarity| !available.iter().any(|entry| (entry.name, entry.polarity) == (name, polarity)))
        }
        Some(Fault::OwnMissingAtName) => !available.iter().any(|entry| entry.name == name),
        _ => false,
    }
}

/// Whether code 4 or 8 of an own name is wrongly open, or not open.
pub fn own_wrongly_open(fault: Option<Fault>, expression: &Expression, definitions: &[Definition]) -> Option<bool> {
    match (fault?, expression) {
        (Fault::OwnOpenByPolarity, Expression::List { polarity, .. }) => Some(*polarity == 1),
        (Fault::OwnNeverOpen, Expression::List { .. }) | (Fault::OwnVettedNeverOpen, Expression::Vetted { .. }) => Some(false),
        (Fault::OwnVettedOpenAsItsGuard, Expression::Vetted { definition, .. }) => Some(definitions[*definition].open),
        // It is wrongly available, and not there yet.
        (_, Expression::List { own: Some(number), .. } | Expression::Vetted { own: Some(number), .. }) if *number >= definitions.len() => Some(false),
        _ => None,
    }
}

/// What an own name is wrongly read as, in place of its definition.
pub fn own_wrongly_read(reading: &mut Reading, name: Name, definition: usize) -> Option<Numbered<Set>> {
    let (fault, judged, links) = (reading.evaluator.fault?, reading.judged, reading.held.links);
    let [key, number, polarity] = name;
    let linked = || reached(name, |at| links.iter().filter(|link| link.first() == at).map(Link::second).collect());
    let rows_of = |names: BTreeSet<Name>| rows_of_names(&reading.certified, &names).collect::<BTreeSet<Row>>();
    let with = |set: Set, rows: BTreeSet<Row>| if polarity == 0 { set.union(&Set::Finite(rows)) } else { set.minus(&Set::Finite(rows)) };
    match (fault, reading.definitions.get(definition).cloned()) {
        // It is wrongly available, and not read yet.
        (_, None) => Some(Ok(Set::Finite(BTreeSet::new()))),
        (Fault::CertificatesReadForOwnName, _) => Some(reading.list(Term::Atom(key), number, polarity, &[])),
        (Fault::OwnJoinedWithCertificates, Some(set)) => Some(limited(with(set, rows_of(BTreeSet::from([name]))))),
        (Fault::OwnJoinedWithLinks, Some(set)) => Some(limited(with(set, rows_of(&linked() - &BTreeSet::from([name]))))),
        (Fault::OwnReadAgain, _) => Some(reading.read(&judged.definitions[definition].expression, &mut Vec::new())),
        (Fault::OwnReadAsFirst, _) => reading.definitions.first().cloned().map(Ok),
        (Fault::OwnReadAsLast, _) => reading.definitions.last().cloned().map(Ok),
        _ => None,
    }
}

/// The set of the definition of a name under our key, if there is one that is read already.
pub fn set_of_own(reading: &Reading, [key, number, polarity]: Name) -> Option<Set> {
    let judged = reading.judged;
    let place = judged.definitions.iter().position(|definition| [judged.our_key, definition.name, definition.polarity] == [key, number, polarity]);
    place.and_then(|place| reading.definitions.get(place)).cloned()
}

/// What a list is wrongly read as whose issuer is a variable that holds our key.
pub fn variable_wrongly_read(reading: &Reading, issuer: Term, name: Name) -> Option<Set> {
    let ours = matches!(issuer, Term::Variable(_)) && name[0] == reading.judged.our_key;
    match reading.evaluator.fault? {
        Fault::VariableReadsDefinition if ours => set_of_own(reading, name),
        Fault::VariableOfOurKeyUnknown if ours && name[2] == 0 => Some(Set::Finite(BTreeSet::new())),
        Fault::VariableOfOurKeyUnknown if ours => Some(Set::Complement(BTreeSet::new())),
        _ => None,
    }
}

/// The rows joined for a name, from these names, where those under our key that links reach are wrongly read.
pub fn ours_wrongly_joined(reading: &Reading, name: Name, joined: &BTreeSet<Name>) -> Option<BTreeSet<Row>> {
    let certified = |of: &Name| reading.certified.get(of).cloned().unwrap_or_default();
    let defined = |of: &Name| set_of_own(reading, *of).filter(|set| matches!(set, Set::Finite(_)) == (of[2] == 0)).map(|set| set.listed().clone());
    let ours = |of: &Name| *of != name && of[0] == reading.judged.our_key;
    match reading.evaluator.fault? {
        Fault::LinkReachesDefinition => {
            Some(joined.iter().flat_map(|of| defined(of).filter(|_| ours(of)).unwrap_or_else(|| certified(of))).collect())
        }
        Fault::LinkToOurKeyNotFollowed => Some(joined.iter().filter(|of| !ours(of)).flat_map(certified).collect()),
        _ => None,
    }
}

/// The certificates that are wrongly read of an own name under a guard.
pub fn certificates_for_own(reading: &Reading, fault: Fault, from: &Expression) -> Option<Numbered<Set>> {
    match from {
        Expression::List { issuer, name, polarity, own: Some(_) } if reading.evaluator.has(fault) => {
            Some(reading.list(*issuer, *name, *polarity, &[]))
        }
        _ => None,
    }
}

// ---- terms of validity ----

/// Whether a record is wrongly taken as holding at the minute, or as not holding.
pub fn wrongly_holds(fault: Option<Fault>, records: &[Record], record: &Record, minute: u32) -> Option<bool> {
    let Validity { first, end } = record.validity;
    let mut of_row = records.iter().filter(|other| (other.name, other.row) == (record.name, record.row));
    match fault? {
        Fault::EndHolds => Some(first <= minute && minute <= end),
        Fault::FirstDoesNotHold => Some(first < minute && minute < end),
        Fault::MinuteIgnored => Some(true),
        Fault::ExpiredRead => Some(first <= minute),
        Fault::NotYetHoldingRead => Some(minute < end),
        Fault::MinutesComparedSigned => Some(first as i32 <= minute as i32 && (minute as i32) < end as i32),
        Fault::LastMinuteHolds if end == u32::MAX => Some(first <= minute),
        Fault::FirstRecordOfRowDecides if of_row.next() != Some(record) => Some(false),
        Fault::LastRecordOfRowDecides if of_row.next_back() != Some(record) => Some(false),
        _ => None,
    }
}

/// What 13 is wrongly asked of, beside the rows of the name's value, which is that of these names joined; 0 if it is not.
pub fn rows_wrongly_counted(fault: Option<Fault>, records: &[Record], held: &Certified, joined: &BTreeSet<Name>, minute: u32) -> usize {
    match fault {
        Some(Fault::RepeatedRowsCounted) => rows_of_records(records, joined, minute).count(),
        Some(Fault::RowsThatDoNotHoldCounted) => rows_of_names(&certified(records), joined).collect::<BTreeSet<Row>>().len(),
        Some(Fault::RowsOfEachNameCounted) => rows_of_names(held, joined).count(),
        _ => 0,
    }
}

/// The row of each record of these names that holds at the minute, so that a row may come again.
fn rows_of_records<'a>(records: &'a [Record], joined: &'a BTreeSet<Name>, minute: u32) -> impl Iterator<Item = Row> + 'a {
    records.iter().filter(move |record| joined.contains(&record.name) && record.validity.holds_at(minute)).map(|record| record.row)
}

/// The rows of each of these names, so that a row may come again.
fn rows_of_names<'a>(certified: &'a Certified, joined: &'a BTreeSet<Name>) -> impl Iterator<Item = Row> + 'a {
    joined.iter().filter_map(|name| certified.get(name)).flatten().copied()
}

/// The rows that are wrongly drawn from a list.
pub fn wrongly_drawn(fault: Fault, records: &[Record], held: &Certified, joined: &BTreeSet<Name>, minute: u32) -> Option<Vec<Row>> {
    match fault {
        Fault::DrawnForEachRecord => Some(rows_of_records(records, joined, minute).collect()),
        Fault::DrawnForEachName => Some(rows_of_names(held, joined).collect()),
        _ => None,
    }
}

// ---- formats ----

fn begins_with(row: &Row, first: &Row) -> bool {
    row.used().starts_with(first.used())
}

/// What a policy's word 0 is wrongly taken for: a format, or none.
pub fn wrong_format(fault: Option<Fault>, word: u32) -> Option<Option<Format>> {
    match (fault?, word) {
        (Fault::Format2Refused, 2) => Some(None),
        (Fault::Format0Passes, 0) => Some(Some(Format::EqualWidths)),
        (Fault::Format3Passes, 3) => Some(Some(Format::WiderRows)),
        (Fault::FormatWordCut, _) => Some(Format::from_word(word & 0xFF)),
        (Fault::FormatAfterTable, _) => Some(Format::from_word(word).or(Some(Format::EqualWidths))),
        _ => None,
    }
}

/// Word 0 of a rewritten policy: the input's, unless a fault writes another.
pub fn format_written(fault: Option<Fault>, word: u32) -> u32 {
    match fault {
        Some(Fault::RewriterWritesFormat1) => 1,
        Some(Fault::RewriterWritesFormat2) => 2,
        _ => word,
    }
}

/// The format that a definition or the query is read under: its policy's, unless a fault takes the other one.
pub fn format_of_part(fault: Option<Fault>, judged: &Judged, part: u32) -> Format {
    let query = part == QUERY_PART;
    match fault {
        Some(Fault::Format1Wider) => Format::WiderRows,
        Some(Fault::Format2Equal) => Format::EqualWidths,
        Some(Fault::QueryEqual) if query => Format::EqualWidths,
        Some(Fault::QueryWider) if query => Format::WiderRows,
        Some(Fault::DefinitionsEqual) if !query => Format::EqualWidths,
        Some(Fault::DefinitionsWider) if !query => Format::WiderRows,
        Some(Fault::QueryAloneEqual) if judged.definitions.is_empty() => Format::EqualWidths,
        _ => judged.format,
    }
}

/// The format that an absent guard's operand is read under: that of the whole, unless a fault takes another.
pub fn format_under_absent(fault: Option<Fault>, format: Format) -> Format {
    if fault == Some(Fault::UnderAbsentEqual) {
        Format::EqualWidths
    } else {
        format
    }
}

/// The same of a drawn expression.
pub fn format_under_draw(fault: Option<Fault>, format: Format) -> Format {
    if fault == Some(Fault::UnderDrawEqual) {
        Format::EqualWidths
    } else {
        format
    }
}

/// The rows of a drawn set, in the order in which they are drawn: ascending, unless a fault orders or cuts them.
pub fn rows_drawn(fault: Option<Fault>, format: Format, width: usize, rows: BTreeSet<Row>) -> Vec<Row> {
    let mut rows: Vec<Row> = rows.into_iter().collect();
    match fault {
        Some(Fault::DrawnByWidth) => rows.sort_by_key(|row| row.width),
        Some(Fault::RowsCutBeforeDrawn) if format == Format::WiderRows => {
            rows = rows.iter().map(|row| cut(row, width)).collect();
            rows.dedup();
        }
        _ => {}
    }
    rows
}

/// The row's first atoms, so many of them at most.
fn cut(row: &Row, width: usize) -> Row {
    Row::new(&row.used()[..width.min(row.used().len())])
}

/// Whether a row is wrongly matched, or passed over.
pub fn wrongly_matched(fault: Option<Fault>, format: Format, from: &Expression, row: &Row, pattern: &[Slot], values: &mut Vec<u32>) -> Option<bool> {
    let (fault, outside) = (fault?, values.len());
    match format {
        _ if fault == Fault::PatternVariableNotCompared => {
            let new = |term| matches!(term, Term::Variable(number) if number >= outside);
            Some(format.held_against(pattern.len(), row).is_some_and(|atoms| equals_but(pattern, atoms, values, new)))
        }
        Format::EqualWidths if fault == Fault::Format1Padded => {
            let zeros = row.atoms[pattern.len()..].iter().all(|&atom| atom == 0);
            Some(zeros && equals(pattern, &row.atoms, values))
        }
        Format::EqualWidths => None,
        Format::WiderRows => wrongly_matched_in_format_2(fault, from, row, pattern, values),
    }
}

fn wrongly_matched_in_format_2(fault: Fault, from: &Expression, row: &Row, pattern: &[Slot], values: &mut Vec<u32>) -> Option<bool> {
    let (width, atoms) = (pattern.len(), row.used());
    let (literal, name) = (matches!(from, Expression::Rows(_)), matches!(from, Expression::List { .. } | Expression::Vetted { .. }));
    match fault {
        Fault::LiteralsDrawnEqual if literal => Some(matches(Format::EqualWidths, row, pattern, values)),
        Fault::NamesDrawnEqual if name => Some(matches(Format::EqualWidths, row, pattern, values)),
        Fault::NarrowerRowMatched if atoms.len() < width => {
            let (first, others) = pattern.split_at(atoms.len());
            let matched = equals(first, atoms, values);
            values.extend(others.iter().filter(|slot| **slot == Slot::New).map(|_| 0));
            Some(matched)
        }
        Fault::NarrowerRowPadded if atoms.len() < width => Some(equals(pattern, &row.atoms, values)),
        Fault::EqualWidthPassedOver if atoms.len() == width => Some(false),
        // The others are about wider rows.
        _ if atoms.len() <= width => None,
        Fault::LastAtomsMatched => Some(equals(pattern, &atoms[atoms.len() - width..], values)),
        Fault::OneAtomMoreAtMost if atoms.len() > width + 1 => Some(false),
        Fault::BehindPatternBound => {
            let matched = equals(pattern, atoms, values);
            values.push(atoms[width]);
            Some(matched)
        }
        Fault::FixedTermOfWiderRowPasses => Some(equals_but(pattern, atoms, values, |term| matches!(term, Term::Atom(_)))),
        Fault::VariableOfWiderRowPasses => Some(equals_but(pattern, atoms, values, |term| matches!(term, Term::Variable(_)))),
        Fault::LastSlotOfWiderRowPasses => {
            let (last, others) = pattern.split_last()?;
            let matched = equals(others, atoms, values);
            values.extend((*last == Slot::New).then_some(atoms[width - 1]));
            Some(matched)
        }
        _ => None,
    }
}

/// As `equals`, but that some terms are not compared.
fn equals_but(pattern: &[Slot], atoms: &[u32], values: &mut Vec<u32>, passes: impl Fn(Term) -> bool) -> bool {
    pattern.iter().zip(atoms).all(|(slot, &atom)| match slot {
        Slot::Term(term) if passes(*term) => true,
        slot => equals(&[*slot], &[atom], values),
    })
}

/// Whether a draw is wrongly not counted.
pub fn not_counted(fault: Option<Fault>, format: Format, row: &Row, width: usize, matched: bool) -> bool {
    match fault {
        Some(Fault::DrawsCountedWhenMatching) => !matched,
        Some(Fault::OtherWidthsNotCounted) => format == Format::WiderRows && row.used().len() != width,
        Some(Fault::NarrowerRowsNotCounted) => format == Format::WiderRows && row.used().len() < width,
        _ => false,
    }
}

/// Whether a row that matches is wrongly taken as done with those drawn before it.
pub fn passed_before(fault: Option<Fault>, format: Format, earlier: &[Row], row: &Row, width: usize) -> bool {
    let same = |other: &Row| cut(other, width) == cut(row, width);
    fault == Some(Fault::SameAtomsPassedOnce) && format == Format::WiderRows && earlier.iter().any(same)
}

/// Whether an absent guard's row is wrongly taken as being in the set, or as not being there.
pub fn wrongly_present(fault: Option<Fault>, format: Format, from: &Expression, set: &Set, row: &Row) -> Option<bool> {
    let literal = matches!(from, Expression::Rows(_) | Expression::AllBut(_));
    let finite = matches!(set, Set::Finite(_));
    match fault? {
        _ if format == Format::EqualWidths => None,
        Fault::AbsentFromLiteralByFirstAtoms if !literal => None,
        Fault::AbsentByFirstAtoms | Fault::AbsentFromLiteralByFirstAtoms => Some(set.listed().iter().any(|other| begins_with(other, row)) == finite),
        Fault::AbsentByShorterRow => Some(set.listed().iter().any(|other| begins_with(row, other)) == finite),
        _ => None,
    }
}

// ---- what links join ----

/// The names that are wrongly joined for this one.
pub fn wrongly_joined(fault: Option<Fault>, links: &[Link], name: Name) -> Option<BTreeSet<Name>> {
    let fault = fault?;
    let alone = BTreeSet::from([name]);
    let some = |which: &dyn Fn(&Link) -> bool, to: &dyn Fn(&Link) -> Name| links.iter().filter(|link| which(link)).map(to).collect::<Vec<Name>>();
    let forth = |at: Name| some(&|link| link.first() == at, &Link::second);
    let back = |at: Name| some(&|link| link.second() == at, &Link::first);
    let behind = || forth(name).into_iter().flat_map(|next| reached(next, forth)).collect::<BTreeSet<Name>>();
    Some(match fault {
        Fault::LinksNotRead => alone,
        Fault::LinksFollowedOneStep => forth(name).into_iter().chain(alone).collect(),
        Fault::LinksFollowed15Steps => (0..15).fold(alone, |reached, _| reached.iter().flat_map(|at| forth(*at)).chain(reached.clone()).collect()),
        Fault::LinksTheWrongWay => reached(name, back),
        Fault::LinksBothWays => reached(name, |at| [forth(at), back(at)].concat()),
        Fault::MinusLinksTheWrongWay if name[2] == 1 => reached(name, back),
        Fault::MinusLinksNotRead if name[2] == 1 => alone,
        Fault::LinkPolarityIgnored => reached(name, |[key, number, polarity]| {
            some(&|link| [link.key, link.name] == [key, number], &|link| [link.other_key, link.other_name, polarity])
        }),
        Fault::LinkPolarityTurnedRound => reached(name, |[key, number, polarity]| {
            some(&|link| link.first() == [key, number, 1 - polarity], &|link| [link.other_key, link.other_name, polarity])
        }),
        Fault::ItselfNotJoined => behind(),
        Fault::ItselfNotJoinedWhereLinked if !forth(name).is_empty() => behind(),
        Fault::CirclesCut if behind().contains(&name) => alone,
        Fault::SearchStopsAtNameMetBefore => met_once(name, forth),
        Fault::FirstLinkOfNameAlone => reached(name, |at| forth(at).into_iter().take(1).collect()),
        Fault::LinksGoneThroughOnce => links.iter().fold(alone, |mut reached, link| {
            if reached.contains(&link.first()) {
                reached.insert(link.second());
            }
            reached
        }),
        Fault::LinksOfKey => reached(name, |[key, _, polarity]| some(&|link| [link.key, link.polarity] == [key, polarity], &Link::second)),
        Fault::LinksOfNumber => reached(name, |[_, number, polarity]| some(&|link| [link.name, link.polarity] == [number, polarity], &Link::second)),
        Fault::OtherKeyIgnored => reached(name, |at| some(&|link| link.first() == at, &|link| [link.key, link.other_name, link.polarity])),
        Fault::OtherNameIgnored => reached(name, |at| some(&|link| link.first() == at, &|link| [link.other_key, link.name, link.polarity])),
        Fault::NamesUpTo128Joined => nearest(name, forth, 128),
        _ => return None,
    })
}

/// So many of the names that steps reach from this one, those of the fewest steps first.
fn nearest(name: Name, steps: impl Fn(Name) -> Vec<Name>, count: usize) -> BTreeSet<Name> {
    let mut met = vec![name];
    let mut next = 0;
    while next < met.len() && met.len() < count {
        let new: BTreeSet<Name> = steps(met[next]).into_iter().filter(|name| !met.contains(name)).collect();
        met.extend(new);
        next += 1;
    }
    met.into_iter().take(count).collect()
}

/// The names met in order of steps, up to the first one that is met again.
fn met_once(name: Name, steps: impl Fn(Name) -> Vec<Name>) -> BTreeSet<Name> {
    let mut met = vec![name];
    let mut next = 0;
    while next < met.len() {
        for step in steps(met[next]) {
            if met.contains(&step) {
                return met.into_iter().collect();
            }
            met.push(step);
        }
        next += 1;
    }
    met.into_iter().collect()
}

/// The rows that are wrongly joined for a name, from these names.
pub fn wrongly_certified(fault: Option<Fault>, records: &[Record], held: &Certified, name: Name, joined: &BTreeSet<Name>) -> Option<BTreeSet<Row>> {
    let rows = |of: &Name| held.get(of).cloned().unwrap_or_default();
    let others = || joined.iter().filter(|other| **other != name);
    match fault? {
        Fault::MinusListsUnited if name[2] == 1 => Some(others().fold(rows(&name), |common, other| &common & &rows(other))),
        Fault::ReachedAtAnyMinute => {
            let at_any_minute = certified(records);
            Some(others().filter_map(|other| at_any_minute.get(other)).flatten().copied().chain(rows(&name)).collect())
        }
        Fault::ReachedOfBothPolarities => Some(
            others().flat_map(|&[key, number, _]| [0, 1].map(|polarity| [key, number, polarity])).chain([name]).flat_map(|of| rows(&of)).collect(),
        ),
        _ => None,
    }
}

/// Whether these names joined wrongly pass 13.
pub fn limit_passed(fault: Option<Fault>, held: &Certified, joined: &BTreeSet<Name>) -> bool {
    fault == Some(Fault::LimitBeforeJoining) && joined.iter().filter_map(|name| held.get(name)).all(|rows| rows.len() <= MOST_ROWS)
}

/// The links with which code 8 wrongly reads a list.
pub fn wrongly_vetted(fault: Option<Fault>, compromised: &Set, links: &[Link]) -> Option<Vec<Link>> {
    match fault? {
        Fault::VettedWithoutLinks => Some(Vec::new()),
        Fault::ReachedVetted => Some(links.iter().filter(|link| !compromised.holds(&Row::new(&[link.other_key]))).copied().collect()),
        _ => None,
    }
}

// ---- link stores ----

/// Whether a link store is wrongly taken as too short, or as long enough.
pub fn wrongly_short(fault: Option<Fault>, store: &[u32]) -> Option<bool> {
    match fault? {
        Fault::ShortLinksTaken => Some(store.first().is_none_or(|&count| store.len() < 1 + LINK_WORDS * (count as usize + 1))),
        Fault::LongLinksRefused => Some(store.len() != LINKS_WORDS),
        _ => None,
    }
}

/// How many links a link store may wrongly hold.
pub fn wrong_links_capacity(fault: Option<Fault>, store: &[u32]) -> Option<usize> {
    match fault? {
        Fault::CapacityOf257Links => Some((store.len().saturating_sub(1) / LINK_WORDS).min(257)),
        Fault::LinksFullAt255 => Some(MOST_LINKS - 1),
        _ => None,
    }
}

/// A link that is wrongly taken as well formed, where only one of its words is looked over.
pub fn wrongly_formed(fault: Option<Fault>, words: &[u32]) -> Option<Link> {
    let fault = fault?;
    let untested = |skipped: Fault| fault == skipped;
    let words = if fault == Fault::LongerLinkFiled { words.get(..LINK_WORDS)? } else { words };
    let &[key, name, polarity, other_key, other_name] = words else { return None };
    let passes = (is_key(key) || untested(Fault::LinkKeyNotTested))
        && (is_key(other_key) || untested(Fault::LinkOtherKeyNotTested))
        && (name <= LAST_NAME || untested(Fault::LinkNameNotTested))
        && (other_name <= LAST_NAME || untested(Fault::LinkOtherNameNotTested))
        && (polarity <= 1 || untested(Fault::LinkPolarityNotTested));
    passes.then_some(Link { key, name, polarity, other_key, other_name })
}

/// A held link that is wrongly taken whatever its words are.
pub fn wrongly_held_link(fault: Option<Fault>, words: &[u32]) -> Option<Link> {
    let &[key, name, polarity, other_key, other_name] = words else { return None };
    (fault == Some(Fault::HeldLinksNotTested)).then_some(Link { key, name, polarity, other_key, other_name })
}

/// Whether two links that follow each other are wrongly taken as ascending, or as not ascending.
pub fn links_wrongly_ascending(fault: Option<Fault>, earlier: &Link, later: &Link) -> Option<bool> {
    match fault? {
        Fault::LinksInAnyOrder => Some(earlier != later),
        Fault::LinkHeldTwice => Some(earlier <= later),
        Fault::LinksByPolarityLast => Some(by_polarity_last(earlier) < by_polarity_last(later)),
        _ => None,
    }
}

fn by_polarity_last(link: &Link) -> [u32; LINK_WORDS] {
    [link.key, link.name, link.other_key, link.other_name, link.polarity]
}

/// Whether the words of a link store, sound or not, have this link.
pub fn has_link(store: &[u32], link: &[u32]) -> bool {
    let held = store.first().map_or(0, |&count| count as usize).min(MOST_LINKS);
    store.iter().skip(1).copied().collect::<Vec<u32>>().chunks(LINK_WORDS).take(held).any(|held| held == link)
}

fn reaches(links: &[Link], first: Name, second: Name) -> bool {
    reached(first, |at| links.iter().filter(|link| link.first() == at).map(Link::second).collect()).contains(&second)
}

/// Whether a link is wrongly refused with 18.
pub fn wrongly_refused_link(fault: Option<Fault>, links: &[Link], link: &Link) -> bool {
    match fault {
        Some(Fault::SelfLinkRefused) => link.first() == link.second(),
        Some(Fault::CircleRefused) => link.first() != link.second() && reaches(links, link.second(), link.first()),
        _ => false,
    }
}

/// Whether a link is wrongly taken as held.
pub fn link_wrongly_held(fault: Option<Fault>, links: &[Link], link: &Link) -> bool {
    let Link { key, name, polarity, other_key, other_name } = *link;
    match fault {
        Some(Fault::LinkHeldWithOtherPolarity) => links.contains(&Link { polarity: 1 - polarity, ..*link }),
        Some(Fault::LinkHeldTheOtherWay) => links.contains(&Link { key: other_key, name: other_name, other_key: key, other_name: name, polarity }),
        Some(Fault::ImpliedLinkHeld) => link.first() != link.second() && reaches(links, link.first(), link.second()),
        _ => false,
    }
}

/// Where a link is wrongly put among those held.
pub fn wrong_place_of_link(fault: Option<Fault>, links: &[Link], link: &Link) -> Option<usize> {
    let before = |held: &&Link| match fault {
        Some(Fault::LinksByPolarityLast) => by_polarity_last(held) < by_polarity_last(link),
        _ => held.first() <= link.first(),
    };
    let misplaced = matches!(fault?, Fault::LinksByPolarityLast | Fault::LinkPutBehindItsName);
    misplaced.then(|| links.iter().filter(before).count())
}

/// By how many words later links are wrongly moved, where there is room for that.
pub fn link_wrongly_moved(fault: Option<Fault>, store: &[u32]) -> Option<usize> {
    let room = store.len() > LINK_WORDS * store[0] as usize + RECORD_WORDS;
    (fault == Some(Fault::LinksMovedByTenWords) && room).then_some(RECORD_WORDS)
}

/// The links that a query is read with: those held if the link store is sound, unless a fault takes others or none.
pub fn links_taken(fault: Option<Fault>, judged: &Judged, links: Option<Vec<Link>>) -> Option<Vec<Link>> {
    let lists = || judged.expressions().iter().any(|expression| matches!(expression, Expression::List { .. } | Expression::Vetted { .. }));
    let in_a_circle = |links: &[Link]| links.iter().any(|link| reaches(links, link.second(), link.first()));
    match fault {
        Some(Fault::UnsoundLinksTakenAsNone) => links.or(Some(Vec::new())),
        Some(Fault::LinksTestedWhereRead) if !lists() => Some(Vec::new()),
        Some(Fault::CirclesUnsound) => links.filter(|links| !in_a_circle(links)),
        _ => links,
    }
}

// ---- certificates and stores ----

/// A certificate's words with an end that is not after its first minute, whatever the others are.
pub fn has_bad_term(certificate: &[u32]) -> bool {
    matches!(certificate, [.., first, end] if end <= first) && certificate.len() == RECORD_WORDS
}

/// Whether a term is wrongly let through when filing, or refused.
pub fn wrongly_filed(fault: Option<Fault>, Validity { first, end }: Validity) -> Option<bool> {
    match fault? {
        Fault::EndAtFirstFiled => Some(first <= end),
        Fault::TermNotTestedWhenFiled => Some(true),
        Fault::TermWithoutDateRefused if end > 52_596_000 => Some(false),
        Fault::MinutesComparedSigned => Some((first as i32) < end as i32),
        _ => None,
    }
}

/// Whether a held record's term is wrongly taken as sound.
pub fn wrongly_sound(fault: Option<Fault>, Validity { first, end }: Validity) -> Option<bool> {
    match fault? {
        Fault::HeldTermNotTested => Some(true),
        Fault::HeldEndAtFirst => Some(first <= end),
        _ => None,
    }
}

/// Whether two records that follow each other are wrongly taken as ascending, or as not ascending.
pub fn wrongly_ascending(fault: Option<Fault>, earlier: &Record, later: &Record) -> Option<bool> {
    if (earlier.name, earlier.row) != (later.name, later.row) {
        return None;
    }
    let (earlier, later) = (earlier.validity, later.validity);
    match fault? {
        Fault::HeldTermsDisjoint => Some(earlier.end <= later.first),
        Fault::HeldFirstsDiffer => Some(earlier.first < later.first),
        Fault::HeldTermsInAnyOrder => Some(earlier != later),
        Fault::HeldTermsByEnd => Some((earlier.end, earlier.first) < (later.end, later.first)),
        _ => None,
    }
}

/// Whether a certificate is wrongly taken as held.
pub fn wrongly_held(fault: Option<Fault>, records: &[Record], record: &Record) -> bool {
    let Validity { first, end } = record.validity;
    records.iter().filter(|held| (held.name, held.row) == (record.name, record.row)).any(|held| match fault {
        Some(Fault::HeldBeforeTerm) => end <= first,
        Some(Fault::HeldWithAnotherTerm) => first < end,
        Some(Fault::HeldWithTheSameFirst) => first < end && held.validity.first == first,
        Some(Fault::HeldByALongerTerm) => first < end && held.validity.first <= first && end <= held.validity.end,
        _ => false,
    })
}

/// Where a record is wrongly put among those held.
pub fn wrong_place(fault: Option<Fault>, records: &[Record], record: &Record) -> Option<usize> {
    let fault = fault?;
    let before = |held: &&Record| match fault {
        Fault::FiledByWidth => held.words() < record.words(),
        Fault::FiledByEnd => by_end(held) < by_end(record),
        Fault::FiledByTermFirst => (held.name, held.validity, held.row) < (record.name, record.validity, record.row),
        _ => (held.name, held.row) <= (record.name, record.row),
    };
    let misplaced = matches!(fault, Fault::FiledByWidth | Fault::FiledByEnd | Fault::FiledByTermFirst | Fault::FiledBehindItsRow);
    misplaced.then(|| records.iter().filter(before).count())
}

fn by_end(record: &Record) -> (Name, Row, u32, u32) {
    (record.name, record.row, record.validity.end, record.validity.first)
}

/// The place of the record that is wrongly written over.
pub fn replaced(fault: Option<Fault>, records: &[Record], record: &Record) -> Option<usize> {
    let same_row = |held: &Record| (held.name, held.row) == (record.name, record.row);
    (fault == Some(Fault::TermReplaced)).then(|| records.iter().position(same_row)).flatten()
}

/// How many certificates a store may wrongly hold.
pub fn wrong_capacity(fault: Option<Fault>, store: &[u32]) -> Option<usize> {
    match fault? {
        Fault::CapacityOf2000 => Some((store.len().saturating_sub(1) / RECORD_WORDS).min(2_000)),
        Fault::FullAt1599 => Some(MOST_CERTIFICATES - 1),
        _ => None,
    }
}

pub fn wrong_days_of_month(fault: Option<Fault>, year: u32, month: u32) -> Option<u32> {
    match (fault?, month) {
        (Fault::NoYearLeap, 2) => Some(28),
        (Fault::EveryYearLeap, 2) => Some(29),
        (Fault::Year2000NotLeap, 2) if year == 2_000 => Some(28),
        (Fault::MonthsAlternate, 8..) => Some(30 + month % 2),
        _ => None,
    }
}

/// The last day of a month that is wrongly taken for a date, without the month being longer.
pub fn wrong_last_day(fault: Option<Fault>, month: u32) -> Option<u32> {
    match fault? {
        Fault::LeapDayOfEveryYear if month == 2 => Some(29),
        Fault::Day31OfEveryMonth => Some(31),
        _ => None,
    }
}

/// What a date that does not exist is wrongly taken for.
pub fn wrong_date(fault: Option<Fault>, date: Date) -> Date {
    let [year, month, day, hour, minute] = date;
    match fault {
        Some(Fault::Day0Passes) if day == 0 => [year, month, 1, hour, minute],
        Some(Fault::Hour24Passes) if hour == 24 && minute == 0 && day < 28 => [year, month, day + 1, 0, 0],
        Some(Fault::Minute60Passes) if minute == 60 && hour < 23 => [year, month, day, hour + 1, 0],
        Some(Fault::Month0Passes) if month == 0 => [year, 1, day, hour, minute],
        Some(Fault::Month13Passes) if month == 13 => [year.wrapping_add(1), 1, day, hour, minute],
        Some(Fault::DateWordsCut) => [year & 0xFFFF, month & 0xFF, day & 0xFF, hour & 0xFF, minute & 0xFF],
        _ => date,
    }
}

pub fn wrong_last_year(fault: Option<Fault>) -> Option<u32> {
    match fault? {
        Fault::Year2099Refused => Some(2_098),
        Fault::Year2100Passes => Some(2_100),
        _ => None,
    }
}

/// What a name is wrongly read as, in place of this set.
pub fn wrong_list(fault: Option<Fault>, issuer: Term, values: &[u32], set: &Set) -> Option<Set> {
    let nothing = || Set::Finite(BTreeSet::new());
    let unknown = matches!(set, Set::Complement(rows) if rows.is_empty());
    let key = is_key(value(issuer, values));
    match fault? {
        Fault::NumberIssuerHasNoRows if !key => Some(nothing()),
        Fault::UnknownListTakenAsEmpty if key && unknown => Some(nothing()),
        Fault::NameOf129RowsRead if set.listed().len() == MOST_ROWS + 1 => Some(set.clone()),
        Fault::VariableIssuerUnknown if matches!(issuer, Term::Variable(_)) => Some(match set {
            Set::Finite(_) => nothing(),
            Set::Complement(_) => Set::Complement(BTreeSet::new()),
        }),
        _ => None,
    }
}

pub fn wrong_union(fault: Option<Fault>, left: &Set, right: &Set) -> Option<Numbered<Set>> {
    let value = match (fault?, left, right) {
        (Fault::LimitBeforeRepeats, Set::Finite(a), Set::Finite(b)) => return (a.len() + b.len() > MOST_ROWS).then_some(Err(TOO_MANY_ROWS)),
        (Fault::UnionDropsTail, Set::Finite(a), Set::Finite(b)) => Set::Finite(b | &a.iter().filter(|&row| b.first() < Some(row)).copied().collect()),
        (Fault::UnionDropsCommonRows, Set::Finite(a), Set::Finite(b)) => Set::Finite(a ^ b),
        (Fault::ComplementAndFiniteJoined, Set::Complement(a), Set::Finite(b)) => Set::Complement(a | b),
        (Fault::ComplementAndFiniteJoined, Set::Finite(a), Set::Complement(b)) => Set::Complement(a | b),
        (Fault::ComplementUnitedKept, Set::Complement(a), Set::Finite(_)) => Set::Complement(a.clone()),
        (Fault::ComplementUnitedKept, Set::Finite(_), Set::Complement(b)) => Set::Complement(b.clone()),
        (Fault::ComplementsUnitedJoined, Set::Complement(a), Set::Complement(b)) => Set::Complement(a | b),
        _ => return None,
    };
    Some(limited(value))
}

pub fn wrong_difference(fault: Option<Fault>, format: Format, left: &Set, right: &Set) -> Option<Numbered<Set>> {
    let by_first_atoms = |row: &&Row| matches!(right, Set::Finite(_)) != right.listed().iter().any(|other| begins_with(row, other));
    let value = match (fault?, left, right) {
        (Fault::SubtractedByFirstAtoms, Set::Finite(a), _) if format == Format::WiderRows => {
            Set::Finite(a.iter().filter(by_first_atoms).copied().collect())
        }
        (Fault::ComplementsSubtractedStraight, Set::Complement(a), Set::Complement(b)) => Set::Finite(a - b),
        (Fault::FiniteSubtractedKept, Set::Finite(a), Set::Finite(_)) => Set::Finite(a.clone()),
        (Fault::ComplementSubtractedStraight, Set::Finite(a), Set::Complement(b)) => Set::Finite(a - b),
        (Fault::FiniteFromComplementKept, Set::Complement(a), Set::Finite(_)) => Set::Complement(a.clone()),
        _ => return None,
    };
    Some(limited(value))
}

/// An answer's words with its rows in a wrong order.
pub fn wrong_layout(fault: Option<Fault>, set: &Set) -> Option<Vec<u32>> {
    let mut rows: Vec<&Row> = set.listed().iter().collect();
    match fault? {
        Fault::LaidOutByWidth => rows.sort_by_key(|row| row.width),
        Fault::LongerRowFirst => rows.sort_by(longer_first),
        Fault::AtomsComparedSigned => rows.sort_by_key(|row| row.used().iter().map(|&atom| atom as i32).collect::<Vec<i32>>()),
        Fault::AtomsFromTheLast => rows.sort_by_key(|row| row.used().iter().rev().collect::<Vec<&u32>>()),
        _ => return None,
    }
    Some(set.with_rows(rows))
}

fn longer_first(a: &&Row, b: &&Row) -> Ordering {
    let shared = a.width.min(b.width) as usize;
    a.used()[..shared].cmp(&b.used()[..shared]).then_with(|| Reverse(a.width).cmp(&Reverse(b.width)))
}

/// Whether the issuer's row is wrongly found among the compromised ones.
pub fn wrong_look_up(fault: Option<Fault>, format: Format, compromised: &Set, issuer: &Row) -> Option<bool> {
    let listed = compromised.listed();
    match fault? {
        Fault::LookUpByFirstAtomInFormat2 if format == Format::WiderRows => {
            Some(listed.iter().any(|row| begins_with(row, issuer)) == matches!(compromised, Set::Finite(_)))
        }
        Fault::VettedNotLookedUp => Some(false),
        Fault::LookUpTurnedRound => Some(!compromised.holds(issuer)),
        Fault::LookUpAmongListed => Some(listed.contains(issuer)),
        Fault::LookUpByFirstAtom => Some(listed.iter().any(|row| row.atoms[0] == issuer.atoms[0]) == matches!(compromised, Set::Finite(_))),
        _ => None,
    }
}

/// The lists, by where their words stand, that become code 8: all, unless a fault leaves some out.
pub fn lists_rewritten(fault: Option<Fault>, words: &[u32], our_key: u32, mut lists: Vec<Range<usize>>) -> Vec<Range<usize>> {
    match fault {
        Some(Fault::OwnNotRewritten) => lists.retain(|list| words[list.start + 1..][..2] != [0, our_key]),
        Some(Fault::VariableIssuerNotRewritten) => lists.retain(|list| words[list.start + 1] == 0),
        Some(Fault::OneListRewritten) => lists.truncate(1),
        _ => {}
    }
    lists
}
