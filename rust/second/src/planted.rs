//! Errors planted on purpose.
//!
//! With the feature `planted` one of these errors can be switched on, to show that the comparison of the
//! planners finds it. Without the feature none of this reaches the compiled planner.

/// Declares the errors, each with what it is, and the list of all.
macro_rules! errors {
    ($(#[$what_first:meta])+ $first:ident, $($(#[$what:meta])+ $error:ident,)*) => {
        /// An error that can be planted, numbered from 1.
        #[derive(Clone, Copy, Debug, PartialEq, Eq)]
        pub enum Error {
            $(#[$what_first])+
            $first = 1,
            $($(#[$what])+ $error,)*
        }

        /// All errors, in the order of their numbers.
        pub const ERRORS: &[Error] = &[Error::$first, $(Error::$error),*];
    };
}

errors! {
    /// The half of a joint's capacities is rounded up before a child link is found heavy.
    RoundedHalf,
    /// The tree is rooted at the joint of highest number.
    HighestRoot,
    /// End sets do not spread from a site to the sites below it.
    UpwardSets,
    /// An unknown name is told before a capacity that is too large.
    UnknownFirst,
    /// A report just as long as the buffer is refused.
    FullBuffer,
    /// The number of fields is looked at before the letter.
    CountBeforeLetter,
    /// Names are looked at before the number of fields.
    NamesBeforeCount,
    /// A bad second name is told as a badly written number.
    SecondNameAsNumber,
    /// A leading zero is told as a size that is too large.
    LeadingZeroAsLarge,
    /// The number of fields of a line without byte 10 is told.
    UnendedAsCount,
    /// An empty size is read as 0.
    EmptySize,
    /// The end sets of the report in halves stand in that in whole circuits.
    SetsInHalves,
    /// Loads in whole circuits are the trimmed sizes of the sizes rounded down to even ones.
    EvenSizes,
    /// A link too small for what dominates below it is cut to the parity of that.
    DominatedParity,
    /// End sets spread away from the root over links that could carry one circuit more.
    SpareOfOne,
    /// Pieces are connected over links of size 0.
    JoinedOverZero,
    /// A piece of a single site that has a link of size 0 is left out.
    CutOffSites,
    /// A piece is odd by the loads of the links leaving it.
    OddByLoads,
    /// The walk in whole circuits starts at the joint of highest number.
    WholeFromHighest,
    /// A link is taken to carry any number up to its most, even or odd.
    ParityLeftOut,
    /// The highest-numbered of the sites that may be taken is taken first.
    HighestTaken,
    /// Sites with two unvisited links are taken.
    TwoUnvisited,
    /// A list that is too short is told before the sheet's own causes.
    ShortListFirst,
    /// A list that is too short is filled before it is told.
    ListOnRefusal,
    /// Links are spelt in the report as their own lines spell them.
    TypedNames,
    /// Of a name only the first letter is read in either case.
    FirstLetterOnly,
    /// Of each byte of a name only the low five bits are read, so that `0` and `P` are the same.
    LowFiveBits,
    /// Link lines name sites by bytes, while a name already given is told in either case.
    LinksByBytes,
    /// A site is looked for where the bytes of a name tell, but compared with it in either case.
    HashByBytes,
    /// A name already given is told by bytes, while link lines name sites in either case.
    SitesByBytes,
    /// The report has all names in capitals.
    InCapitals,
    /// The reserve is added to the size.
    ReserveAdded,
    /// The report prints the size of a link with a reserve as it is given.
    GivenPrinted,
    /// A reserve above the size is told before a number that is too large.
    ReserveBeforeLarge,
    /// A reserve equal to the size is refused.
    WholeReserveRefused,
    /// An unknown name is told before a reserve above the size.
    UnknownBeforeReserve,
    /// End sets spread over links trimmed below the size that is given.
    SetsByGiven,
    /// Pieces in whole circuits are connected, and odd, by the sizes that are given.
    PiecesByGiven,
    /// The reserve is passed over.
    ReservePassedOver,
    /// Of a path the first link alone is looked at for an overfilled one.
    FirstLinkOnly,
    /// Loads in halves are held against the capacity in circuits.
    AgainstCapacity,
    /// A line that gives up more than is open takes what there is.
    TakesLess,
    /// What may be given up is told by the loads of the path.
    GiveUpByLoad,
    /// A pair refused for an overfilled link is open with nothing.
    RefusedOpensPlace,
    /// A 513th pair is told before an overfilled link.
    PlaceBeforeLoad,
    /// 513 pairs may be open together.
    OnePlaceMore,
    /// The two orders of a pair are two pairs.
    OrderedPairs,
    /// A log is refused for one line with a fault of its own.
    LogRefused,
    /// A pair may have joints.
    JointsAccepted,
    /// A list that is too short for the answers is told before a log that is too long.
    ShortAnswersFirst,
    /// The answers are written, as far as there are places, before the log is refused.
    AnswersOnRefusal,
    /// Log lines name sites by bytes.
    LogByBytes,
    /// A pair that falls to nothing keeps its place.
    PlaceKept,
    /// Names that are not two different ends are told before an amount out of its range.
    EndsBeforeAmount,
    /// A last line without byte 10 is left out.
    UnendedLeftOut,
    /// Heavy links are cut at a marked site as at a joint.
    MarkedTrimmed,
    /// End sets spread over links that are not trimmed too.
    SetsOverFull,
    /// A part is rooted where it is nearest to the root of the whole tree.
    OneRoot,
    /// A part is rooted at its joint of highest number.
    PartFromHighest,
    /// Two pairs that meet at an end inside the tree become one across it.
    PairAcross,
    /// The report has `T` for marked sites.
    MarkPrinted,
    /// An end with several links has no `X` line.
    MarkedWithoutSet,
    /// A link between two ends that both have other links is left without its pair.
    SingleLinkLeftOut,
    /// The letter `T` is not known.
    MarkRefused,
    /// A site with the letter `T` is not marked.
    MarkLost,
    /// Of the links at the set of a marked end only one is counted.
    OneLinkCounted,
    /// Loads in whole circuits are worked out from one end of the tree, through all others.
    LoadsThroughEnds,
    /// Marked sites are taken with any number of unvisited links.
    MarkedTaken,
    /// A pair of the log may have another end on its path.
    AcrossAccepted,
    /// Sheets of either edition have the limits of edition 2.
    SecondForAll,
    /// Sheets of either edition have the limits of edition 1.
    FirstForAll,
    /// The bytes of every sheet are measured by edition 2, whatever its line 1 is.
    LargerBytes,
    /// The bytes of every sheet are measured by edition 1.
    FirstBytes,
    /// A sheet whose line 1 is no heading is measured by edition 2.
    UnheadedBySecond,
    /// A 257th site of a sheet of edition 1 is accepted.
    SiteMoreInFirst,
    /// A 385th site of a sheet of edition 2 is accepted.
    SiteMoreInSecond,
    /// A sheet headed `network`, tab, `3` is read as one of edition 2.
    ThirdRead,
    /// The heading of edition 2 is not known.
    SecondUnknown,
    /// Pairs are put in order by the low eight bits of the numbers of their sites.
    OrderedByByte,
    /// Open pairs are told apart by the low eight bits of the numbers of their sites.
    PairsByByte,
    /// Names of digits alone are accepted, as before the card on them.
    BareAccepted,
    /// A name of digits alone is told before a bad name.
    BareBeforeBad,
    /// Of a name the first byte alone is looked at for a digit.
    FirstByteAlone,
    /// Site lines alone are looked at for names of digits alone.
    BareOnSitesAlone,
    /// A badly written number is told before a name of digits alone.
    BareAfterNumber,
    /// A second name may be one of digits alone.
    SecondBareAccepted,
    /// Logs alone are looked at for names of digits alone.
    BareInLogsAlone,
    /// A name of digits alone with a leading zero, as it is no number, is accepted.
    LeadingZeroBare,
    /// Of a name the last byte alone is looked at for a digit.
    LastByteAlone,
    /// A name of digits alone in a log is told as one that is no end.
    BareInLogUnknown,
    /// The greater of two trimmed sizes becomes the size of the shared link.
    GreaterShared,
    /// Regions are not trimmed again with the size of the shared link.
    TrimmedOnce,
    /// The far site counts for its own region and for the other.
    FarInBothSums,
    /// The sizes of the shared link are compared as they are given.
    SharedByGiven,
    /// Two regions may have more than two names in common.
    ThirdInCommon,
    /// The far site may be marked.
    MarkedFar,
    /// A list that is too short for a region is told before sheets that share no link.
    ShortBeforeShared,
    /// Of two lists that are too short that of the second region is told.
    SecondShortFirst,
    /// Of two sheets at fault the second is told.
    SecondSheetFirst,
    /// Names in common are the same by bytes.
    CommonByBytes,
    /// The list of the first region is filled before that of the second is told as too short.
    ListBeforeShort,
    /// Of the links of a marked end only one counts in the sum of its region.
    MarkedCountedOnce,
    /// One name may be that of the far site in both sheets.
    FarOnOneSide,
    /// The far site may have several links.
    FarWithLinks,
    /// The least total is that of the low sizes at the ends, not trimmed.
    UntrimmedLeast,
    /// The greatest trimmed size of a link is that among the low sizes of all others.
    GreatestAmongLow,
    /// An unknown name is told before a low size above the high one.
    UnknownBeforeRange,
    /// A range of one size, low and high, is refused.
    EqualRangeRefused,
    /// A link line with one size is accepted, which is low and high.
    OneSizeAccepted,
    /// A link line of a range sheet may have a reserve, which is taken off both sizes.
    RangeReserve,
    /// A sheet under the heading of an edition is read as a range sheet.
    EditionAsRanges,
    /// Range sheets go by the limits of edition 1.
    RangesByFirst,
    /// A low size above the high one is told before a number that is too large.
    RangeBeforeLarge,
    /// A sheet that is not headed `ranges` is measured by edition 1 when ranges are asked for.
    UnheadedRangesByFirst,
    /// Every plan that fits is the largest.
    FitIsLargest,
    /// A plan is the largest only with the pairs of the report.
    ReportAlone,
    /// An overfilled link is told at the line of the plan that overfills it.
    OverfilledAtLine,
    /// A pair of a plan is given twice only with its names in the same order.
    OneOrderTwice,
    /// Loads of a plan in halves are held against the capacity in circuits.
    PlanAgainstCapacity,
    /// Names that are not two ends free to be joined are told before an amount out of its range.
    PlanEndsBeforeAmount,
    /// A plan without lines is refused.
    EmptyPlanRefused,
    /// A pair given twice is told before names, on a line above, that are not two ends free to be joined.
    TwiceBeforeEnds,
    /// An overfilled link is told before a fault of a later line.
    OverfilledFirst,
    /// A pair given twice is told before an amount out of its range.
    TwiceBeforeAmount,
    /// Lines of a plan name sites by bytes.
    PlanByBytes,
    /// A plan may have 1,025 lines.
    PlanLineMore,
    /// A plan may have 65,537 bytes.
    PlanByteMore,
    /// A last line of a plan without byte 10 is left out.
    PlanUnendedLeftOut,
    /// A plan is the largest if it has the largest total in whole circuits.
    LargestInCircuits,
    /// A plan is the largest if it fills all links of all ends.
    LargestUntrimmed,
    /// Trees of the exercise book are put in order by their sizes before their links.
    SizesBeforeLinks,
    /// Links of the exercise book are put in order by their higher number first.
    HigherFirst,
    /// Links with a ring among them are counted as a tree of the exercise book.
    RingCounted,
    /// Sizes in the exercise book start with 1.
    SizesFromOne,
    /// Totals in the exercise book are half the sum of the sizes at ends.
    EndSizesSummed,
    /// The last tree of the exercise book is left out.
    LastTreeLeftOut,
    /// A joint's link towards the root is cut to the sum of those others whose sites are given above the joint.
    CutToLinksAbove,
    /// The reserve of a link is passed over whose first name is that of the later site.
    TurnedReserveLost,
    /// Heavy links are cut on the way to the root alone, not on the way back.
    CutInwardAlone,
    /// A link is cut to the largest other link of its joint, not to the sum of all others.
    CutToLargest,
    /// The two ends with most left are paired by all that both have left, as long as there are two.
    LargestPaired,
}

#[cfg(feature = "planted")]
mod switch {
    use super::Error;
    use std::sync::atomic::{AtomicU8, Ordering};

    static CHOSEN: AtomicU8 = AtomicU8::new(0);

    /// Switches one error on for all plans from now on.
    pub fn plant(error: Error) {
        CHOSEN.store(error as u8, Ordering::Relaxed);
    }

    pub(crate) fn planted(error: Error) -> bool {
        CHOSEN.load(Ordering::Relaxed) == error as u8
    }
}

#[cfg(not(feature = "planted"))]
mod switch {
    #[inline(always)]
    pub(crate) const fn planted(_: super::Error) -> bool {
        false
    }
}

#[cfg(feature = "planted")]
pub use switch::plant;
pub(crate) use switch::planted;
