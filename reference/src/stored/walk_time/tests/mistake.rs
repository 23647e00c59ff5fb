//! What a table may get wrong with times, deadlines and run-outs.

use crate::refusal::Refusal;
use crate::table::Side;

#[derive(Clone, Copy, Debug, PartialEq, Eq)]
pub enum Mistake {
    /// The table is right.
    Nothing,

    // Which time counts, and which is seen.
    DeadlineByOwnTime,
    DeadlineByTimeBefore,
    RunOutByOwnTime,
    RunOutByTimeBefore,
    LatestIsLastGiven,
    FreshHasSeen1,
    AskNotSeen,
    AskWithoutTimeoutNotSeen,
    RunOutNotSeen,
    EmptyRunOutNotSeen,
    /// By a row other than 30.
    RefusedAskSeen(Refusal),
    AskOfNoLinkSeen,
    AskOfNoPublisherSeen,
    AskTooLateSeen,
    RunOutTooLateSeen,
    MovesTime(Call, Move),

    // Which times are refused, and when.
    AskTakesFirstBeyond,
    AskRefusesLargest,
    AskJudgesSigned,
    RunOutTakesFirstBeyond,
    RunOutRefusesLargest,
    RunOutJudgesSigned,
    TimeZeroRefused,
    FirstRunOutAt0Refused,
    TimeNotLaterRefused,
    /// 30 for the time comes behind this row.
    TimeJudgedAfter(Refusal),

    // Widths.
    TimeOf31Bits,
    TimeOf32Bits,
    TimeoutOf16Bits,
    TimeoutOf31Bits,
    TimeoutSigned,
    DeadlineOf32Bits,
    DeadlineOf62Bits,
    DeadlineUpToLargestTime,

    // Who has a deadline.
    TimeoutZeroAtOnce,
    TimeoutZeroAtItsTime,
    OldAskAtOnce,
    OldAskAtLatestTime,
    OldAskLeftOver,
    NoTimeoutLeftOver,
    EarlierDeadlineLeftOver,

    // Which requests run out, and how they are listed.
    StrictlyBefore,
    NoneIfClockWentBack,
    NoDeadlineToo,
    OneOnly,
    OnePublisherOnly,
    OneLinkOnly,
    UpToFirstNotDue,
    NewestFirst,
    ByPlace,
    ByDeadline,
    ByLink,
    ByFrontNumber,
    ByPublisher,
    ByPublisherNumber,
    PublisherEnd,
    PublisherAndFrontNumber,
    FrontNumberOf32Bits,
    CountOneMore,
    CountOneLess,
    CountOfAll,
    NoneIsRefused,

    // What becomes of the others and of the numbering.
    RestOutOfOrder,
    NewestStays,
    NumberingStartsAnew,
    NumbersGivenBack,

    // Where those that ran out last are still found.
    StillListed,
    StillListedFor(Side),
    StillReplied,
    StillCancelled,
    StillInFlight,
    StillInLoad,
    StillInRoom,

    // What is not done with requests that are overdue.
    OverdueNotReplied,
    OverdueNotCancelled,
    OverdueAskedAgain,
    OverdueNotInLoad,
    OverdueNotInRoom,
    OverdueNotListedFor(Side),
    OverdueFreedByAsk,
}

/// A call that brings no time.
#[derive(Clone, Copy, Debug, PartialEq, Eq)]
pub enum Call {
    Ask,
    Reply,
    Cancel,
    Gone(Side),
}

#[derive(Clone, Copy, Debug, PartialEq, Eq)]
pub enum Move {
    /// By one ms.
    On,
    /// To 0.
    Back,
}

/// All but `Nothing`.
pub fn mistakes() -> Vec<Mistake> {
    let mut all = PLAIN.to_vec();
    for refusal in [
        Refusal::QueryNumberZero,
        Refusal::InFlightAlready,
        Refusal::LoadFull,
        Refusal::SharedRoomGone,
    ] {
        all.push(Mistake::RefusedAskSeen(refusal));
        all.push(Mistake::TimeJudgedAfter(refusal));
    }
    let calls = [Call::Ask, Call::Reply, Call::Cancel];
    for call in calls.into_iter().chain(Side::BOTH.map(Call::Gone)) {
        all.push(Mistake::MovesTime(call, Move::On));
        all.push(Mistake::MovesTime(call, Move::Back));
    }
    for side in Side::BOTH {
        all.push(Mistake::StillListedFor(side));
        all.push(Mistake::OverdueNotListedFor(side));
    }
    all
}

/// Those of which there is one.
const PLAIN: [Mistake; 75] = [
    Mistake::DeadlineByOwnTime,
    Mistake::DeadlineByTimeBefore,
    Mistake::RunOutByOwnTime,
    Mistake::RunOutByTimeBefore,
    Mistake::LatestIsLastGiven,
    Mistake::FreshHasSeen1,
    Mistake::AskNotSeen,
    Mistake::AskWithoutTimeoutNotSeen,
    Mistake::RunOutNotSeen,
    Mistake::EmptyRunOutNotSeen,
    Mistake::AskOfNoLinkSeen,
    Mistake::AskOfNoPublisherSeen,
    Mistake::AskTooLateSeen,
    Mistake::RunOutTooLateSeen,
    Mistake::AskTakesFirstBeyond,
    Mistake::AskRefusesLargest,
    Mistake::AskJudgesSigned,
    Mistake::RunOutTakesFirstBeyond,
    Mistake::RunOutRefusesLargest,
    Mistake::RunOutJudgesSigned,
    Mistake::TimeZeroRefused,
    Mistake::FirstRunOutAt0Refused,
    Mistake::TimeNotLaterRefused,
    Mistake::TimeOf31Bits,
    Mistake::TimeOf32Bits,
    Mistake::TimeoutOf16Bits,
    Mistake::TimeoutOf31Bits,
    Mistake::TimeoutSigned,
    Mistake::DeadlineOf32Bits,
    Mistake::DeadlineOf62Bits,
    Mistake::DeadlineUpToLargestTime,
    Mistake::TimeoutZeroAtOnce,
    Mistake::TimeoutZeroAtItsTime,
    Mistake::OldAskAtOnce,
    Mistake::OldAskAtLatestTime,
    Mistake::OldAskLeftOver,
    Mistake::NoTimeoutLeftOver,
    Mistake::EarlierDeadlineLeftOver,
    Mistake::StrictlyBefore,
    Mistake::NoneIfClockWentBack,
    Mistake::NoDeadlineToo,
    Mistake::OneOnly,
    Mistake::OnePublisherOnly,
    Mistake::OneLinkOnly,
    Mistake::UpToFirstNotDue,
    Mistake::NewestFirst,
    Mistake::ByPlace,
    Mistake::ByDeadline,
    Mistake::ByLink,
    Mistake::ByFrontNumber,
    Mistake::ByPublisher,
    Mistake::ByPublisherNumber,
    Mistake::PublisherEnd,
    Mistake::PublisherAndFrontNumber,
    Mistake::FrontNumberOf32Bits,
    Mistake::CountOneMore,
    Mistake::CountOneLess,
    Mistake::CountOfAll,
    Mistake::NoneIsRefused,
    Mistake::RestOutOfOrder,
    Mistake::NewestStays,
    Mistake::NumberingStartsAnew,
    Mistake::NumbersGivenBack,
    Mistake::StillListed,
    Mistake::StillReplied,
    Mistake::StillCancelled,
    Mistake::StillInFlight,
    Mistake::StillInLoad,
    Mistake::StillInRoom,
    Mistake::OverdueNotReplied,
    Mistake::OverdueNotCancelled,
    Mistake::OverdueAskedAgain,
    Mistake::OverdueNotInLoad,
    Mistake::OverdueNotInRoom,
    Mistake::OverdueFreedByAsk,
];
