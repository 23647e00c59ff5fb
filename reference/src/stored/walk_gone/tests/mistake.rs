//! What a table may get wrong for a gone peer.

#[derive(Clone, Copy, Debug, PartialEq, Eq)]
pub enum Mistake {
    /// The table is right.
    Nothing,

    // Which numbers are refused.
    LimitOfTheOtherSide,
    OneNumberMore,
    AnyNumber,
    LowBitsOfTheNumber,
    NoneIsRefused,

    // Which requests are listed, and how.
    SidesSwapped,
    BothSidesListed,
    CountOfTheOtherSide,
    LongestListCut,
    OwnEnd,
    OwnNumber,
    NumberOf32Bits,
    NumberClipped,
    NewestFirst,
    ByPlace,
    ByPeer,
    ByNumber,
    ByOwnNumber,

    // Which are freed, and what becomes of the others and of the numbering.
    OneFreed,
    NewestStays,
    BothSidesFreed,
    RestOutOfOrder,
    NumberingStartsAnew,

    // Where those that were freed last are still found.
    StillListed,
    StillReplied,
    StillCancelled,
    StillInFlight,
    StillInLoad,
    StillInRoom,
}

/// All but `Nothing`.
pub const MISTAKES: [Mistake; 29] = [
    Mistake::LimitOfTheOtherSide,
    Mistake::OneNumberMore,
    Mistake::AnyNumber,
    Mistake::LowBitsOfTheNumber,
    Mistake::NoneIsRefused,
    Mistake::SidesSwapped,
    Mistake::BothSidesListed,
    Mistake::CountOfTheOtherSide,
    Mistake::LongestListCut,
    Mistake::OwnEnd,
    Mistake::OwnNumber,
    Mistake::NumberOf32Bits,
    Mistake::NumberClipped,
    Mistake::NewestFirst,
    Mistake::ByPlace,
    Mistake::ByPeer,
    Mistake::ByNumber,
    Mistake::ByOwnNumber,
    Mistake::OneFreed,
    Mistake::NewestStays,
    Mistake::BothSidesFreed,
    Mistake::RestOutOfOrder,
    Mistake::NumberingStartsAnew,
    Mistake::StillListed,
    Mistake::StillReplied,
    Mistake::StillCancelled,
    Mistake::StillInFlight,
    Mistake::StillInLoad,
    Mistake::StillInRoom,
];
