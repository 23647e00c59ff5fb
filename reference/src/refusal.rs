//! The refusal numbers of document 01 and of the change requests.

#[derive(Clone, Copy, Debug, PartialEq, Eq)]
pub enum Refusal {
    LengthTooShort = 1,
    LengthTooLong = 2,
    LengthInOpening = 3,
    PacketNumber = 4,
    TypeNotNow = 5,
    Checksum = 6,
    OpeningBodyShort = 7,
    Clocks = 8,
    Encryption = 9,
    BeyondOffer = 10,
    CutOff = 11,
    QueryNumberZero = 12,
    HeaderRepeated = 13,
    NotCarried = 14,
    PayloadAsHeader = 15,
    BufferTooSmall = 16,
    WrongSize = 17,
    TextForm = 18,
    NotThisWay = 19,
    LinkClosed = 20,
    PingOutOfTurn = 21,
    NotOurTurn = 22,
    VersionTooLow = 24,
    PaddingNotZero = 25,
    FourthWord = 26,
    OutOfRange = 30,
    InFlightAlready = 31,
    LoadFull = 32,
    SharedRoomGone = 33,
    NotInFlight = 34,
    BadEvent = 35,
    BadKey = 36,
    NotWholeBlocks = 37,
}

impl Refusal {
    pub fn number(self) -> u8 {
        self as u8
    }
}
