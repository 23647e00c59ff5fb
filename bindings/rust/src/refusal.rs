//! Refusals, by the numbers of documents 01 and 02.

use std::fmt;
use std::num::NonZeroU8;

/// Why a call was refused. The constants are all the refusals there are.
#[derive(Clone, Copy, PartialEq, Eq, Hash)]
pub struct Refusal(NonZeroU8);

impl Refusal {
    /// The number in document 01 or 02.
    pub fn number(self) -> u8 {
        self.0.get()
    }

    /// `answer`, unless the number that came with it is a refusal's.
    pub(crate) fn unless<T>(number: u8, answer: T) -> Result<T, Refusal> {
        match NonZeroU8::new(number) {
            None => Ok(answer),
            Some(number) => Err(Refusal(number)),
        }
    }

    /// The number of an answer that is a refusal.
    pub(crate) fn of(number: u8) -> Refusal {
        Refusal(NonZeroU8::new(number).expect("a refusal has a number"))
    }
}

macro_rules! refusals {
    ($($name:ident = $number:literal, $meaning:literal;)*) => {
        impl Refusal {
            $(
                #[doc = $meaning]
                pub const $name: Refusal = Refusal(NonZeroU8::new($number).unwrap());
            )*

            /// All of them, with their names.
            pub const ALL: &'static [(&'static str, Refusal)] =
                &[$((stringify!($name), Refusal::$name)),*];

            fn meaning(self) -> &'static str {
                match self.number() {
                    $($number => $meaning,)*
                    _ => "unknown",
                }
            }
        }
    };
}

refusals! {
    LENGTH_UNDER_16 = 1, "a packet's length is under 16";
    LENGTH_OVER_LIMIT = 2, "a packet's length is over 16,777,215";
    LENGTH_IN_OPENING = 3, "a packet's length is 1024 or more in the opening";
    PACKET_NUMBER = 4, "a packet does not bear the next number";
    TYPE_NOT_ALLOWED = 5, "a packet's type is not allowed now";
    CHECKSUM = 6, "a packet's checksum is wrong";
    OPENING_SHORT = 7, "the body of a Nonce or Handshake is too short";
    CLOCKS = 8, "the clocks are more than 30 seconds apart";
    ENCRYPTION = 9,
        "the encryption that a Nonce names is not accepted, or it names another key for the cipher";
    BEYOND_OFFER = 10, "a version above ours, or CRC-32C granted though not offered";
    MESSAGE_CUT = 11, "a message ends within a field";
    NUMBER_ZERO = 12, "a query number is 0";
    HEADER_REPEATED = 13, "a second actor, extra or reqResultHeader";
    HEADER_NOT_CARRIED = 14, "a header or mask bit that our links do not carry";
    PAYLOAD_READS_AS_HEADER = 15, "a payload begins with what would be read as a header";
    BUFFER_TOO_SMALL = 16, "what is to be written does not fit the slice";
    BODY_SIZE = 17, "a Ping, Pong, cancel or fin of the wrong size, or bytes after an error";
    TEXT_FORM = 18, "a text of another form";
    TYPE_NOT_RPC = 19, "a type that is no message's, or a message that does not go this way";
    LINK_CLOSED = 20, "the link is closed";
    PING_OUT_OF_TURN = 21, "a Ping or Pong out of turn";
    NOT_OUR_TURN = 22, "in the opening: a send at the other side's turn, or a receive at ours";
    VERSION_TOO_OLD = 24, "a Nonce's version is below the link's lowest";
    PADDING_NOT_ZERO = 25, "a byte of the padding behind a packet is not 0";
    FOURTH_WORD = 26, "a fourth word of 4 before a packet";
    OUT_OF_RANGE = 30,
        "a link, publisher, first number, time, lowest or derivation's version is out of range";
    IN_FLIGHT_ALREADY = 31, "the link has a request in flight with this number";
    LOAD_AT_LIMIT = 32, "the publisher has 16 requests in flight";
    CAPACITY_GONE = 33, "what is left of the 64 places is reserved for other publishers";
    NO_SUCH_REQUEST = 34, "no such request is in flight";
    EVENT_UNKNOWN_OR_CUT = 35, "an event of no known kind, or cut: of the program relay_walk alone";
    UNSUITABLE_KEY = 36,
        "a key is over 4,096 bytes, or a link's is under 32, has four zero bytes in front, or is not there \
         though the link may cipher";
    NOT_WHOLE_BLOCKS = 37, "what is to be enciphered or deciphered is not whole blocks of 16 bytes";
}

impl fmt::Display for Refusal {
    fn fmt(&self, f: &mut fmt::Formatter) -> fmt::Result {
        write!(f, "{} ({})", self.meaning(), self.number())
    }
}

impl fmt::Debug for Refusal {
    fn fmt(&self, f: &mut fmt::Formatter) -> fmt::Result {
        write!(f, "Refusal({})", self.number())
    }
}

impl std::error::Error for Refusal {}
