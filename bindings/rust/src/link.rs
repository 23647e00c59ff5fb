//! Links: their set-up, and receiving.

use crate::{raw, Refusal};
use std::ops::Range;

/// One end of a connection.
#[derive(Clone, Copy, Debug, PartialEq, Eq)]
pub enum Side {
    /// Towards a publisher.
    Client,
    /// Towards a front end.
    Server,
}

/// Whether a link goes clear or through the cipher. Where the two ends' choices
/// do not meet, the Nonce is refused with 9.
#[derive(Clone, Copy, Debug, Default, PartialEq, Eq)]
pub enum Cipher {
    /// A client offers 0 and takes 0; a server refuses 1, and answers 0.
    #[default]
    ClearOnly,
    /// A client offers 1 and takes 1; a server refuses 0, and answers 1.
    CipherOnly,
    /// A client offers 2 and takes 0 or 1; a server refuses nothing, and answers
    /// 0 to 0 and 1 to all else. Who can change the Nonces under way, which are
    /// clear, can have such a link go clear.
    Either,
}

/// How a link is set up. Only `new` makes one, so that a setting added later
/// changes nothing for callers that do not say it.
#[non_exhaustive]
#[derive(Clone, Copy, Debug, PartialEq, Eq)]
pub struct Settings {
    pub side: Side,
    /// Whether CRC-32C is offered by a client, or granted by a server that is
    /// offered it.
    pub crc32c: bool,
    /// The lowest version that the other side's Nonce may have, 0 to 2; 0 takes
    /// every version.
    pub lowest: u8,
    /// Whether the link is padded: from the Handshakes on zeros follow each
    /// packet up to a multiple of 4 bytes, and up to three words of value 4 may
    /// stand before one. Both ends are set alike. A link whose Nonces chose the
    /// cipher is padded so whatever this says.
    pub padded: bool,
    /// A link that may cipher is set up with a key.
    pub cipher: Cipher,
}

impl Settings {
    /// Every other setting as if it is not said.
    pub const fn new(side: Side, crc32c: bool) -> Settings {
        Settings {
            side,
            crc32c,
            lowest: 0,
            padded: false,
            cipher: Cipher::ClearOnly,
        }
    }

    pub const fn with_lowest(self, lowest: u8) -> Settings {
        Settings { lowest, ..self }
    }

    pub const fn with_padded(self, padded: bool) -> Settings {
        Settings { padded, ..self }
    }

    pub const fn with_cipher(self, cipher: Cipher) -> Settings {
        Settings { cipher, ..self }
    }

    fn raw(self) -> raw::Settings {
        raw::Settings {
            server: self.side == Side::Server,
            allows: self.crc32c,
            lowest: self.lowest,
            padded: self.padded,
            cipher: self.cipher != Cipher::ClearOnly,
            only: self.cipher == Cipher::CipherOnly,
        }
    }
}

/// What the caller gives with each call.
#[derive(Clone, Copy, Debug, PartialEq, Eq)]
pub struct Moment {
    /// Our time, in seconds.
    pub time: u32,
}

impl Moment {
    pub(crate) fn raw(self) -> raw::Moment {
        raw::Moment { time: self.time }
    }
}

/// What stands at the front of received bytes.
#[derive(Clone, Copy, Debug, PartialEq, Eq)]
pub enum Arrival<'a> {
    /// At least so many bytes more are needed.
    Incomplete(usize),
    Packet {
        /// Its type.
        kind: u32,
        /// How many bytes it takes, with the words before it and the zeros
        /// behind it.
        consumed: usize,
        body: &'a [u8],
    },
    Refused(Refusal),
}

/// The state of one end of a connection.
///
/// A link is not `Copy`: two that go on from one state would number their
/// packets alike.
#[derive(Clone, Debug, PartialEq, Eq)]
pub struct Link(pub(crate) raw::Link);

impl Link {
    /// A link without a key before its opening; refused with 36 where it may
    /// cipher, then with 30 for a lowest version above 2.
    pub fn new(settings: Settings) -> Result<Link, Refusal> {
        // SAFETY: all is passed by value.
        let answer = unsafe { raw::relay_set_up(settings.raw()) };
        Refusal::unless(answer.refusal, Link(answer.link))
    }

    /// A link with a key before its opening; refused with 36 for a key over
    /// 4,096 or under 32 bytes or with four zero bytes in front, then with 30.
    ///
    /// The link keeps the key's first four bytes, which are no secret, and no
    /// more: the caller keeps the key, for [`derive`](crate::keys::derive), and
    /// [clears](crate::keys::clear) it. A link that is set to go clear only opens
    /// as one without a key does, with a peer that has another key or none.
    pub fn with_key(settings: Settings, key: &[u8]) -> Result<Link, Refusal> {
        let set = settings.raw();
        // SAFETY: the pointer and length are a slice's.
        let answer = unsafe { raw::relay_set_up_with_key(set, key.as_ptr(), key.len()) };
        Refusal::unless(answer.refusal, Link(answer.link))
    }

    /// The packet at the front of `bytes`, how many bytes it lacks, or why it
    /// is refused. Refusals 1 to 10, 17, 21 and 24 to 26 close the link; 20 and
    /// 22 leave it as it was.
    pub fn receive<'a>(&mut self, bytes: &'a [u8], moment: Moment) -> Arrival<'a> {
        self.receive_at(bytes, moment).0
    }

    /// The same, and where the body stands in the bytes.
    pub(crate) fn receive_at<'a>(
        &mut self,
        bytes: &'a [u8],
        moment: Moment,
    ) -> (Arrival<'a>, Range<usize>) {
        let (start, n) = (bytes.as_ptr(), bytes.len());
        // SAFETY: the link is borrowed, the pointer and length are a slice's.
        let arrival = unsafe { raw::relay_receive(&mut self.0, start, n, moment.raw()) };
        // SAFETY: the pointer and length are a slice's.
        let body = unsafe { raw::relay_body(start, n, arrival) };
        let place = body.at..body.at + body.len;
        let arrival = match arrival.tag {
            0 => Arrival::Refused(Refusal::of(arrival.refusal)),
            1 => Arrival::Incomplete(arrival.more),
            2 => Arrival::Packet {
                kind: arrival.kind,
                consumed: arrival.consumed,
                body: &bytes[place.clone()],
            },
            other => unreachable!("an arrival with the tag {other}"),
        };
        (arrival, place)
    }

    /// Whether a refused packet has closed the link.
    pub fn is_closed(&self) -> bool {
        self.0.closed
    }

    /// Whether all four packets of the opening went over.
    pub fn is_open(&self) -> bool {
        !self.0.closed && self.0.stage >= 4
    }

    /// Whether the Nonces chose the cipher: from the Handshakes on all bytes are
    /// to be deciphered before [`receive`](Link::receive), and flushed and
    /// enciphered after [`send`](Link::send). [`Session`](crate::Session) does so.
    pub fn is_ciphered(&self) -> bool {
        self.0.ciphered
    }

    /// The state as it crosses the C interface.
    #[cfg(feature = "raw")]
    pub fn raw(&mut self) -> &mut raw::Link {
        &mut self.0
    }
}

/// Their time minus ours, by the body of their Nonce; none if that is not from
/// -30 to 30 seconds.
pub fn clock_difference(body: &[u8], moment: Moment) -> Option<i64> {
    // SAFETY: the pointer and length are a slice's.
    let clock = unsafe { raw::relay_clock_difference(body.as_ptr(), body.len(), moment.raw()) };
    clock.near.then_some(clock.difference)
}
