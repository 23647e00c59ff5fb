//! Sending on a link.

use crate::packet_type::{HANDSHAKE, NONCE, PING, PONG};
use crate::raw::{self, Outgoing};
use crate::{Answer, Link, Message, Moment, NetPid, Refusal};

/// More than any packet has besides its payload or text.
const AROUND_PAYLOAD: usize = 128;

/// What is to be sent.
#[derive(Clone, Copy, Debug, PartialEq, Eq)]
pub enum ToSend<'a> {
    /// Without a point: of a link that neither offers nor takes the cipher. (A
    /// [`Session`](crate::Session) puts its card's point in where one belongs.)
    Nonce {
        random: [u8; 16],
    },
    /// With the card's point, of a link that offers or takes the cipher. Any
    /// other link does not read the point, and sends zeros.
    NonceWithPoint {
        random: [u8; 16],
        point: [u8; 32],
    },
    Handshake {
        sender: NetPid,
        peer: NetPid,
    },
    Ping {
        id: u64,
    },
    /// It bears the ID of the Ping that it answers.
    Pong,
    Message(Message<'a>),
}

impl Link {
    /// Writes a packet at the front of `buf` and hands back its size; bytes
    /// past it stay. After a refusal the link and every byte are as before.
    pub fn send(&mut self, buf: &mut [u8], what: ToSend, moment: Moment) -> Result<usize, Refusal> {
        let (outgoing, payload) = what.fields();
        // SAFETY: the link is borrowed, and each pointer and length are a
        // slice's; what is borrowed to be written overlaps nothing.
        let sent = unsafe {
            raw::relay_send(
                &mut self.0,
                buf.as_mut_ptr(),
                buf.len(),
                payload.as_ptr(),
                payload.len(),
                outgoing,
                moment.raw(),
            )
        };
        Refusal::unless(sent.refusal, sent.size)
    }

    /// Writes the words of value 4 at the front of `buf` that bring what a
    /// padded link wrote since the first byte of our Handshake to a multiple of
    /// 16 bytes, and hands back their size: 0, 4, 8 or 12, and 0 before our
    /// Handshake and on an unpadded link. Bytes past them stay. Refused with 20
    /// and with 16; the link and every byte are then as before.
    ///
    /// On a ciphered link a driver must flush behind the last packet that it hands
    /// over at once, before it enciphers: the cipher takes whole blocks of 16
    /// bytes only. One flush too many is harmless.
    pub fn flush(&mut self, buf: &mut [u8]) -> Result<usize, Refusal> {
        // SAFETY: the link is borrowed, the pointer and length are a slice's.
        let sent = unsafe { raw::relay_flush(&mut self.0, buf.as_mut_ptr(), buf.len()) };
        Refusal::unless(sent.refusal, sent.size)
    }
}

impl<'a> ToSend<'a> {
    /// The fields for the C interface, and the payload or text.
    fn fields(self) -> (Outgoing, &'a [u8]) {
        let none = Outgoing::default();
        let outgoing = match self {
            ToSend::Nonce { random } => Outgoing {
                kind: NONCE,
                random,
                ..none
            },
            ToSend::NonceWithPoint { random, point } => Outgoing {
                kind: NONCE,
                random,
                point,
                ..none
            },
            ToSend::Handshake { sender, peer } => Outgoing {
                kind: HANDSHAKE,
                sender,
                peer,
                ..none
            },
            ToSend::Ping { id } => Outgoing {
                kind: PING,
                id,
                ..none
            },
            ToSend::Pong => Outgoing { kind: PONG, ..none },
            ToSend::Message(message) => return message.fields(),
        };
        (outgoing, &[])
    }

    /// Room that the packet of it fits, with its zeros.
    pub(crate) fn room(&self) -> usize {
        self.fields().1.len() + AROUND_PAYLOAD
    }

    /// What crosses the C interface.
    #[cfg(feature = "raw")]
    pub fn raw(self) -> (Outgoing, &'a [u8]) {
        self.fields()
    }
}

impl<'a> Message<'a> {
    fn fields(self) -> (Outgoing, &'a [u8]) {
        let none = Outgoing {
            kind: self.packet_type(),
            ..Outgoing::default()
        };
        match self {
            Message::Invoke(invoke) => {
                let outgoing = Outgoing {
                    number: invoke.number,
                    hasactor: invoke.actor.is_some(),
                    actor: invoke.actor.unwrap_or(0),
                    hastimeout: invoke.timeout.is_some(),
                    timeout: invoke.timeout.unwrap_or(0),
                    tl2: invoke.tl2,
                    ..none
                };
                (outgoing, invoke.payload)
            }
            Message::Cancel { number } => (Outgoing { number, ..none }, &[]),
            Message::ClientFin | Message::ServerFin => (none, &[]),
            Message::Result { number, answer } => match answer {
                Answer::Payload(payload) => (Outgoing { number, ..none }, payload),
                Answer::Error { code, text } => {
                    let outgoing = Outgoing {
                        number,
                        error: true,
                        code,
                        ..none
                    };
                    (outgoing, text)
                }
            },
        }
    }
}
