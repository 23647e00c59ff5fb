//! One end of a connection in both programs: each call goes to both, and
//! answer, state and lent bytes are compared.

use crate::compare::{same, Compared, Difference};
use crate::counts::Counts;
use crate::messages;
use crate::netpids::{self, netpid};
use crate::nonces;
use crate::pairs::SetUp;
use crate::states::{self, our_settings};
use reference::link::{packet, Cipher, Link, Outgoing, Received, State};
use reference::message::{Message, Outcome, Side, Span};
use reference::refusal::Refusal;
use relay::raw;
use relay::{clock_difference, Arrival, Moment, ToSend};

#[derive(Clone)]
pub struct End {
    pub side: Side,
    pub ours: relay::Link,
    pub second: Link,
    /// What our link keeps of its set-up, whatever it is called with.
    set: raw::Settings,
    key_id: [u8; 4],
}

/// A packet that both programs received.
#[derive(Clone, Copy)]
pub struct Packet {
    pub packet_type: u32,
    pub consumed: usize,
    pub body: Span,
}

pub enum Taken {
    Wait,
    Packet(Packet),
    Refused,
}

pub fn our_side(side: Side) -> relay::Side {
    match side {
        Side::Client => relay::Side::Client,
        Side::Server => relay::Side::Server,
    }
}

impl End {
    /// For a set-up that is not refused. The second program's link has no key
    /// if it goes clear only: nothing on the wire may differ by one then.
    pub fn new(set_up: SetUp) -> End {
        let SetUp { settings, key, .. } = set_up;
        let ours = match key {
            Some(key) => relay::Link::with_key(our_settings(settings), &key),
            None => relay::Link::new(our_settings(settings)),
        };
        let second = match key {
            Some(key) if settings.cipher != Cipher::ClearOnly => {
                Link::set_up_with_key(settings, &key)
            }
            _ => Link::set_up(settings),
        };
        let mut ours = ours.expect("a link of ours");
        // The wrapper says it only with the cipher.
        ours.raw().set.only |= settings.cipher == Cipher::ClearOnly && set_up.only;
        End {
            side: settings.side,
            set: ours.raw().set,
            ours,
            second: second.expect("a link of the second program"),
            key_id: key.map_or([0; 4], |[a, b, c, d, ..]| [a, b, c, d]),
        }
    }

    pub fn same_state(&mut self, call: impl FnOnce() -> String) -> Compared {
        let ours = self.ours.raw();
        let ours = (states::ours(ours), ours.set);
        let second = State {
            key_id: self.key_id,
            ..states::second(self.second.state())
        };
        same("a link's state", call, ours, (second, self.set))
    }

    /// By its settings or because the cipher was chosen.
    pub fn is_padded(&self) -> bool {
        let state = self.second.state();
        state.settings.padded || state.ciphered
    }

    /// Whether a Nonce of ours would offer or take the cipher.
    pub fn shows_key(&self) -> bool {
        let state = self.second.state();
        match self.side {
            Side::Client => state.settings.cipher != Cipher::ClearOnly,
            Side::Server => state.ciphered,
        }
    }

    /// Lends the bytes to both.
    pub fn receive(
        &mut self,
        bytes: &[u8],
        time: u32,
        counts: &mut Counts,
    ) -> Result<Taken, Difference> {
        let side = self.side;
        let call = || format!("receive at {side:?}, time {time}: {bytes:02x?}");
        let ours = received(bytes, time, self.ours.receive(bytes, Moment { time }));
        let second = self.second.receive(bytes, time);
        let second = second.map_err(|refusal| refusal.number());
        same("a receive", call, ours, second)?;
        self.same_state(call)?;
        counts.add("receive", word(second));
        Ok(match second {
            Ok(Received::Wait(_)) => Taken::Wait,
            Ok(Received::Packet {
                packet_type,
                consumed,
                body,
                ..
            }) => {
                match packet_type {
                    packet::NONCE => {
                        let ciphered = self.second.state().ciphered;
                        counts.add("choice", Ok(if ciphered { "cipher" } else { "clear" }));
                        nonces::compare(body.of(bytes), counts)?
                    }
                    packet::HANDSHAKE => netpids::compare(body.of(bytes))?,
                    _ => {}
                }
                Taken::Packet(Packet {
                    packet_type,
                    consumed,
                    body,
                })
            }
            Err(_) => Taken::Refused,
        })
    }

    /// Both send into a buffer of `room` bytes that are `filler`; hands back
    /// the packet.
    pub fn send(
        &mut self,
        what: &Outgoing,
        time: u32,
        room: usize,
        filler: u8,
        counts: &mut Counts,
    ) -> Result<Option<Vec<u8>>, Difference> {
        let side = self.side;
        let call = || format!("send at {side:?}, room {room}: {}", shown(what));
        let mut our_buffer = vec![filler; room];
        let mut buffer = our_buffer.clone();
        let moment = Moment { time };
        let ours = self.ours.send(&mut our_buffer, to_send(what), moment);
        let second = self.second.send(what, &mut buffer);
        let second = second.map_err(|refusal| refusal.number());
        same("a send", call, ours.map_err(|r| r.number()), second)?;
        same("a sent buffer", call, &our_buffer, &buffer)?;
        self.same_state(call)?;
        counts.add("send", second.map(|_| kind(what)));
        Ok(second.ok().map(|size| {
            buffer.truncate(size);
            buffer
        }))
    }

    /// Both flush into a buffer of `room` bytes that are `filler`; hands back
    /// the words.
    pub fn flush(
        &mut self,
        room: usize,
        filler: u8,
        counts: &mut Counts,
    ) -> Result<Option<Vec<u8>>, Difference> {
        let side = self.side;
        let call = || format!("flush at {side:?}, room {room}");
        let mut our_buffer = vec![filler; room];
        let mut buffer = our_buffer.clone();
        let ours = self.ours.flush(&mut our_buffer);
        let second = self.second.flush(&mut buffer);
        let second = second.map_err(|refusal| refusal.number());
        same("a flush", call, ours.map_err(|r| r.number()), second)?;
        same("a flushed buffer", call, &our_buffer, &buffer)?;
        self.same_state(call)?;
        counts.add("flush", second.map(flushed));
        Ok(second.ok().map(|size| {
            buffer.truncate(size);
            buffer
        }))
    }

    /// A packet with the number and checksum that this end expects next,
    /// without anything around it.
    pub fn expected_packet(&self, packet_type: u32, body: &[u8]) -> Vec<u8> {
        let (number, checksum) = self.second.expected();
        packet::whole(number, packet_type, body, checksum)
    }

    /// Both read the message in a packet that they received.
    pub fn read(&self, received: Packet, bytes: &[u8], counts: &mut Counts) -> Compared {
        let body = received.body.of(bytes);
        messages::compare(self.side, received.packet_type, body, counts)
    }
}

fn received(bytes: &[u8], time: u32, arrival: Arrival) -> Result<Received, u8> {
    match arrival {
        Arrival::Incomplete(more) => Ok(Received::Wait(more)),
        Arrival::Refused(refusal) => Err(refusal.number()),
        Arrival::Packet {
            kind,
            consumed,
            body,
        } => Ok(Received::Packet {
            packet_type: kind,
            consumed,
            body: Span {
                at: body.as_ptr() as usize - bytes.as_ptr() as usize,
                len: body.len(),
            },
            clock: (kind == packet::NONCE)
                .then(|| clock_difference(body, Moment { time }))
                .flatten(),
        }),
    }
}

fn word(received: Result<Received, u8>) -> Result<&'static str, u8> {
    received.map(|received| match received {
        Received::Wait(_) => "incomplete",
        Received::Packet { packet_type, .. } => match packet_type {
            packet::NONCE => "Nonce",
            packet::HANDSHAKE => "Handshake",
            packet::PING => "Ping",
            packet::PONG => "Pong",
            _ => "another packet",
        },
    })
}

fn kind(what: &Outgoing) -> &'static str {
    match what {
        Outgoing::Nonce(..) => "Nonce",
        Outgoing::Handshake(..) => "Handshake",
        Outgoing::Ping(_) => "Ping",
        Outgoing::Pong => "Pong",
        Outgoing::Message(message) => messages::kind(message),
    }
}

fn flushed(size: usize) -> &'static str {
    match size {
        0 => "0 bytes",
        4 => "4 bytes",
        8 => "8 bytes",
        12 => "12 bytes",
        _ => "another size",
    }
}

/// A send's or flush's answer as it crosses the C interface.
pub fn raw_sent(answer: Result<usize, Refusal>) -> raw::Sent {
    match answer {
        Ok(size) => raw::Sent { refusal: 0, size },
        Err(refusal) => raw::Sent {
            refusal: refusal.number(),
            size: 0,
        },
    }
}

/// The same for our library; the time goes apart.
pub fn to_send<'a>(what: &Outgoing<'a>) -> ToSend<'a> {
    match *what {
        Outgoing::Nonce(_, random, point) if point == [0; 32] => ToSend::Nonce { random },
        Outgoing::Nonce(_, random, point) => ToSend::NonceWithPoint { random, point },
        Outgoing::Handshake(own, peer) => ToSend::Handshake {
            sender: netpid(own),
            peer: netpid(peer),
        },
        Outgoing::Ping(id) => ToSend::Ping { id },
        Outgoing::Pong => ToSend::Pong,
        Outgoing::Message(message) => ToSend::Message(to_message(message)),
    }
}

fn to_message(message: Message<&[u8]>) -> relay::Message<'_> {
    match message {
        Message::Invoke(invoke) => relay::Message::Invoke(relay::Invoke {
            number: invoke.number,
            actor: invoke.actor,
            timeout: invoke.timeout,
            tl2: invoke.tl2,
            payload: invoke.payload,
        }),
        Message::Cancel(number) => relay::Message::Cancel { number },
        Message::ClientFin => relay::Message::ClientFin,
        Message::ServerFin => relay::Message::ServerFin,
        Message::Result(number, outcome) => relay::Message::Result {
            number,
            answer: match outcome {
                Outcome::Payload(payload) => relay::Answer::Payload(payload),
                Outcome::Error(code, text) => relay::Answer::Error { code, text },
            },
        },
    }
}

fn shown(what: &Outgoing) -> String {
    format!("{:02x?}", to_send(what))
}
