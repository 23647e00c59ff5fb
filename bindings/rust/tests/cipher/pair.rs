//! Two sessions, and what goes from one to the other.

use crate::{KEY, NOW, SIDES};
use relay::{
    packet_type, read_message, Address, Addresses, Answer, Card, Cipher, Fault, Invoke, Message,
    NetPid, Session, Settings, Side, ToSend,
};

/// A card whose shared bytes are no secret: those of both points added.
pub struct Plain(pub u8);

impl Card for Plain {
    fn point(&mut self) -> [u8; 32] {
        [self.0; 32]
    }

    fn shared(&mut self, theirs: &[u8; 32]) -> Option<[u8; 32]> {
        Some(theirs.map(|byte| byte.wrapping_add(self.0)))
    }
}

pub const HANDSHAKE: ToSend = ToSend::Handshake {
    sender: NetPid {
        ip: 1,
        port: 2,
        pid: 3,
        start: 4,
    },
    peer: NetPid {
        ip: 5,
        port: 6,
        pid: 7,
        start: 8,
    },
};

/// Of each side's Nonce.
pub fn random(side: Side) -> [u8; 16] {
    [if side == Side::Client { b'c' } else { b's' }; 16]
}

/// Of each side's end of the connection.
pub fn address(side: Side) -> Address {
    match side {
        Side::Client => Address {
            ip: 0x0102_0304,
            port: 5,
        },
        Side::Server => Address {
            ip: 0x0607_0809,
            port: 10,
        },
    }
}

/// As a side sees them.
pub fn addresses(side: Side) -> Addresses {
    let other = match side {
        Side::Client => Side::Server,
        Side::Server => Side::Client,
    };
    Addresses {
        own: address(side),
        peer: address(other),
    }
}

pub fn session_with(side: Side, cipher: Cipher, key: &[u8]) -> Session {
    let settings = Settings::new(side, true).with_cipher(cipher);
    let card = Plain(if side == Side::Client { 3 } else { 5 });
    Session::with_key(settings, key, card, addresses(side)).unwrap()
}

pub fn session(side: Side, cipher: Cipher) -> Session {
    session_with(side, cipher, &KEY)
}

/// Type and body of each packet that a session takes.
pub type Heard = Vec<(u32, Vec<u8>)>;

pub struct Pair {
    pub client: Session,
    pub server: Session,
    /// All that went over, by its sender.
    pub wire: [Vec<u8>; 2],
}

impl Pair {
    pub fn new(client: Cipher, server: Cipher) -> Pair {
        Pair::of(session(Side::Client, client), session(Side::Server, server))
    }

    pub fn of(client: Session, server: Session) -> Pair {
        let wire = [vec![], vec![]];
        Pair {
            client,
            server,
            wire,
        }
    }

    /// The session of a side.
    pub fn at(&mut self, side: Side) -> &mut Session {
        match side {
            Side::Client => &mut self.client,
            Side::Server => &mut self.server,
        }
    }

    /// Sends from one side, all with one output, and delivers that in parts of the
    /// sizes that `next_size` gives.
    pub fn pass(
        &mut self,
        sender: Side,
        what: &[ToSend],
        next_size: &mut dyn FnMut(usize) -> usize,
    ) -> Result<Heard, Fault> {
        for what in what {
            self.at(sender).send(*what, NOW).expect("a send in turn");
        }
        let bytes = self.at(sender).take_output();
        assert_eq!(self.at(sender).take_output(), []);
        self.wire[usize::from(sender == Side::Server)].extend(&bytes);
        let receiver = SIDES[usize::from(sender == Side::Client)];
        let mut heard = Vec::new();
        let mut rest = &bytes[..];
        while !rest.is_empty() {
            let size = next_size(rest.len()).clamp(1, rest.len());
            let (part, after) = rest.split_at(size);
            self.at(receiver).feed(part);
            heard.extend(all(self.at(receiver))?);
            rest = after;
        }
        Ok(heard)
    }

    /// The same, whole.
    pub fn pass_whole(&mut self, sender: Side, what: &[ToSend]) -> Result<Heard, Fault> {
        self.pass(sender, what, &mut |rest| rest)
    }

    /// The opening, cut like that; the fault of whoever refuses.
    pub fn open(&mut self, next_size: &mut dyn FnMut(usize) -> usize) -> Result<(), Fault> {
        for sender in SIDES {
            let random = random(sender);
            let heard = self.pass(sender, &[ToSend::Nonce { random }], next_size)?;
            assert_eq!(heard[0].0, packet_type::NONCE);
        }
        for sender in SIDES {
            let heard = self.pass(sender, &[HANDSHAKE], next_size)?;
            assert_eq!(heard[0].0, packet_type::HANDSHAKE);
        }
        assert!(self.client.is_open() && self.server.is_open());
        Ok(())
    }
}

/// All packets that are whole now.
pub fn all(session: &mut Session) -> Result<Heard, Fault> {
    let mut heard = Vec::new();
    loop {
        match session.next(NOW) {
            Ok(Some(packet)) => heard.push((packet.kind, packet.body.to_vec())),
            // Our turn: nothing more can come.
            Ok(None) | Err(Fault::Refused(relay::Refusal::NOT_OUR_TURN)) => return Ok(heard),
            Err(fault) => return Err(fault),
        }
    }
}

/// An invoke with this payload, and its answer.
pub fn request(payload: &[u8]) -> Message<'_> {
    Message::Invoke(Invoke {
        number: 77,
        actor: Some(5),
        timeout: None,
        tl2: false,
        payload,
    })
}

pub fn answer(payload: &[u8]) -> Message<'_> {
    Message::Result {
        number: 77,
        answer: Answer::Payload(payload),
    }
}

/// Exactly these messages were heard by the side.
pub fn assert_heard(reader: Side, heard: &Heard, messages: &[Message]) {
    let read = heard.iter();
    let read: Vec<_> = read
        .map(|(kind, body)| read_message(reader, *kind, body).unwrap())
        .collect();
    assert_eq!(read, messages);
}
