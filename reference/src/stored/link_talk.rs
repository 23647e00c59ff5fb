//! A conversation in the making: the link whose calls are stored, and a peer
//! that gives the bytes it receives.

mod set_up;

use super::link_cases::{FLUSH, RECEIVE, SEND, TELL};
use super::link_sending::Sending;
use super::message_cases::LONGEST;
use super::records::{self, push_run, Draft};
use crate::checksum::Polynomial;
use crate::link::{handshake_body, nonce_body, packet, Link, Received, OUR_VERSION};
use crate::message::Side;
use crate::refusal::Refusal;

/// The time at both ends, where it is not the subject.
pub const TIME: u32 = 1_763_200_000;

/// Which of the two ends allow CRC-32C: ours, that is stored, and the peer's.
pub const SETTINGS: [(bool, bool); 4] =
    [(false, false), (false, true), (true, false), (true, true)];

pub const SIDES: [Side; 2] = [Side::Client, Side::Server];

/// How many packets an opening has.
pub const OPEN: usize = 4;

#[derive(Clone)]
pub struct Talk {
    pub side: Side,
    pub time: u32,
    link: Link,
    peer: Link,
    /// Words of our flushes, which reach the peer before our next packet.
    words: Vec<u8>,
    /// Packets of the opening that were exchanged.
    opened: usize,
    /// What the Nonces of both ends have as point.
    point: &'static [u8],
    records: Vec<u8>,
}

impl Talk {
    /// With the first `packets` of the opening exchanged.
    pub fn after(packets: usize, side: Side, settings: (bool, bool)) -> Talk {
        let mut talk = Talk::new(side, settings);
        talk.open_until(packets);
        talk
    }

    pub fn open_until(&mut self, packets: usize) {
        while self.opened < packets {
            let sending = self.of_opening();
            self.pass(self.sender(), &sending);
            self.opened += 1;
        }
    }

    /// The next packet of the opening.
    fn of_opening(&self) -> Sending<'static> {
        match self.opened {
            0 | 1 => Sending::nonce_with(self.time, self.point),
            _ => Sending::handshake(),
        }
    }

    /// The same between ends that may refuse each other, whoever does: whether
    /// both took it. What a peer does not send, the link does not get.
    pub fn try_next(&mut self) -> bool {
        let (sender, sending) = (self.sender(), self.of_opening());
        if sender == self.side {
            self.send(&sending);
        } else if let Ok(packet) = self.peer_tries(&sending) {
            self.receive(&packet);
        }
        self.opened += 1;
        !self.link.is_closed() && !self.peer.is_closed()
    }

    /// A sound packet from one end to the other.
    pub fn pass(&mut self, sender: Side, sending: &Sending) {
        if sender == self.side {
            self.send(sending);
        } else {
            let packet = self.peer_sends(sending);
            self.receive(&packet);
        }
    }

    /// Has the link send it, in a buffer just long enough, and the peer
    /// receive it.
    pub fn send(&mut self, sending: &Sending) {
        let room = self.size_of(sending).unwrap_or(100);
        self.send_in(room, sending);
    }

    /// The size of the packet, if the link would send it now.
    pub fn size_of(&self, sending: &Sending) -> Option<usize> {
        let mut buffer = vec![0; LONGEST];
        let sent = self.link.clone().send(&sending.outgoing(), &mut buffer);
        sent.ok()
    }

    pub fn could_send(&self, sending: &Sending) -> bool {
        self.size_of(sending).is_some()
    }

    /// Whether the next packet of the opening is ours.
    pub fn must_send(&self) -> bool {
        self.opened < OPEN && self.sender() == self.side
    }

    /// Who sends the next packet of the opening.
    fn sender(&self) -> Side {
        [Side::Client, Side::Server][self.opened % 2]
    }

    /// The same with a buffer of `room` bytes.
    pub fn send_in(&mut self, room: usize, sending: &Sending) {
        self.records.push(SEND);
        sending.push(&mut self.records, room);
        let mut buffer = vec![0; room];
        if let Ok(size) = self.link.send(&sending.outgoing(), &mut buffer) {
            self.words.extend(&buffer[..size]);
            // A peer that a conversation has left behind refuses; let it.
            let _ = self.peer.receive(&self.words, self.time);
            self.words.clear();
        }
    }

    /// Has the link flush into a buffer of `room` bytes.
    pub fn flush(&mut self, room: usize) {
        self.records.push(FLUSH);
        self.records.extend((room as u32).to_le_bytes());
        let mut buffer = vec![0; room];
        if let Ok(size) = self.link.flush(&mut buffer) {
            self.words.extend(&buffer[..size]);
        }
    }

    /// Has the link tell whether it is ciphered.
    pub fn tell(&mut self) {
        self.records.push(TELL);
    }

    /// The words that the peer writes now; none if it is closed.
    pub fn peer_flushes(&mut self) -> Vec<u8> {
        let mut buffer = vec![0; 16];
        let size = self.peer.flush(&mut buffer).unwrap_or(0);
        buffer.truncate(size);
        buffer
    }

    /// The bytes of a packet that the peer sends now.
    pub fn peer_sends(&mut self, sending: &Sending) -> Vec<u8> {
        self.peer_tries(sending).expect("the peer can send it")
    }

    pub fn peer_tries(&mut self, sending: &Sending) -> Result<Vec<u8>, Refusal> {
        let mut buffer = vec![0; LONGEST];
        let size = self.peer.send(&sending.outgoing(), &mut buffer)?;
        buffer.truncate(size);
        Ok(buffer)
    }

    /// The next sound packet: of the opening, or a message after it.
    pub fn next_packet(&mut self) -> Vec<u8> {
        let message = match self.side {
            Side::Client => Draft::new(records::ERROR, 12),
            Side::Server => Draft::new(records::INVOKE, 12).actor(13),
        };
        let sending = match self.opened {
            0..OPEN => self.of_opening(),
            _ => Sending::message(message, b"abcde"),
        };
        self.peer_sends(&sending)
    }

    /// Has the link look at these bytes. Refused or not: the stored output
    /// will say.
    pub fn receive(&mut self, bytes: &[u8]) {
        self.lend(bytes);
    }

    /// How many bytes the packet took that the link found, if it found one.
    fn lend(&mut self, bytes: &[u8]) -> Option<usize> {
        self.records.push(RECEIVE);
        self.records.extend(self.time.to_le_bytes());
        push_run(&mut self.records, bytes);
        match self.link.receive(bytes, self.time) {
            Ok(Received::Packet { consumed, .. }) => Some(consumed),
            _ => None,
        }
    }

    /// These bytes, then what is left of them after each packet, until the
    /// link waits or refuses. Hands back what is left then.
    pub fn receive_all<'a>(&mut self, mut bytes: &'a [u8]) -> &'a [u8] {
        while let Some(consumed) = self.lend(bytes) {
            bytes = &bytes[consumed..];
        }
        bytes
    }

    /// Whether the link would wait for more than these bytes.
    pub fn would_wait(&self, bytes: &[u8]) -> bool {
        let received = self.link.clone().receive(bytes, self.time);
        matches!(received, Ok(Received::Wait(_)))
    }

    /// A packet with the number and checksum that the link expects, whatever
    /// the peer would send, and with the zeros that it expects behind it.
    pub fn forged(&self, packet_type: u32, body: &[u8]) -> Vec<u8> {
        let (number, checksum) = self.expected();
        let mut packet = packet::whole(number, packet_type, body, checksum);
        let state = self.link.state();
        if (state.settings.padded || state.ciphered) && state.stage >= 2 {
            packet.resize(packet.len() + packet::zeros(packet.len()), 0);
        }
        packet
    }

    pub fn receive_forged(&mut self, packet_type: u32, body: &[u8]) {
        let packet = self.forged(packet_type, body);
        self.receive(&packet);
    }

    /// Ends an opening whose first `packets` are there without the peer, which
    /// has been left out; `flag` is the one of its Handshake.
    pub fn open_forged(&mut self, packets: usize, flag: bool) {
        for packets in packets..OPEN {
            let sender = [Side::Client, Side::Server][packets % 2];
            match (sender == self.side, packets) {
                (true, 0 | 1) => self.send(&Sending::nonce(self.time)),
                (true, _) => self.send(&Sending::handshake()),
                (false, 0 | 1) => {
                    let body = nonce_body(OUR_VERSION, self.time, [9; 16]);
                    self.receive_forged(packet::NONCE, &body);
                }
                (false, _) => {
                    let body = handshake_body(flag, [1; 12], [2; 12]);
                    self.receive_forged(packet::HANDSHAKE, &body);
                }
            }
        }
    }

    /// The number that the link expects.
    pub fn number(&self) -> u32 {
        self.expected().0
    }

    /// And the checksum.
    pub fn expected(&self) -> (u32, Polynomial) {
        self.link.expected()
    }

    pub fn is_closed(&self) -> bool {
        self.link.is_closed()
    }

    /// Stores the conversation. The empty receive at its end tells a link that
    /// is closed, one whose turn it is and one that waits apart.
    pub fn store(mut self, records: &mut Vec<u8>) {
        self.receive(&[]);
        records.extend(self.records);
    }
}

/// The stages at which a link receives: packets of the opening before it.
pub fn receiving(side: Side) -> [usize; 3] {
    match side {
        Side::Client => [1, 3, OPEN],
        Side::Server => [0, 2, OPEN],
    }
}

/// A conversation at each stage where a link receives, for both sides.
pub fn at_each_receive(settings: (bool, bool)) -> Vec<Talk> {
    let stages = |side| receiving(side).map(|packets| Talk::after(packets, side, settings));
    SIDES.into_iter().flat_map(stages).collect()
}
