//! The other end of a relay's connection, played by the second program, so
//! that the two ends of every link are different implementations. No sockets:
//! bytes in, bytes out. It opens the link and answers Pings by itself. On a padded
//! link it looks at whole blocks only, as if a cipher were between: what the
//! relay does not flush does not arrive. On a link that may cipher there is one
//! between (`tunnel`), which is not the library's (`aes`).

mod aes;
mod lent;
mod tunnel;

pub use lent::*;
pub use tunnel::{Secrets, CIPHERS, KEY};

use reference::link::packet::{whole, HANDSHAKE, NONCE, PING, PONG};
use reference::link::{Link, Outgoing, Received, Settings};
use reference::message::{self, Message, Side};
use reference::numbers::read_u32;
use relay::checksum::crc32;
use relay::Addresses;
use tunnel::Tunnel;

/// What came that the link does not deal with itself.
#[derive(Debug, PartialEq, Eq)]
pub enum Got {
    Pong,
    Message(Message<Vec<u8>>),
}

pub struct OtherEnd {
    link: Link,
    side: Side,
    padded: bool,
    /// Of its Nonce, if not the second program's own.
    version: Option<u8>,
    /// Of an end that may cipher, and what came and is not clear yet.
    tunnel: Option<Tunnel>,
    wire: Vec<u8>,
    /// The same link, were it padded: a client learns after its Nonce whether it is.
    if_ciphered: Option<Link>,
    input: Vec<u8>,
    /// How many bytes the link has taken since the relay's Nonce, once that came.
    taken: Option<usize>,
    /// Packets that are still to go to the relay, clear; `take_output` has them as
    /// they go.
    pub output: Vec<u8>,
    /// How many of the output's bytes are our Nonce's.
    nonce: usize,
    pub open: bool,
    has_their_nonce: bool,
    /// Pings of the relay that were answered.
    pub answered_pings: u64,
}

impl OtherEnd {
    pub fn new(side: Side, crc32c: bool) -> OtherEnd {
        OtherEnd::begin(Settings::new(side, crc32c), None, None)
    }

    /// An end whose Nonce has this version.
    pub fn of_version(side: Side, crc32c: bool, version: u8) -> OtherEnd {
        OtherEnd::begin(Settings::new(side, crc32c), Some(version), None)
    }

    /// An end of a link that is padded, or not.
    pub fn with_padded(side: Side, crc32c: bool, padded: bool) -> OtherEnd {
        let settings = Settings::new(side, crc32c);
        OtherEnd::begin(Settings { padded, ..settings }, None, None)
    }

    /// An end of a link that may cipher, whose Nonce has this version.
    pub fn with_cipher(side: Side, crc32c: bool, version: u8, secrets: Secrets) -> OtherEnd {
        let tunnel = Tunnel::new(side, secrets, card());
        OtherEnd::begin(Settings::new(side, crc32c), Some(version), Some(tunnel))
    }

    /// A client begins the opening.
    fn begin(settings: Settings, version: Option<u8>, tunnel: Option<Tunnel>) -> OtherEnd {
        let padded = Settings {
            padded: true,
            ..settings
        };
        let mut end = OtherEnd {
            link: Link::set_up(settings).expect("a link"),
            if_ciphered: tunnel
                .is_some()
                .then(|| Link::set_up(padded).expect("a link")),
            tunnel,
            wire: Vec::new(),
            nonce: 0,
            side: settings.side,
            padded: settings.padded,
            version,
            input: Vec::new(),
            taken: None,
            output: Vec::new(),
            open: false,
            has_their_nonce: false,
            answered_pings: 0,
        };
        if settings.side == Side::Client {
            end.send_nonce().expect("an offer");
        }
        end
    }

    /// What whole packets the bytes bring, in their order. The relay must
    /// never send what the second program refuses.
    pub fn take_in(&mut self, bytes: &[u8]) -> Result<Vec<Got>, String> {
        self.wire.extend_from_slice(bytes);
        let mut got = Vec::new();
        loop {
            self.open()?;
            let seen = self.input.len() - self.not_seen();
            let received = self.link.receive(&self.input[..seen], clock());
            match received.map_err(|refusal| format!("received what is {refusal:?}"))? {
                Received::Wait(_) => return Ok(got),
                Received::Packet {
                    packet_type,
                    consumed,
                    body,
                    ..
                } => {
                    let packet: Vec<u8> = self.input.drain(..consumed).collect();
                    self.taken = Some(self.taken.map_or(0, |taken| taken + consumed));
                    got.extend(self.packet(packet_type, body.of(&packet))?);
                }
            }
        }
    }

    /// Moves what came to the input, clear.
    fn open(&mut self) -> Result<(), String> {
        let Some(tunnel) = &mut self.tunnel else {
            self.input.append(&mut self.wire);
            return Ok(());
        };
        if self.has_their_nonce {
            tunnel.open(&mut self.wire, &mut self.input);
            return Ok(());
        }
        let length = self.wire.first_chunk();
        let length = length.map(|length| u32::from_le_bytes(*length) as usize);
        if length.is_some_and(|length| length <= self.wire.len()) {
            let mut nonce: Vec<u8> = self.wire.drain(..length.unwrap_or(0)).collect();
            tunnel.take_nonce(&mut nonce)?;
            if tunnel.is_ciphered() {
                self.padded = true;
                self.link = self.if_ciphered.take().expect("the first Nonce");
            }
            self.has_their_nonce = true;
            self.input.extend(nonce);
        }
        Ok(())
    }

    /// How many bytes of the relay came behind the last whole block; its blocks
    /// begin with its Handshake.
    pub fn past_blocks(&self) -> usize {
        self.not_seen() + self.wire.len()
    }

    /// How many of the clear ones.
    fn not_seen(&self) -> usize {
        match self.taken {
            Some(taken) if self.padded => (taken + self.input.len()) % BLOCK,
            _ => 0,
        }
    }

    fn packet(&mut self, packet_type: u32, body: &[u8]) -> Result<Option<Got>, String> {
        match (packet_type, self.side) {
            (NONCE, Side::Server) => self.send_nonce()?,
            (NONCE, Side::Client) => self.send(HANDSHAKE_OUT),
            (HANDSHAKE, side) => {
                self.open = true;
                if side == Side::Server {
                    self.send(HANDSHAKE_OUT);
                }
            }
            (PING, _) => {
                self.answered_pings += 1;
                self.send(Outgoing::Pong);
            }
            (PONG, _) => return Ok(Some(Got::Pong)),
            _ => {
                let message = message::read(self.side, packet_type, body)
                    .map_err(|refusal| format!("received a message that is {refusal:?}"))?
                    .hold(|span| span.of(body));
                // The relay writes what the second program writes. A field of 0
                // reads as none, so that only the bytes show it.
                if message::body(&message).as_deref() != Ok(body) {
                    return Err(format!("received {message:?} in another form"));
                }
                return Ok(Some(Got::Message(message.hold(<[u8]>::to_vec))));
            }
        }
        Ok(None)
    }

    /// The second program writes its own version: for another, that byte is
    /// changed and the checksum made right again.
    fn send_nonce(&mut self) -> Result<(), String> {
        let outgoing = Outgoing::Nonce(clock(), random(), [0; 32]);
        let mut packet = self.made(outgoing);
        if let Some(link) = &mut self.if_ciphered {
            let _ = link.send(&outgoing, &mut [0; 128]);
        }
        if let Some(version) = self.version {
            packet[NONCE_VERSION] = version;
            let end = packet.len() - 4;
            let (summed, sum) = packet.split_at_mut(end);
            sum.copy_from_slice(&crc32(summed).to_le_bytes());
        }
        if let Some(tunnel) = &mut self.tunnel {
            tunnel.send_nonce(&mut packet)?;
        }
        self.nonce = packet.len();
        self.output.extend(packet);
        Ok(())
    }

    /// Adds a packet to the output; only what the link allows is ever sent.
    pub fn send(&mut self, outgoing: Outgoing) {
        let packet = self.made(outgoing);
        self.output.extend(packet);
    }

    pub fn send_message(&mut self, message: Message<&[u8]>) {
        self.send(Outgoing::Message(message));
    }

    /// What goes over the wire: through the cipher only whole blocks do.
    pub fn take_output(&mut self) -> Vec<u8> {
        let nonce = std::mem::take(&mut self.nonce);
        match &mut self.tunnel {
            None => std::mem::take(&mut self.output),
            Some(tunnel) => tunnel.close(&mut self.output, nonce),
        }
    }

    /// The addresses of its connection, of which keys of version 0 are made.
    pub fn set_addresses(&mut self, addresses: Addresses) {
        if let Some(tunnel) = &mut self.tunnel {
            tunnel.set_addresses(addresses);
        }
    }

    /// Whether its bytes go through the cipher.
    pub fn is_ciphered(&self) -> bool {
        self.tunnel.as_ref().is_some_and(Tunnel::is_ciphered)
    }

    /// Adds the words that a cipher would need behind the output. Where there is
    /// one, they are counted here, whatever the link says of raw packets.
    pub fn flush(&mut self) {
        if self.is_ciphered() {
            let past = (self.output.len() - self.nonce) % BLOCK;
            let words = (BLOCK - past) % BLOCK / 4;
            return self.output.extend([4, 0, 0, 0].repeat(words));
        }
        let mut words = [0; BLOCK];
        let size = self.link.flush(&mut words);
        self.output.extend(&words[..size.expect("a link in order")]);
    }

    /// A packet that the second program would not write itself: any type and
    /// body, with the right number, checksum and zeros. The number is taken from
    /// a message that is never sent. (The link counts that message as written in
    /// place of this packet, so its flushes may end within a block from now on;
    /// the relay does not look at that.)
    pub fn send_raw(&mut self, packet_type: u32, body: &[u8]) {
        let unsent = match self.side {
            Side::Client => Message::ClientFin,
            Side::Server => Message::ServerFin,
        };
        let number = read_u32(&self.made(Outgoing::Message(unsent)), 4);
        let (_, checksum) = self.link.expected();
        let mut packet = whole(number, packet_type, body, checksum);
        if self.padded {
            packet.resize(packet.len().next_multiple_of(4), 0);
        }
        self.output.extend(packet);
    }

    fn made(&mut self, outgoing: Outgoing) -> Vec<u8> {
        let payload = match outgoing {
            Outgoing::Message(message) => payload_length(&message),
            _ => 0,
        };
        let mut packet = vec![0; payload + 128];
        let size = self.link.send(&outgoing, &mut packet);
        packet.truncate(size.expect("a packet that may be sent now"));
        packet
    }
}

/// A cipher's.
const BLOCK: usize = 16;

const HANDSHAKE_OUT: Outgoing = Outgoing::Handshake([1; 12], [2; 12]);

/// Where a Nonce has its version, within the packet.
const NONCE_VERSION: usize = 12 + 5;

fn payload_length(message: &Message<&[u8]>) -> usize {
    let mut length = 0;
    message.hold(|payload| length = payload.len());
    length
}
