//! One end of a link, and two of them against each other.

use relay::{
    checksum, read_message, Answer, Arrival, Link, Message, Moment, NetPid, Refusal, Settings,
    Side, ToSend,
};

pub const NOW: Moment = Moment {
    time: 1_700_000_000,
};
const PID: NetPid = NetPid {
    ip: 1,
    port: 2,
    pid: 3,
    start: 4,
};
pub const NONCE: ToSend = ToSend::Nonce { random: [7; 16] };
pub const HANDSHAKE: ToSend = ToSend::Handshake {
    sender: PID,
    peer: PID,
};
/// Who sends what.
pub const OPENING: [(Side, ToSend); 4] = [
    (Side::Client, NONCE),
    (Side::Server, NONCE),
    (Side::Client, HANDSHAKE),
    (Side::Server, HANDSHAKE),
];
pub const WORD: [u8; 4] = [4, 0, 0, 0];

/// What a call writes: nothing past its size, and in every smaller room it is
/// refused with 16 and changes nothing.
pub fn written(
    link: &mut Link,
    call: impl Fn(&mut Link, &mut [u8]) -> Result<usize, Refusal>,
) -> Vec<u8> {
    let size = call(&mut link.clone(), &mut [0; 200]).unwrap();
    for room in 0..size {
        let (mut other, mut buf) = (link.clone(), vec![0xee; room]);
        let short = call(&mut other, &mut buf);
        assert_eq!(short, Err(Refusal::BUFFER_TOO_SMALL), "{room} of {size}");
        assert_eq!((&other, buf), (&*link, vec![0xee; room]));
    }
    assert_eq!(call(&mut link.clone(), &mut vec![0; size]), Ok(size));
    let mut buf = [0xee; 200];
    assert_eq!(call(link, &mut buf), Ok(size));
    assert!(buf[size..].iter().all(|&byte| byte == 0xee));
    buf[..size].to_vec()
}

pub fn sent(link: &mut Link, what: ToSend) -> Vec<u8> {
    written(link, |link, buf| link.send(buf, what, NOW))
}

pub fn result(payload: &[u8]) -> ToSend<'_> {
    let answer = Answer::Payload(payload);
    ToSend::Message(Message::Result { number: 5, answer })
}

/// A packet of the opening with a byte more in its body.
pub fn longer(packet: &[u8]) -> Vec<u8> {
    let length = packet.len() as u32 + 1;
    let rest = &packet[4..packet.len() - 4];
    let mut longer = [&length.to_le_bytes(), rest, &[0xee]].concat();
    longer.extend(checksum::crc32(&longer).to_le_bytes());
    longer
}

pub fn fresh(side: Side, padded: bool) -> Link {
    Link::new(Settings::new(side, true).with_padded(padded)).unwrap()
}

pub struct End {
    pub link: Link,
    /// What arrived and was not taken yet.
    pub input: Vec<u8>,
    /// How many bytes it wrote since the first byte of its Handshake.
    wrote: usize,
}

impl End {
    fn new(side: Side, padded: bool) -> End {
        End {
            link: fresh(side, padded),
            input: Vec::new(),
            wrote: 0,
        }
    }

    fn send(&mut self, what: ToSend) -> Vec<u8> {
        let bytes = sent(&mut self.link, what);
        if self.wrote > 0 || matches!(what, ToSend::Handshake { .. }) {
            self.wrote += bytes.len();
        }
        bytes
    }

    /// On a padded link.
    fn flush(&mut self) -> Vec<u8> {
        let bytes = written(&mut self.link, Link::flush);
        assert!(bytes.len() <= 12 && (bytes.is_empty() || self.wrote > 0));
        assert_eq!(bytes, WORD.repeat(bytes.len() / 4));
        self.wrote += bytes.len();
        assert_eq!(self.wrote % 16, 0);
        assert_eq!(self.link.flush(&mut []), Ok(0));
        bytes
    }

    /// The type and body of each packet that these bytes complete, lent in
    /// lumps of so many.
    fn receive(&mut self, bytes: &[u8], lump: usize) -> Vec<(u32, Vec<u8>)> {
        let mut packets = Vec::new();
        for part in bytes.chunks(lump) {
            self.input.extend(part);
            while let Some((consumed, packet)) = self.first() {
                self.input.drain(..consumed);
                packets.push(packet);
            }
        }
        packets
    }

    /// How many bytes the first packet of the input takes, its type and body.
    fn first(&mut self) -> Option<(usize, (u32, Vec<u8>))> {
        match self.link.receive(&self.input, NOW) {
            Arrival::Packet {
                kind,
                consumed,
                body,
            } => Some((consumed, (kind, body.to_vec()))),
            Arrival::Incomplete(_) => None,
            Arrival::Refused(refusal) => {
                // In the opening a turn ends, and words may be left behind a
                // Handshake.
                assert_eq!(refusal, Refusal::NOT_OUR_TURN);
                None
            }
        }
    }
}

/// Two ends that pass their bytes in lumps of so many, and flush behind every
/// so many packets.
pub struct Pair {
    pub client: End,
    pub server: End,
    lump: usize,
    every: Option<usize>,
}

impl Pair {
    /// After their opening, padded or not.
    pub fn new(client: bool, server: bool, lump: usize, every: Option<usize>) -> Pair {
        let mut pair = Pair {
            client: End::new(Side::Client, client),
            server: End::new(Side::Server, server),
            lump,
            every,
        };
        for (sender, what) in OPENING {
            assert_eq!(pair.pass(sender, &[what]).len(), 1);
        }
        assert!(pair.client.link.is_open() && pair.server.link.is_open());
        pair
    }

    /// Sends all that from one side, and receives it at the other.
    pub fn pass(&mut self, sender: Side, what: &[ToSend]) -> Vec<(u32, Vec<u8>)> {
        let (from, to) = match sender {
            Side::Client => (&mut self.client, &mut self.server),
            Side::Server => (&mut self.server, &mut self.client),
        };
        let mut wire = Vec::new();
        for (i, &what) in what.iter().enumerate() {
            wire.extend(from.send(what));
            if self.every.is_some_and(|every| i % every == 0) {
                wire.extend(from.flush());
            }
        }
        to.receive(&wire, self.lump)
    }

    /// All the messages, sent by one side, are read by the other.
    pub fn talk(&mut self, sender: Side, reader: Side, messages: &[Message]) {
        let all: Vec<ToSend> = messages.iter().copied().map(ToSend::Message).collect();
        let packets = self.pass(sender, &all);
        let read: Vec<Message> = packets
            .iter()
            .map(|(kind, body)| read_message(reader, *kind, body).unwrap())
            .collect();
        assert_eq!(read, messages);
    }
}

/// The links of a client and a server after their opening, padded or not.
pub fn opened(client: bool, server: bool) -> (Link, Link) {
    let pair = Pair::new(client, server, 100, None);
    (pair.client.link, pair.server.link)
}
