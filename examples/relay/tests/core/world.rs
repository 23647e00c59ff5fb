//! A core with all its connections open, and the second program at the other
//! end of each.

use crate::other_end::{card, clock, Got, OtherEnd, Secrets};
use reference::link::Outgoing;
use reference::message::{Invoke, Message, Side};
use relay::{Address, Addresses, NetPid, Settings, LINKS, PUBLISHERS};
use relay_example::core::Core;
use relay_example::event::{Action, Event, Now, Opening, Peer, Warning};
use relay_example::settings::{self, LinkSettings};
use std::collections::VecDeque;
use std::num::NonZeroU32;

/// Of every request, in milliseconds, unless a test says another.
pub const TIMEOUT: u64 = 30_000;

/// The relay's end of every connection, and the other one.
const OWN: NetPid = NetPid {
    ip: 0x0a00_0001,
    port: 2400,
    pid: 0,
    start: 0,
};
const THEIRS: NetPid = NetPid {
    ip: 0x0a00_0002,
    port: 50_000,
    ..OWN
};

fn address(pid: NetPid) -> Address {
    Address {
        ip: pid.ip,
        port: pid.port,
    }
}

/// Of a connection whose link goes clear.
pub fn opening() -> Opening {
    Opening {
        random: [5; 16],
        own: OWN,
        peer: THEIRS,
        card: None,
    }
}

pub fn opening_with_card() -> Opening {
    Opening {
        card: Some(card()),
        ..opening()
    }
}

type Heard = Message<Vec<u8>>;

pub struct World {
    pub core: Core,
    /// Of the links to the front ends, and to each publisher.
    links: (LinkSettings, [LinkSettings; PUBLISHERS as usize]),
    fronts: Vec<(OtherEnd, Vec<Heard>)>,
    publishers: Vec<(OtherEnd, Vec<Heard>)>,
    /// Whom the core closed, in order.
    pub closed: Vec<Peer>,
    /// Whom it warned of.
    pub warned: Vec<(Peer, Warning)>,
    /// Gets bytes, and says nothing any more.
    pub silent: Option<Peer>,
    /// The relay's clock in milliseconds, which stands unless a test sets it.
    pub ms: u64,
}

impl World {
    pub fn new() -> World {
        World::with_publishers([settings::PUBLISHER; PUBLISHERS as usize])
    }

    /// With these settings of the links to the publishers.
    pub fn with_publishers(settings: [Settings; PUBLISHERS as usize]) -> World {
        World::with(settings::FRONT, settings)
    }

    /// With these settings of the links to the front ends and to the publishers.
    pub fn with<L: Into<LinkSettings>>(front: L, publishers: [L; PUBLISHERS as usize]) -> World {
        World::with_timeout(front, publishers, TIMEOUT as u32)
    }

    /// And with this timeout of every request, 0 for none.
    pub fn with_timeout<L: Into<LinkSettings>>(
        front: L,
        publishers: [L; PUBLISHERS as usize],
        timeout: u32,
    ) -> World {
        let timeout = NonZeroU32::new(timeout);
        let (front, publishers) = (front.into(), publishers.map(L::into));
        let ends = |count, side| {
            (0..count)
                .map(|_| (OtherEnd::new(side, true), vec![]))
                .collect()
        };
        let mut world = World {
            core: Core::new(front.clone(), publishers.clone(), timeout),
            links: (front, publishers),
            fronts: ends(LINKS, Side::Client),
            publishers: ends(PUBLISHERS, Side::Server),
            closed: Vec::new(),
            warned: Vec::new(),
            silent: None,
            ms: 0,
        };
        for publisher in 0..PUBLISHERS {
            world.connect(Peer::Publisher(publisher));
        }
        for link in 0..LINKS {
            world.connect(Peer::Front(link));
        }
        world
    }

    fn end(&mut self, peer: Peer) -> &mut (OtherEnd, Vec<Heard>) {
        match peer {
            Peer::Front(link) => &mut self.fronts[usize::from(link)],
            Peer::Publisher(publisher) => &mut self.publishers[usize::from(publisher)],
        }
    }

    /// A new connection, opened.
    pub fn connect(&mut self, peer: Peer) {
        let (side, link) = match peer {
            Peer::Front(_) => (Side::Client, &self.links.0),
            Peer::Publisher(publisher) => (Side::Server, &self.links.1[usize::from(publisher)]),
        };
        let LinkSettings { settings, key } = link;
        let end = match key {
            None => OtherEnd::with_padded(side, true, settings.padded),
            Some(key) => {
                let secrets = Secrets::new(settings.cipher, key.bytes());
                OtherEnd::with_cipher(side, true, 2, secrets)
            }
        };
        assert!(self.opens(peer, end));
    }

    /// A new connection with this other end; whether a Handshake came there.
    pub fn opens(&mut self, peer: Peer, end: OtherEnd) -> bool {
        let mut end = end;
        end.set_addresses(Addresses {
            own: address(THEIRS),
            peer: address(OWN),
        });
        self.end(peer).0 = end;
        let opening = match self.core.may_cipher(peer) {
            true => opening_with_card(),
            false => opening(),
        };
        self.tell(Event::Connected(peer, opening));
        self.flush(peer);
        self.end(peer).0.open
    }

    /// Tells the core alone.
    pub fn handle(&mut self, event: Event) -> Vec<Action> {
        let now = Now {
            seconds: clock(),
            ms: self.ms,
        };
        self.core.handle(event, now)
    }

    /// Tells the core, and passes bytes to and fro until all is quiet. What went
    /// over a padded link ends at a block's end then.
    pub fn tell(&mut self, event: Event) {
        let mut actions = VecDeque::from(self.handle(event));
        while let Some(action) = actions.pop_front() {
            match action {
                Action::Send(peer, packet) => {
                    let end = self.end(peer);
                    for got in end.0.take_in(&packet).expect("what may be received") {
                        if let Got::Message(message) = got {
                            end.1.push(message);
                        }
                    }
                    let bytes = hand_over(&mut end.0);
                    if self.silent != Some(peer) {
                        actions.extend(self.handle(Event::Bytes(peer, &bytes)));
                    }
                }
                Action::Close(peer) => self.closed.push(peer),
                Action::Warn(peer, warning) => self.warned.push((peer, warning)),
            }
        }
        let fronts = (0..LINKS).map(Peer::Front);
        for peer in fronts.chain((0..PUBLISHERS).map(Peer::Publisher)) {
            // A fault of theirs ends a connection anywhere.
            if !self.closed.contains(&peer) {
                assert_eq!(self.end(peer).0.past_blocks(), 0, "{peer:?}");
            }
        }
    }

    fn flush(&mut self, peer: Peer) {
        let bytes = hand_over(&mut self.end(peer).0);
        self.tell(Event::Bytes(peer, &bytes));
    }

    pub fn front_says(&mut self, link: u8, message: Message<&[u8]>) {
        self.end(Peer::Front(link)).0.send_message(message);
        self.flush(Peer::Front(link));
    }

    pub fn front_says_raw(&mut self, link: u8, packet_type: u32, body: &[u8]) {
        self.end(Peer::Front(link)).0.send_raw(packet_type, body);
        self.flush(Peer::Front(link));
    }

    /// The packet of a message that the test delivers itself.
    pub fn front_bytes(&mut self, link: u8, message: Message<&[u8]>) -> Vec<u8> {
        self.bytes(Peer::Front(link), Outgoing::Message(message))
    }

    /// The same with the words of a flush, as a ciphered link needs them.
    pub fn front_bytes_flushed(&mut self, link: u8, message: Message<&[u8]>) -> Vec<u8> {
        self.bytes_flushed(Peer::Front(link), Outgoing::Message(message))
    }

    pub fn publisher_bytes_flushed(&mut self, publisher: u8, message: Message<&[u8]>) -> Vec<u8> {
        self.bytes_flushed(Peer::Publisher(publisher), Outgoing::Message(message))
    }

    pub fn bytes_flushed(&mut self, peer: Peer, outgoing: Outgoing) -> Vec<u8> {
        let end = &mut self.end(peer).0;
        end.send(outgoing);
        hand_over(end)
    }

    pub fn publisher_bytes(&mut self, publisher: u8, message: Message<&[u8]>) -> Vec<u8> {
        self.bytes(Peer::Publisher(publisher), Outgoing::Message(message))
    }

    pub fn bytes(&mut self, peer: Peer, outgoing: Outgoing) -> Vec<u8> {
        let end = &mut self.end(peer).0;
        end.send(outgoing);
        end.take_output()
    }

    pub fn publisher_says(&mut self, publisher: u8, message: Message<&[u8]>) {
        self.end(Peer::Publisher(publisher)).0.send_message(message);
        self.flush(Peer::Publisher(publisher));
    }

    pub fn publisher_says_raw(&mut self, publisher: u8, packet_type: u32, body: &[u8]) {
        self.end(Peer::Publisher(publisher))
            .0
            .send_raw(packet_type, body);
        self.flush(Peer::Publisher(publisher));
    }

    /// What came since the last look.
    pub fn front_got(&mut self, link: u8) -> Vec<Heard> {
        std::mem::take(&mut self.end(Peer::Front(link)).1)
    }

    pub fn publisher_got(&mut self, publisher: u8) -> Vec<Heard> {
        std::mem::take(&mut self.end(Peer::Publisher(publisher)).1)
    }
}

/// All that is to go to the core now, flushed.
pub fn hand_over(end: &mut OtherEnd) -> Vec<u8> {
    end.flush();
    end.take_output()
}

/// The number of an invoke.
pub fn number(message: &Heard) -> i64 {
    match message {
        Message::Invoke(Invoke { number, .. }) => *number,
        other => panic!("no invoke: {other:?}"),
    }
}
