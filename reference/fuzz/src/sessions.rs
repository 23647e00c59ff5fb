//! The wrapper's sessions beside drivers of the second program: two ends talk,
//! and each answer and all bytes that go out are compared.

use crate::both::to_send;
use crate::compare::{same, Compared, Difference};
use crate::counts::Counts;
use crate::draw::{self, array, coin, one_in};
use crate::pairs::{self, SetUp};
use crate::second_driver::{shared, Driver, Surroundings};
use crate::states::our_settings;
use reference::checksum::CRC32;
use reference::generator::Generator;
use reference::link::{packet, Outgoing};
use reference::message::Side;
use relay::{Address, Addresses, Card, Fault, Moment, Session};

const TIME: u32 = 1_700_000_000;
const NONCE_SIZE: usize = 76;
const NOW: Moment = Moment { time: TIME };

struct TestCard([u8; 32]);

impl Card for TestCard {
    fn point(&mut self) -> [u8; 32] {
        self.0
    }

    fn shared(&mut self, theirs: &[u8; 32]) -> Option<[u8; 32]> {
        Some(shared(&self.0, theirs))
    }
}

/// One end in both programs.
struct Both {
    ours: Session,
    second: Driver,
    point: [u8; 32],
    /// Bytes on the way to it.
    coming: Vec<u8>,
}

pub fn case(g: &mut Generator, counts: &mut Counts) -> Compared {
    let honest = coin(g);
    let mut set_ups = pairs::any(g);
    if coin(g) {
        // So that older versions are spoken.
        for set_up in &mut set_ups {
            set_up.settings.lowest_version = 0;
        }
    }
    let addresses = [(); 2].map(|()| (g.draw() as u32, g.draw() as u16));
    let mut ends = set_ups.map(|set_up| {
        let point = array(g);
        Both::new(set_up, Surroundings { point, addresses })
    });
    for _ in 0..20 + g.below(40) {
        let (i, says) = due(g, &ends);
        if says {
            let mut bytes = ends[i].say(g)?;
            if i == 0 && one_in(g, 3) {
                bytes = as_older(g, bytes);
            }
            if !honest {
                spoil(g, &mut bytes);
            }
            ends[1 - i].coming.extend(bytes);
        } else {
            let all = ends[i].coming.len();
            let lump = if coin(g) { all } else { draw::up_to(g, all) };
            ends[i].hear(lump)?;
        }
    }
    for end in &mut ends {
        end.hear(end.coming.len())?;
        counts.add("session", Ok(end.word()));
    }
    Ok(())
}

/// A client's Nonce as if it were of an older version; other bytes stay.
fn as_older(g: &mut Generator, bytes: Vec<u8>) -> Vec<u8> {
    if !is_nonce(&bytes) {
        return bytes;
    }
    let mut body = bytes[12..NONCE_SIZE - 4].to_vec();
    body[5] = g.pick(&[0, 1]);
    packet::whole(packet::FIRST_NUMBER, packet::NONCE, &body, CRC32)
}

fn is_nonce(bytes: &[u8]) -> bool {
    bytes.len() == NONCE_SIZE && bytes[8..12] == packet::NONCE.to_le_bytes()
}

/// Now and then a bit is changed; behind a Nonce there are often more bytes, as
/// no honest peer sends them.
fn spoil(g: &mut Generator, bytes: &mut Vec<u8>) {
    if is_nonce(bytes) && coin(g) {
        let more = g.below(40) as usize;
        bytes.extend(g.bytes(more));
    } else if !bytes.is_empty() && one_in(g, 10) {
        let at = g.below(bytes.len() as u64) as usize;
        bytes[at] ^= 1 << g.below(8);
    }
}

/// Whose turn it is, and whether to say something: in the opening mostly what
/// takes it further, the client being 0.
fn due(g: &mut Generator, ends: &[Both; 2]) -> (usize, bool) {
    let i = g.below(2) as usize;
    let stage = |i: usize| ends[i].second.state().stage as usize;
    if stage(i) == 4 || one_in(g, 6) {
        return (i, coin(g));
    }
    let is_reader = |i: &usize| !ends[*i].coming.is_empty() && stage(*i) % 2 != *i;
    match (0..2).find(is_reader) {
        Some(reader) => (reader, false),
        None => (stage(i) % 2, true),
    }
}

impl Both {
    fn new(set_up: SetUp, around: Surroundings) -> Both {
        let settings = our_settings(set_up.settings);
        let [client, server] = around.addresses.map(|(ip, port)| Address { ip, port });
        let (own, peer) = match set_up.settings.side {
            Side::Client => (client, server),
            Side::Server => (server, client),
        };
        let card = TestCard(around.point);
        let ours = match set_up.key {
            Some(key) => Session::with_key(settings, &key, card, Addresses { own, peer }),
            None => Session::new(settings),
        };
        Both {
            ours: ours.expect("a session"),
            second: Driver::new(set_up, around),
            point: around.point,
            coming: Vec::new(),
        }
    }

    /// Mostly what is due, and all of it at once.
    fn say(&mut self, g: &mut Generator) -> Result<Vec<u8>, Difference> {
        for _ in 0..=g.below(2) {
            let message = draw::message(g, self.second.state().settings.side);
            let what = match self.second.state().stage {
                0 | 1 => Outgoing::Nonce(TIME, array(g), self.point),
                2 | 3 => draw::handshake(g),
                _ => match draw::outgoing(g, TIME, &message) {
                    Outgoing::Nonce(time, random, _) => Outgoing::Nonce(time, random, self.point),
                    what => what,
                },
            };
            let ours = self.ours.send(to_send(&what), NOW).map_err(number);
            let second = self.second.send(&what);
            same(
                "a session's send",
                || format!("{:?}", to_send(&what)),
                ours,
                second,
            )?;
        }
        let (ours, second) = (self.ours.take_output(), self.second.take_output());
        same("a session's output", String::new, &ours, &second)?;
        self.same_state()?;
        Ok(ours)
    }

    /// So many bytes come. With none it is asked all the same, and fed nothing.
    fn hear(&mut self, lump: usize) -> Compared {
        let bytes: Vec<u8> = self.coming.drain(..lump).collect();
        if !bytes.is_empty() {
            self.ours.feed(&bytes);
            self.second.feed(&bytes);
        }
        loop {
            let ours = self.ours.next(NOW).map_err(number);
            let ours = ours.map(|packet| packet.map(|packet| (packet.kind, packet.body.to_vec())));
            let second = self.second.next(TIME);
            let call = || format!("{bytes:02x?}");
            same("what a session hears", call, &ours, &second)?;
            self.same_state()?;
            if !matches!(second, Ok(Some(_))) {
                return Ok(());
            }
        }
    }

    fn same_state(&self) -> Compared {
        let ours = (
            self.ours.is_open(),
            self.ours.is_closed(),
            self.ours.is_ciphered(),
        );
        let state = self.second.state();
        let second = (
            !state.closed && state.stage == 4,
            state.closed,
            state.ciphered,
        );
        same("a session's state", String::new, ours, second)
    }

    fn word(&self) -> &'static str {
        let state = self.second.state();
        match (state.closed, state.stage, state.ciphered) {
            (true, ..) => "closed",
            (_, 4, true) => "open and ciphered",
            (_, 4, false) => "open and clear",
            _ => "before its end of the opening",
        }
    }
}

/// The card here refuses nothing.
fn number(fault: Fault) -> u8 {
    match fault {
        Fault::Refused(refusal) => refusal.number(),
        Fault::Card => 0,
    }
}
