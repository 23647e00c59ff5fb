//! Whole connections through the cipher: two ends exchange their Nonces, derive
//! keys and talk in ciphered streams cut at random places, as drivers do.

use crate::agreements::Agreement;
use crate::both::{End, Taken};
use crate::ciphers::Chain;
use crate::compare::{same, Compared, Difference};
use crate::conversations::send_something;
use crate::counts::Counts;
use crate::draw::{self, coin, one_in};
use crate::pairs;
use reference::cipher::BLOCK;
use reference::generator::Generator;
use reference::link::{packet, Outgoing};

const TIME: u32 = 1_700_000_000;
/// More than any packet that is drawn.
const ROOM: usize = 700;

/// Its type and its body.
type Heard = (u32, Vec<u8>);

/// An end with what its driver keeps.
struct Driver {
    end: End,
    sends_through: Chain,
    hears_through: Chain,
    /// What is on the way to it.
    coming: Vec<u8>,
    /// What came and is no whole block yet.
    ciphered: Vec<u8>,
    /// What is deciphered and no packet yet.
    clear: Vec<u8>,
    said: Vec<Heard>,
    heard: Vec<Heard>,
}

pub fn case(g: &mut Generator, counts: &mut Counts) -> Compared {
    let honest = !one_in(g, 3);
    let mut drivers = opened(g, honest, counts)?;
    for turn in 0..2 + g.below(6) as usize {
        // The client's Handshake, the server's, and then anything.
        let i = if turn < 2 { turn } else { g.below(2) as usize };
        let mut bytes = drivers[i].say(g, counts)?;
        if !honest && !bytes.is_empty() && one_in(g, 4) {
            let at = g.below(bytes.len() as u64) as usize;
            bytes[at] ^= 1 << g.below(8);
        }
        let to = &mut drivers[1 - i];
        to.coming.extend(bytes);
        while !to.coming.is_empty() && (turn < 2 || coin(g)) {
            let lump = 1 + g.below(to.coming.len() as u64) as usize;
            to.hear(lump, counts)?;
        }
        if drivers.iter().any(|driver| driver.end.second.is_closed()) {
            break;
        }
    }
    for driver in &mut drivers {
        driver.hear(driver.coming.len(), counts)?;
    }
    if !honest {
        return Ok(());
    }
    let [client, server] = &drivers;
    let call = || "an honest connection".to_string();
    same("what a server heard", call, &server.heard, &client.said)?;
    same("what a client heard", call, &client.heard, &server.said)
}

/// After the Nonces. The server may take the client's for one of an older
/// version, and where they are not honest the two have other keys of one KeyID.
fn opened(g: &mut Generator, honest: bool, counts: &mut Counts) -> Result<[Driver; 2], Difference> {
    let set_ups = pairs::ciphered(g);
    let keys = set_ups.map(|of_end| of_end.key.expect("a key"));
    let lowest = set_ups.map(|of_end| of_end.settings.lowest_version);
    let [mut client, mut server] = pairs::pair(set_ups, counts);
    let version = g.pick(&[0, 1, 2, 2]).max(lowest[0]).max(lowest[1]);
    let mut hers = body(&nonce(g, &mut client, counts)?);
    hers[5] = version;
    server.receive(&server.expected_packet(packet::NONCE, &hers), TIME, counts)?;
    let answer = nonce(g, &mut server, counts)?;
    client.receive(&answer, TIME, counts)?;
    let agreement = Agreement::new(g, &hers, &body(&answer));
    let mut servers_key = keys[1];
    if !honest && one_in(g, 4) {
        servers_key[4 + g.below(28) as usize] ^= 1 << g.below(8);
    }
    Ok([
        Driver::new(client, &agreement, &keys[0], counts)?,
        Driver::new(server, &agreement, &servers_key, counts)?,
    ])
}

fn nonce(g: &mut Generator, end: &mut End, counts: &mut Counts) -> Result<Vec<u8>, Difference> {
    let what = draw::nonce(g, TIME);
    let sent = end.send(&what, TIME, ROOM, 0, counts)?;
    Ok(sent.expect("the Nonces go through"))
}

fn body(packet: &[u8]) -> Vec<u8> {
    packet[12..packet.len() - 4].to_vec()
}

impl Driver {
    fn new(
        end: End,
        agreement: &Agreement,
        key: &[u8],
        counts: &mut Counts,
    ) -> Result<Driver, Difference> {
        let [sends_through, hears_through] = agreement.chains(&end, key, counts)?;
        Ok(Driver {
            end,
            sends_through,
            hears_through,
            coming: Vec::new(),
            ciphered: Vec::new(),
            clear: Vec::new(),
            said: Vec::new(),
            heard: Vec::new(),
        })
    }

    /// Some packets, then a flush, so that they are whole blocks.
    fn say(&mut self, g: &mut Generator, counts: &mut Counts) -> Result<Vec<u8>, Difference> {
        let mut bytes = Vec::new();
        if self.end.second.state().stage < 4 {
            let handshake = draw::handshake(g);
            bytes.extend(self.send(&handshake, counts)?);
        }
        let open = self.end.second.state().stage == 4;
        for _ in 0..g.below(if open { 3 } else { 1 }) {
            let sent = send_something(g, &mut self.end, TIME, counts)?;
            bytes.extend(self.noted(sent));
        }
        let words = self.end.flush(BLOCK, 0, counts)?;
        bytes.extend(words.unwrap_or_default());
        self.sends_through.go_on(&mut bytes, counts)?;
        let call = || format!("{} bytes", bytes.len());
        same("a flush's end", call, bytes.len() % BLOCK, 0)?;
        Ok(bytes)
    }

    fn send(&mut self, what: &Outgoing, counts: &mut Counts) -> Result<Vec<u8>, Difference> {
        let sent = self.end.send(what, TIME, ROOM, 0, counts)?;
        Ok(self.noted(sent))
    }

    /// Zeros may stand behind the packet.
    fn noted(&mut self, sent: Option<Vec<u8>>) -> Vec<u8> {
        let bytes = sent.unwrap_or_default();
        if let Some((length, _)) = bytes.split_first_chunk() {
            let packet = &bytes[..u32::from_le_bytes(*length) as usize];
            let packet_type = u32::from_le_bytes([packet[8], packet[9], packet[10], packet[11]]);
            self.said.push((packet_type, body(packet)));
        }
        bytes
    }

    /// So many bytes come; whole blocks are deciphered.
    fn hear(&mut self, lump: usize, counts: &mut Counts) -> Compared {
        self.ciphered.extend(self.coming.drain(..lump));
        let whole = self.ciphered.len() - self.ciphered.len() % BLOCK;
        let mut blocks: Vec<u8> = self.ciphered.drain(..whole).collect();
        self.hears_through.go_on(&mut blocks, counts)?;
        self.clear.extend(blocks);
        while let Taken::Packet(packet) = self.end.receive(&self.clear, TIME, counts)? {
            self.end.read(packet, &self.clear, counts)?;
            let body = packet.body.of(&self.clear).to_vec();
            self.heard.push((packet.packet_type, body));
            self.clear.drain(..packet.consumed);
        }
        Ok(())
    }
}
