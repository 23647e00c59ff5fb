//! What a Nonce makes of a link that awaits it: every kind of encryption with
//! every kind of KeyID, and what a server answers.

use crate::both::{End, Taken};
use crate::compare::Compared;
use crate::counts::Counts;
use crate::draw;
use crate::packets::key_ids;
use crate::pairs;
use reference::generator::Generator;
use reference::link::{nonce_body, packet};
use reference::message::Side;

const TIME: u32 = 1_700_000_000;
const ROOM: usize = 76;

pub fn case(g: &mut Generator, counts: &mut Counts) -> Compared {
    let set_ups = pairs::any(g);
    // A server awaits the first Nonce, a client the second.
    let (place, stage) = g.pick(&[(0, 1), (1, 0)]);
    let end = &pairs::opened(set_ups, stage, counts)?[place];
    for encryption in [0, 1, 2, 3, 255, g.byte()] {
        for key_id in key_ids(g, end.second.state().key_id) {
            let version = g.pick(&[0, 1, 2, 2, 2, 2, 3, 255]);
            let mut body = nonce_body(version, TIME, draw::array(g));
            body[..4].copy_from_slice(&key_id);
            body[4] = encryption;
            body[28..].copy_from_slice(&draw::array::<32>(g));
            takes(g, &mut end.clone(), &body, counts)?;
        }
    }
    Ok(())
}

fn takes(g: &mut Generator, end: &mut End, body: &[u8], counts: &mut Counts) -> Compared {
    let packet = end.expected_packet(packet::NONCE, body);
    let taken = end.receive(&packet, TIME, counts)?;
    if let (Taken::Packet(_), Side::Server) = (taken, end.side) {
        let answer = draw::nonce(g, TIME);
        end.send(&answer, TIME, ROOM, 0, counts)?;
    }
    Ok(())
}
