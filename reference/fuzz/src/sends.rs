//! Sends of everything at every stage, into buffers of all sizes, with random
//! values in the fields that the packet does not have.

use crate::both::{self, to_send, End};
use crate::compare::{same, Compared};
use crate::counts::Counts;
use crate::draw::{self, one_in};
use crate::padding;
use crate::pairs;
use reference::generator::Generator;
use reference::link::packet::FIRST_NUMBER;
use reference::link::Outgoing;
use reference::message::{Invoke, Message, Outcome};
use relay::raw;
use std::sync::OnceLock;

const LONGEST_BODY: usize = 16_777_215 - 16;

pub fn case(g: &mut Generator, counts: &mut Counts) -> Compared {
    let set_ups = pairs::meeting(g);
    let stage = g.pick(&[0, 1, 2, 3, 4, 4, 4, 4, 4, 4]);
    let ends = pairs::opened(set_ups, stage, counts)?;
    let from = g.below(2) as usize;
    let end = &ends[from];
    if stage == 4 && one_in(g, 1000) {
        return long(g, end, &ends[1 - from], counts);
    }
    let time = g.draw() as u32;
    let sender = if one_in(g, 10) {
        draw::other(end.side)
    } else {
        end.side
    };
    let message = draw::message(g, sender);
    let what = draw::outgoing(g, time, &message);
    let needed = end.second.clone().send(&what, &mut [0; 1000]).unwrap_or(40);
    let any = g.below(1000) as usize;
    let near = draw::near(g, needed);
    for room in [0, 11, 12, 15, 16, near, needed - 1, needed, needed + 1, any] {
        let filler = g.byte();
        end.clone().send(&what, time, room, filler, counts)?;
        with_noise(g, &mut end.clone(), &what, time, room)?;
    }
    Ok(())
}

/// The same through the C interface, the fields not needed being random.
fn with_noise(
    g: &mut Generator,
    end: &mut End,
    what: &Outgoing,
    time: u32,
    room: usize,
) -> Compared {
    let mut ours = vec![0xa5; room];
    let mut second = ours.clone();
    let (needed, payload) = to_send(what).raw();
    let outgoing = noisy(g, needed, end.shows_key());
    let sent = raw_send(end.ours.raw(), &mut ours, payload, outgoing, time);
    let answer = both::raw_sent(end.second.send(what, &mut second));
    let call = || format!("send, room {room}: {outgoing:02x?}, payload {payload:02x?}");
    same("a send with noise", call, sent, answer)?;
    same("a buffer sent with noise", call, &ours, &second)?;
    end.same_state(call)
}

pub fn raw_send(
    link: &mut raw::Link,
    buffer: &mut [u8],
    payload: &[u8],
    outgoing: raw::Outgoing,
    time: u32,
) -> raw::Sent {
    // SAFETY: the link is borrowed, and each pointer and length are a slice's.
    unsafe {
        raw::relay_send(
            link,
            buffer.as_mut_ptr(),
            buffer.len(),
            payload.as_ptr(),
            payload.len(),
            outgoing,
            raw::Moment { time },
        )
    }
}

/// Random values wherever the type does not have a field, and for the point of
/// a Nonce without one.
fn noisy(g: &mut Generator, needed: raw::Outgoing, shows_key: bool) -> raw::Outgoing {
    use relay::packet_type as t;
    let mut noisy = random_outgoing(g);
    noisy.kind = needed.kind;
    let numbered = [t::INVOKE, t::CANCEL, t::RESULT].contains(&needed.kind);
    if numbered {
        noisy.number = needed.number;
    }
    match needed.kind {
        t::NONCE => {
            noisy.random = needed.random;
            if shows_key {
                noisy.point = needed.point;
            }
        }
        t::HANDSHAKE => (noisy.sender, noisy.peer) = (needed.sender, needed.peer),
        t::PING => noisy.id = needed.id,
        t::INVOKE => {
            noisy.hasactor = needed.hasactor;
            noisy.hastimeout = needed.hastimeout;
            noisy.tl2 = needed.tl2;
            if needed.hasactor {
                noisy.actor = needed.actor;
            }
            if needed.hastimeout {
                noisy.timeout = needed.timeout;
            }
        }
        t::RESULT => {
            noisy.error = needed.error;
            if needed.error {
                noisy.code = needed.code;
            }
        }
        _ => {}
    }
    noisy
}

pub fn random_outgoing(g: &mut Generator) -> raw::Outgoing {
    let netpid = |g: &mut Generator| relay::NetPid {
        ip: g.draw() as u32,
        port: g.draw() as u16,
        pid: g.draw() as u16,
        start: g.draw() as u32,
    };
    raw::Outgoing {
        kind: g.draw() as u32,
        error: draw::coin(g),
        hasactor: draw::coin(g),
        hastimeout: draw::coin(g),
        tl2: draw::coin(g),
        timeout: g.draw() as u32,
        code: g.draw() as i32,
        number: g.draw() as i64,
        actor: g.draw() as i64,
        id: g.draw(),
        random: draw::array(g),
        sender: netpid(g),
        peer: netpid(g),
        point: draw::array(g),
    }
}

/// Messages on either side of the longest packet, received by the other end.
fn long(g: &mut Generator, end: &End, peer: &End, counts: &mut Counts) -> Compared {
    static BYTES: OnceLock<Vec<u8>> = OnceLock::new();
    let bytes = BYTES.get_or_init(|| Generator::new(9).bytes(LONGEST_BODY + 16));
    let beyond = g.pick(&[0, 0, 1, 4, 16]);
    let (number, tl2) = (77, true);
    let message = match (end.side, draw::coin(g)) {
        (reference::message::Side::Client, _) => Message::Invoke(Invoke {
            number,
            actor: None,
            timeout: g.pick(&[None, Some(0)]),
            tl2,
            payload: &bytes[..LONGEST_BODY - 12 + beyond],
        }),
        (_, true) => Message::Result(
            number,
            Outcome::Payload(&bytes[..LONGEST_BODY - 8 + beyond]),
        ),
        // Number, value, code, length and text: the longest are a multiple of 4.
        (_, false) => Message::Result(
            number,
            Outcome::Error(5, &bytes[..LONGEST_BODY - 3 - 20 + beyond]),
        ),
    };
    let what = Outgoing::Message(message);
    // The longest packet has a zero behind it on padded links.
    let room = g.pick(&[0, LONGEST_BODY + 16, LONGEST_BODY + 17, LONGEST_BODY + 17]);
    let sent = end.clone().send(&what, FIRST_NUMBER, room, 0xee, counts)?;
    if let Some(packet) = sent {
        let mut peer = peer.clone();
        let bytes = [padding::words(g, &peer), packet].concat();
        peer.receive(&bytes[..bytes.len() - 1], 0, counts)?;
        peer.receive(&bytes, 0, counts)?;
    }
    Ok(())
}
