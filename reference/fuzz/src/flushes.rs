//! Flushes at every stage and phase, into buffers of all sizes.

use crate::both::{self, End};
use crate::compare::{same, Compared, Difference};
use crate::conversations::send_something;
use crate::counts::Counts;
use crate::draw::{self, one_in};
use crate::pairs;
use reference::generator::Generator;
use relay::raw;

/// No flush needs as much.
const MOST: usize = 16;

pub fn case(g: &mut Generator, counts: &mut Counts) -> Compared {
    let set_ups = pairs::meeting(g);
    let stage = g.pick(&[0, 1, 2, 3, 3, 4, 4, 4, 4, 4]);
    let mut end = pairs::opened(set_ups, stage, counts)?[g.below(2) as usize].clone();
    for _ in 0..g.below(4) {
        send_something(g, &mut end, 0, counts)?;
        if one_in(g, 3) {
            any(g, &mut end, counts)?;
        }
    }
    if one_in(g, 10) {
        end.receive(&[0; 4], 0, counts)?;
    }
    for room in 0..=MOST {
        let filler = g.byte();
        let mut twice = end.clone();
        twice.flush(room, filler, counts)?;
        twice.flush(MOST, filler, counts)?;
        raw_flush(&mut end.clone(), room)?;
    }
    Ok(())
}

/// Into a buffer that mostly has room; hands back the words.
pub fn any(
    g: &mut Generator,
    end: &mut End,
    counts: &mut Counts,
) -> Result<Option<Vec<u8>>, Difference> {
    let narrow = draw::up_to(g, MOST);
    let room = g.pick(&[MOST, MOST, narrow]);
    let filler = g.byte();
    end.flush(room, filler, counts)
}

/// Through the C interface, whose size after a refusal is 0.
fn raw_flush(end: &mut End, room: usize) -> Compared {
    let mut ours = vec![0xa5; room];
    let mut second = ours.clone();
    // SAFETY: the link is borrowed, the pointer and length are a slice's.
    let sent = unsafe { raw::relay_flush(end.ours.raw(), ours.as_mut_ptr(), room) };
    let answer = both::raw_sent(end.second.flush(&mut second));
    let call = || format!("flush, room {room}");
    same("a flush", call, sent, answer)?;
    same("a flushed buffer", call, &ours, &second)?;
    end.same_state(call)
}
