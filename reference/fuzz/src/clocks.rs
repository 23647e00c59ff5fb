//! The clock difference of a Nonce that is long enough, at times on either side
//! of each line.

use crate::compare::{same, Compared};
use crate::counts::Counts;
use reference::generator::Generator;
use reference::link::Nonce;
use relay::{clock_difference, Moment};

pub fn case(g: &mut Generator, counts: &mut Counts) -> Compared {
    let length = 60 + g.below(9) as usize;
    let body = g.bytes(length);
    let Ok(nonce) = Nonce::read(&body) else {
        return Ok(());
    };
    let random = g.draw() as u32;
    let far = g.pick(&[
        0,
        29,
        30,
        31,
        u32::MAX - 28,
        u32::MAX - 29,
        u32::MAX - 30,
        random,
    ]);
    let time = nonce.time.wrapping_add(far);
    let ours = clock_difference(&body, Moment { time });
    let second = nonce.clock(time).ok();
    counts.add("clock", Ok(if second.is_some() { "near" } else { "far" }));
    let call = || format!("time {time}, body {body:02x?}");
    same("a clock difference", call, ours, second)
}
