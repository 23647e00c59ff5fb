//! A gone peer on a table that holds 48 requests, some of them its own.

use super::filled::{self, Work, IN_FLIGHT};
use super::Side;
use reference::event::Event;
use reference::generator::Generator;

/// A peer with so many requests among those of others; the loads of all other publishers are even.
fn draw(generator: &mut Generator, side: Side, requests: usize) -> Work {
    let number = generator.below(if side == Side::Publisher { 8 } else { 32 }) as u8;
    let mut ends: Vec<(u8, u8)> = Vec::new();
    for i in 0..IN_FLIGHT {
        let its = i < requests;
        ends.push(match side {
            Side::Front if its => (number, i as u8 % 8),
            Side::Front => ((number + 1 + generator.below(31) as u8) % 32, i as u8 % 8),
            Side::Publisher if its => (generator.below(32) as u8, number),
            Side::Publisher => (generator.below(32) as u8, (number + 1 + i as u8 % 7) % 8),
        });
    }
    for i in 1..IN_FLIGHT {
        ends.swap(i, generator.below(i as u64 + 1) as usize);
    }
    let ask = |(i, (link, publisher))| Event::Ask(link, 1 + i as i64, publisher);
    Work { fill: ends.into_iter().enumerate().map(ask).collect(), call: Event::Gone(side, number) }
}

pub fn print() {
    let what = format!("the requests of a gone peer, with {IN_FLIGHT} in flight");
    println!("\nNanoseconds to free {what}; and how many times ours is as fast.\n");
    filled::print_head("gone, with so many requests", "two hash maps");
    for (name, side) in [("publisher", Side::Publisher), ("front link", Side::Front)] {
        for requests in [1, 16] {
            let mut generator = Generator::new(4);
            let draw = || (draw(&mut generator, side, requests), requests as i64);
            filled::print_row(&format!("{name}, {requests}"), draw);
        }
    }
}
