//! The relay's core without a network, step by step.

mod cipher;
mod cipher_faults;
mod connections;
mod gone;
#[path = "../no_timeout/mod.rs"]
mod no_timeout;
#[path = "../other_end/mod.rs"]
mod other_end;
mod padded;
mod padding_faults;
mod repeated;
mod requests;
mod run_out;
mod timeouts;
#[path = "../unreadable/mod.rs"]
mod unreadable;
mod unreadable_messages;
mod versions;
mod world;

use reference::message::{Invoke, Message, Outcome};

fn ask(number: i64, actor: i64) -> Message<&'static [u8]> {
    ask_with(number, actor, b"question")
}

fn ask_with(number: i64, actor: i64, payload: &[u8]) -> Message<&[u8]> {
    Message::Invoke(Invoke {
        number,
        actor: Some(actor),
        timeout: None,
        tl2: false,
        payload,
    })
}

fn answer(number: i64, payload: &[u8]) -> Message<&[u8]> {
    Message::Result(number, Outcome::Payload(payload))
}

fn answered(number: i64, payload: &[u8]) -> Message<Vec<u8>> {
    Message::Result(number, Outcome::Payload(payload.to_vec()))
}

/// The code of an error that came under `number`.
fn code(message: &Message<Vec<u8>>, number: i64) -> i32 {
    match message {
        Message::Result(n, Outcome::Error(code, _)) if *n == number => *code,
        other => panic!("no error under {number}: {other:?}"),
    }
}
