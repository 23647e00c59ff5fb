//! Set-ups with any settings, without a key and with any: both refuse them with
//! the same number, or give links with the same state.

use crate::compare::{same, Compared};
use crate::counts::Counts;
use crate::draw::{self, coin, one_in};
use crate::states::{self, our_settings, raw_settings};
use reference::generator::Generator;
use reference::link::{Cipher, Link, Settings, State};
use reference::refusal::Refusal;
use relay::raw;

pub fn case(g: &mut Generator, counts: &mut Counts) -> Compared {
    let (any, cipher) = (g.byte(), draw::cipher(g));
    let settings = Settings {
        lowest_version: g.pick(&[0, 1, 2, 3, 4, 127, 128, 255, any, any]),
        padded: coin(g),
        cipher: g.pick(&[Cipher::ClearOnly, Cipher::ClearOnly, cipher]),
        ..Settings::new(draw::side(g), coin(g))
    };
    without_key(settings, coin(g), counts)?;
    let settings = Settings {
        lowest_version: g.pick(&[0, 1, 2, 2, 2, 3, any]),
        cipher,
        ..settings
    };
    with_key(settings, coin(g), &key(g), counts)
}

/// Through the wrapper and through the C interface.
fn without_key(settings: Settings, only: bool, counts: &mut Counts) -> Compared {
    let ours = relay::Link::new(our_settings(settings));
    let ours = ours.map(|mut link| states::ours(link.raw()));
    let ours = ours.map_err(|refusal| refusal.number());
    let second = state(Link::set_up(settings));
    counts.add("set-up", second.map(word));
    let call = || format!("{settings:?}, only {only}");
    same("a set-up", call, ours, second)?;
    let set = raw_settings(settings, only);
    // SAFETY: all is passed by value.
    let answer = unsafe { raw::relay_set_up(set) };
    compare(call, set, answer, second)
}

fn with_key(settings: Settings, only: bool, key: &[u8], counts: &mut Counts) -> Compared {
    let set = raw_settings(settings, only);
    // SAFETY: the pointer and length are a slice's.
    let answer = unsafe { raw::relay_set_up_with_key(set, key.as_ptr(), key.len()) };
    let second = state(Link::set_up_with_key(settings, key));
    counts.add("set-up with a key", second.map(word));
    let call = || format!("{settings:?}, only {only}, key {key:02x?}");
    compare(call, set, answer, second)
}

/// A refused set-up's link is closed, and keeps nothing of the key.
fn compare(
    call: impl Fn() -> String,
    set: raw::Settings,
    answer: raw::SetUp,
    second: Result<State, u8>,
) -> Compared {
    let ours = match answer.refusal {
        0 => Ok(states::ours(&answer.link)),
        number => Err(number),
    };
    same("a set-up's answer", &call, ours, second)?;
    if second.is_err() {
        let kept = (answer.link.closed, answer.link.keyid);
        return same("what a refused set-up keeps", call, kept, (true, 0));
    }
    same("its settings", call, answer.link.set, set)
}

fn state(link: Result<Link, Refusal>) -> Result<State, u8> {
    link.map(|link| states::second(link.state()))
        .map_err(|refusal| refusal.number())
}

fn word(link: State) -> &'static str {
    match (link.settings.padded, link.settings.cipher) {
        (true, Cipher::ClearOnly) => "padded link",
        (false, Cipher::ClearOnly) => "unpadded link",
        (_, Cipher::CipherOnly) => "link that ciphers",
        (_, Cipher::Either) => "link that may cipher",
    }
}

/// Of lengths on either side of each line; any of its first four bytes are 0,
/// all four of them only now and then.
fn key(g: &mut Generator) -> Vec<u8> {
    let suitable = g.pick(&[32, 32, 33, 64, 4095, 4096]);
    let unsuitable = g.pick(&[0, 1, 3, 4, 5, 31, 31, 4097, 4097, 4098]);
    let random = g.below(5000) as usize;
    let length = g.pick(&[suitable, suitable, unsuitable, random]);
    let mut key = g.bytes(length);
    let zeros = if one_in(g, 6) { 15 } else { g.below(15) };
    for (i, byte) in key.iter_mut().take(4).enumerate() {
        if zeros >> i & 1 == 1 {
            *byte = 0;
        }
    }
    key
}
