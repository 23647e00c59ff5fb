//! The words of the command line.

mod link;
#[cfg(test)]
mod tests;

use crate::card::CardKind;
use crate::network::{Options, Publisher};
use crate::settings::{self, LinkSettings};
use link::LinkWords;
use std::collections::HashSet;
use std::net::SocketAddr;
use std::num::NonZeroU32;
use std::time::Duration;

const USAGE: &str = "usage: relay [OPTION]... LISTEN PUBLISHER (eight of them)
PUBLISHER is ADDRESS[,NAME=VALUE]...
  lowest=N: the lowest version of its Nonce, 0 to 2, 0 if not said
  padded=yes or padded=no: whether the link to it is padded, no if not said
  cipher=clear, cipher=only or cipher=either: whether the link to it goes clear, through the cipher, or
    as the publisher chooses; clear if not said
  key=FILE: the key of a link that may cipher, 32 to 4,096 bytes; nobody but the file's owner may have
    rights to it, and that is who runs the relay, or root
OPTION
  --retry-ms N: the pause before a publisher is tried again, 1000 if not said
  --ping-ms N: the interval of the keep-alive, and what a dropped peer has to read the rest, 10000
  --opening-ms N: from a connection's start until its link must be open, 5000
  --request-ms N: from a request's acceptance until it ends with an error, 30000; 0 for no end
  --padded-fronts: the links to all front ends are padded
  --fronts-cipher clear|only|either, --fronts-key FILE: the same for the links to all front ends
  --card stand-in or --card x25519: where the Diffie-Hellman points come from; needed if any link may
    cipher. The stand-in keeps nothing secret, and x25519 is there if it is built in
A link is padded at both ends or at none; one that goes through the cipher is so by itself.";

/// What is said so far.
struct Line {
    positional: Vec<String>,
    retry: u64,
    keep_alive: u64,
    opening: u64,
    request: Option<NonZeroU32>,
    fronts: LinkWords,
    card: Option<CardKind>,
}

/// Where to listen, and all else; or what is wrong.
pub fn read(words: impl Iterator<Item = String>) -> Result<(SocketAddr, Options), String> {
    let line = line(words)?;
    let (listen, publishers) = line.positional.split_first().ok_or(USAGE)?;
    let listen = read_word(listen, address)?;
    let publishers = publishers.iter().map(|word| read_word(word, publisher));
    let publishers: Vec<Publisher> = publishers.collect::<Result<_, _>>()?;
    let front = line
        .fronts
        .read()
        .map_err(|error| format!("front ends: {error}"))?;
    let options = Options {
        front,
        publishers: publishers.try_into().map_err(|_| USAGE)?,
        retry: Duration::from_millis(line.retry),
        keep_alive: Duration::from_millis(line.keep_alive),
        opening: Duration::from_millis(line.opening),
        request: line.request,
        card: line.card,
    };
    has_card(&options)?;
    Ok((listen, options))
}

fn line(mut words: impl Iterator<Item = String>) -> Result<Line, String> {
    let mut line = Line {
        positional: Vec::new(),
        retry: 1000,
        keep_alive: 10_000,
        opening: 5000,
        request: NonZeroU32::new(30_000),
        fronts: LinkWords::new(settings::FRONT),
        card: None,
    };
    let mut said = HashSet::new();
    while let Some(word) = words.next() {
        if word.starts_with("--") && !said.insert(word.clone()) {
            return Err(usage(format!("{word} twice")));
        }
        let mut value = || words.next().ok_or_else(|| USAGE.to_string());
        match word.as_str() {
            "--retry-ms" => line.retry = milliseconds(&value()?)?,
            "--ping-ms" => line.keep_alive = milliseconds(&value()?)?,
            "--opening-ms" => line.opening = milliseconds(&value()?)?,
            "--request-ms" => line.request = timeout(&value()?)?,
            "--padded-fronts" => line.fronts.set("padded", "yes").map_err(usage)?,
            "--fronts-cipher" => line.fronts.set("cipher", &value()?).map_err(usage)?,
            "--fronts-key" => line.fronts.set("key", &value()?).map_err(usage)?,
            "--card" => line.card = Some(CardKind::of(&value()?).map_err(usage)?),
            _ => line.positional.push(word),
        }
    }
    Ok(line)
}

fn usage(error: impl std::fmt::Display) -> String {
    format!("{error}\n{USAGE}")
}

/// In version 2 both ends share bytes by their points, and a link does not know
/// before its opening of which version the other end is: so whatever may cipher
/// needs a card, and none is taken silently.
fn has_card(options: &Options) -> Result<(), String> {
    let links = options.publishers.iter().map(|publisher| &publisher.link);
    let may_cipher = |link: &LinkSettings| link.key.is_some();
    match links.chain([&options.front]).any(may_cipher) && options.card.is_none() {
        true => Err(usage("a link may cipher, and there is no card")),
        false => Ok(()),
    }
}

/// At least 1, so that nothing runs without a pause.
fn milliseconds(word: &str) -> Result<u64, String> {
    let number = word.parse().ok();
    number.filter(|&ms| ms > 0).ok_or_else(|| USAGE.to_string())
}

/// 0 is none, as in the table's calls.
fn timeout(word: &str) -> Result<Option<NonZeroU32>, String> {
    let number = word.parse().map_err(|_| USAGE)?;
    Ok(NonZeroU32::new(number))
}

/// What a word says, or the word and what is wrong with it.
fn read_word<T>(word: &str, read: impl Fn(&str) -> Result<T, String>) -> Result<T, String> {
    read(word).map_err(|error| format!("{word}: {error}"))
}

fn address(word: &str) -> Result<SocketAddr, String> {
    let address = word.parse::<SocketAddr>();
    address.map_err(|error| error.to_string())
}

/// `ADDRESS[,NAME=VALUE]...`.
fn publisher(word: &str) -> Result<Publisher, String> {
    let mut parts = word.split(',');
    let address = address(parts.next().unwrap_or_default())?;
    let mut words = LinkWords::new(settings::PUBLISHER);
    for part in parts {
        words.set_part(part).map_err(usage)?;
    }
    let link = words.read()?;
    Ok(Publisher { address, link })
}
