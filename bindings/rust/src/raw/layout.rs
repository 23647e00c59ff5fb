//! tests/layout.c holds the sizes, offsets and constants of include/relay.h
//! against numbers; here the Rust side is held against the same lines.

use super::structs::*;
use crate::keys::{End, Ends, INIT_MESSAGE_MOST};
use crate::{packet_type as t, FrontNumber, NetPid, NetPids, PublisherNumber, Refusal, ALL_ENDS};
use std::mem::{offset_of, size_of};
use std::path::Path;
use std::process::Command;

const LINES: &str = include_str!("../../tests/layout.c");

/// The lines of a struct, by its name in C.
macro_rules! lines {
    ($c:ident, $rust:ident { $($name:tt: $field:tt),* }) => {{
        let mut lines = vec![format!("SIZE({}, {})", stringify!($c), size_of::<$rust>())];
        $(lines.push(format!(
            "AT({}, {}, {})",
            stringify!($c),
            stringify!($name),
            offset_of!($rust, $field)
        ));)*
        lines
    }};
    ($c:ident, $rust:ident { $($field:ident),* }) => {
        lines!($c, $rust { $($field: $field),* })
    };
}

fn structs() -> Vec<String> {
    [
        lines!(
            relay_message,
            Message {
                kind,
                refusal,
                hasactor,
                hastimeout,
                tl2,
                number,
                actor,
                timeout,
                code,
                at,
                len
            }
        ),
        lines!(
            relay_settings,
            Settings {
                server,
                allows,
                lowest,
                padded,
                cipher,
                only
            }
        ),
        lines!(relay_moment, Moment { time }),
        lines!(
            relay_link,
            Link {
                set,
                closed,
                crc32c,
                version,
                stage,
                phase,
                awaits,
                owes,
                ciphered,
                keyid,
                sends,
                gets,
                awaited,
                owed
            }
        ),
        lines!(relay_set_up_answer, SetUp { refusal, link }),
        lines!(
            relay_arrival,
            Arrival {
                tag,
                refusal,
                kind,
                more,
                consumed,
                at,
                len
            }
        ),
        lines!(relay_part, Part { at, len }),
        lines!(relay_clock, Clock { near, difference }),
        lines!(
            relay_netpid,
            NetPid {
                ip,
                port,
                pid,
                start
            }
        ),
        lines!(relay_netpids, NetPids { sender, peer }),
        lines!(
            relay_outgoing,
            Outgoing {
                kind,
                error,
                hasactor,
                hastimeout,
                tl2,
                timeout,
                code,
                number,
                actor,
                id,
                random,
                sender,
                peer,
                point
            }
        ),
        lines!(relay_sent, Sent { refusal, size }),
        lines!(relay_md5_digest, Md5Digest { bytes }),
        lines!(relay_sha1_digest, Sha1Digest { bytes }),
        lines!(
            relay_nonce_fields,
            NonceFields {
                refusal,
                version,
                time,
                random,
                point
            }
        ),
        lines!(
            relay_end,
            End {
                random,
                time,
                ip,
                port
            }
        ),
        lines!(relay_ends, Ends { client, server }),
        lines!(
            relay_derivation,
            Derivation {
                version,
                from_server,
                ends,
                shared
            }
        ),
        lines!(
            relay_derived,
            Derived {
                refusal,
                size,
                key,
                vector
            }
        ),
        lines!(relay_cipher_key, CipherKey { bytes }),
        lines!(relay_round_keys, RoundKeys { bytes }),
        lines!(relay_vector, Vector { bytes }),
        lines!(relay_chained, Chained { refusal, vector }),
        lines!(relay_front_number, FrontNumber { value: 0 }),
        lines!(relay_publisher_number, PublisherNumber { value: 0 }),
        lines!(
            relay_table,
            Table {
                masks,
                numbers,
                places,
                order,
                times
            }
        ),
        lines!(relay_asked, Asked { refusal, number }),
        lines!(
            relay_replied,
            Replied {
                refusal,
                link,
                number
            }
        ),
        lines!(
            relay_cancelled,
            Cancelled {
                refusal,
                publisher,
                number
            }
        ),
        lines!(relay_dropped, Dropped { refusal, count }),
    ]
    .concat()
}

fn constants() -> Vec<String> {
    let refusals = Refusal::ALL
        .iter()
        .map(|(name, refusal)| format!("IS(RELAY_{name}, {})", refusal.number()));
    let types = [
        ("NONCE", t::NONCE),
        ("HANDSHAKE", t::HANDSHAKE),
        ("PING", t::PING),
        ("PONG", t::PONG),
        ("INVOKE", t::INVOKE),
        ("CANCEL", t::CANCEL),
        ("CLIENT_FIN", t::CLIENT_FIN),
        ("RESULT", t::RESULT),
        ("OLD_ERROR", t::OLD_ERROR),
        ("SERVER_FIN", t::SERVER_FIN),
    ];
    let types = types
        .iter()
        .map(|(name, value)| format!("IS(RELAY_{name}, {value:#010x})"));
    let lengths = [
        format!("IS(RELAY_INIT_MESSAGE_MOST, {INIT_MESSAGE_MOST})"),
        format!("IS(RELAY_ALL_ENDS, {ALL_ENDS})"),
    ];
    refusals.chain(types).chain(lengths).collect()
}

#[test]
fn rust_has_the_numbers_of_the_c_file() {
    let is_ours = |line: &&str| ["SIZE(", "AT(", "IS("].iter().any(|w| line.starts_with(w));
    let theirs: Vec<&str> = LINES.lines().filter(is_ours).collect();
    assert_eq!([structs(), constants()].concat(), theirs);
}

/// Compiles and leaves nothing behind.
fn compile(words: &[&str]) {
    let root = Path::new(env!("CARGO_MANIFEST_DIR"));
    let status = Command::new(words[0])
        .args(["-Wall", "-Wextra", "-pedantic", "-Werror", "-fsyntax-only"])
        .arg("-I")
        .arg(root.join("../../include"))
        .args(&words[1..])
        .current_dir(root)
        .status()
        .unwrap_or_else(|error| panic!("{}: {error}", words[0]));
    assert!(status.success(), "{words:?}");
}

#[test]
fn c_has_the_numbers_of_the_c_file() {
    compile(&["cc", "-std=c11", "tests/layout.c"]);
}

#[test]
fn the_header_is_c99_and_cplusplus() {
    compile(&["cc", "-std=c99", "-x", "c", "../../include/relay.h"]);
    compile(&["c++", "-std=c++11", "-x", "c++", "../../include/relay.h"]);
}
