//! The functions of the archive.

use super::structs::*;
use crate::{FrontNumber, NetPids, PublisherNumber};

extern "C" {
    pub fn relay_crc32(s: *const u8, n: usize) -> u32;
    pub fn relay_crc32c(s: *const u8, n: usize) -> u32;
    pub fn relay_crc32_update(previous: u32, s: *const u8, n: usize) -> u32;
    pub fn relay_crc32c_update(previous: u32, s: *const u8, n: usize) -> u32;

    pub fn relay_read_message(server: bool, kind: u32, body: *const u8, n: usize) -> Message;

    pub fn relay_set_up(settings: Settings) -> SetUp;
    pub fn relay_set_up_with_key(settings: Settings, key: *const u8, n: usize) -> SetUp;
    pub fn relay_receive(link: *mut Link, bytes: *const u8, n: usize, moment: Moment) -> Arrival;
    pub fn relay_body(bytes: *const u8, n: usize, arrival: Arrival) -> Part;
    pub fn relay_clock_difference(body: *const u8, n: usize, moment: Moment) -> Clock;
    pub fn relay_read_netpids(body: *const u8, n: usize) -> NetPids;

    pub fn relay_send(
        link: *mut Link,
        buf: *mut u8,
        room: usize,
        payload: *const u8,
        n: usize,
        outgoing: Outgoing,
        moment: Moment,
    ) -> Sent;
    pub fn relay_flush(link: *mut Link, buf: *mut u8, room: usize) -> Sent;

    pub fn relay_md5(s: *const u8, n: usize) -> Md5Digest;
    pub fn relay_sha1(s: *const u8, n: usize) -> Sha1Digest;
    pub fn relay_read_nonce(body: *const u8, n: usize) -> NonceFields;
    pub fn relay_derive(
        buf: *mut u8,
        room: usize,
        what: Derivation,
        key: *const u8,
        n: usize,
    ) -> Derived;
    pub fn relay_clear(buf: *mut u8, n: usize);
    pub fn relay_encipher_keys(key: CipherKey) -> RoundKeys;
    pub fn relay_decipher_keys(key: CipherKey) -> RoundKeys;
    pub fn relay_encipher(buf: *mut u8, n: usize, keys: RoundKeys, vector: Vector) -> Chained;
    pub fn relay_decipher(buf: *mut u8, n: usize, keys: RoundKeys, vector: Vector) -> Chained;

    pub fn relay_table_fresh(table: *mut Table, first: PublisherNumber) -> u8;
    pub fn relay_table_ask(
        table: *mut Table,
        link: u8,
        number: FrontNumber,
        publisher: u8,
        time: u64,
        timeout: u32,
    ) -> Asked;
    pub fn relay_table_reply(table: *mut Table, publisher: u8, number: PublisherNumber) -> Replied;
    pub fn relay_table_cancel(table: *mut Table, link: u8, number: FrontNumber) -> Cancelled;
    pub fn relay_table_gone(
        table: *mut Table,
        publisher: bool,
        number: u8,
        out: *mut i64,
        n: usize,
    ) -> Dropped;
    pub fn relay_table_run_out(table: *mut Table, time: u64, out: *mut i64, n: usize) -> Dropped;
}

// The same for members that lie apart: each call copies them in and out.
#[cfg(feature = "raw")]
extern "C" {
    pub fn relay_fresh_lent(
        masks: *mut [u64; 9],
        numbers: *mut [i64; 136],
        times: *mut [u64; 65],
        first: PublisherNumber,
    ) -> u8;
    pub fn relay_ask_lent(
        masks: *mut [u64; 9],
        numbers: *mut [i64; 136],
        places: *mut [u8; 128],
        order: *mut [u8; 64],
        times: *mut [u64; 65],
        link: u8,
        number: FrontNumber,
        publisher: u8,
        time: u64,
        timeout: u32,
    ) -> Asked;
    pub fn relay_reply_lent(
        masks: *mut [u64; 9],
        numbers: *const [i64; 136],
        places: *const [u8; 128],
        order: *mut [u8; 64],
        publisher: u8,
        number: PublisherNumber,
    ) -> Replied;
    pub fn relay_cancel_lent(
        masks: *mut [u64; 9],
        numbers: *const [i64; 136],
        places: *const [u8; 128],
        order: *mut [u8; 64],
        link: u8,
        number: FrontNumber,
    ) -> Cancelled;
    pub fn relay_gone_lent(
        masks: *mut [u64; 9],
        numbers: *const [i64; 136],
        places: *const [u8; 128],
        order: *mut [u8; 64],
        publisher: bool,
        number: u8,
        out: *mut i64,
        n: usize,
    ) -> Dropped;
    pub fn relay_run_out_lent(
        masks: *mut [u64; 9],
        numbers: *const [i64; 136],
        places: *const [u8; 128],
        order: *mut [u8; 64],
        times: *mut [u64; 65],
        time: u64,
        out: *mut i64,
        n: usize,
    ) -> Dropped;
}

// A table's calls: they lend it where it stands and copy none of it, as the
// inline functions of include/relay.h do.

pub fn relay_fresh(t: &mut Table, first: PublisherNumber) -> u8 {
    // SAFETY: the table is borrowed.
    unsafe { relay_table_fresh(t, first) }
}

pub fn relay_ask(t: &mut Table, link: u8, number: FrontNumber, publisher: u8) -> Asked {
    relay_ask_by(t, link, number, publisher, 0, 0)
}

pub fn relay_ask_by(
    t: &mut Table,
    link: u8,
    number: FrontNumber,
    publisher: u8,
    time: u64,
    timeout: u32,
) -> Asked {
    // SAFETY: the table is borrowed.
    unsafe { relay_table_ask(t, link, number, publisher, time, timeout) }
}

pub fn relay_reply(t: &mut Table, publisher: u8, number: PublisherNumber) -> Replied {
    // SAFETY: the table is borrowed.
    unsafe { relay_table_reply(t, publisher, number) }
}

pub fn relay_cancel(t: &mut Table, link: u8, number: FrontNumber) -> Cancelled {
    // SAFETY: the table is borrowed.
    unsafe { relay_table_cancel(t, link, number) }
}

pub fn relay_gone(t: &mut Table, publisher: bool, number: u8, out: &mut [i64]) -> Dropped {
    // SAFETY: the table is borrowed; the pointer and length are a slice's.
    unsafe { relay_table_gone(t, publisher, number, out.as_mut_ptr(), out.len()) }
}

pub fn relay_run_out(t: &mut Table, time: u64, out: &mut [i64]) -> Dropped {
    // SAFETY: the table is borrowed; the pointer and length are a slice's.
    unsafe { relay_table_run_out(t, time, out.as_mut_ptr(), out.len()) }
}
