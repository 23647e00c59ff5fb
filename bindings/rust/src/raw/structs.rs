//! The structs that cross the C interface. What each field means is said in
//! include/relay.h.

use crate::keys::Ends;
use crate::{FrontNumber, NetPid, PublisherNumber};

#[repr(C)]
#[derive(Clone, Copy, Debug, PartialEq, Eq)]
pub struct Message {
    pub kind: u8,
    pub refusal: u8,
    pub hasactor: bool,
    pub hastimeout: bool,
    pub tl2: bool,
    pub number: i64,
    pub actor: i64,
    pub timeout: u32,
    pub code: i32,
    pub at: usize,
    pub len: usize,
}

#[repr(C)]
#[derive(Clone, Copy, Debug, PartialEq, Eq)]
pub struct Settings {
    pub server: bool,
    pub allows: bool,
    pub lowest: u8,
    pub padded: bool,
    pub cipher: bool,
    pub only: bool,
}

#[repr(C)]
#[derive(Clone, Copy, Debug, PartialEq, Eq)]
pub struct Moment {
    pub time: u32,
}

#[repr(C)]
#[derive(Clone, Copy, Debug, PartialEq, Eq)]
pub struct Link {
    pub set: Settings,
    pub closed: bool,
    pub crc32c: bool,
    pub version: u8,
    pub stage: u8,
    pub phase: u8,
    pub awaits: bool,
    pub owes: bool,
    pub ciphered: bool,
    pub keyid: u32,
    pub sends: u32,
    pub gets: u32,
    pub awaited: u64,
    pub owed: u64,
}

#[repr(C)]
#[derive(Clone, Copy, Debug, PartialEq, Eq)]
pub struct SetUp {
    pub refusal: u8,
    pub link: Link,
}

#[repr(C)]
#[derive(Clone, Copy, Debug, PartialEq, Eq)]
pub struct Arrival {
    pub tag: u8,
    pub refusal: u8,
    pub kind: u32,
    pub more: usize,
    pub consumed: usize,
    pub at: usize,
    pub len: usize,
}

#[repr(C)]
#[derive(Clone, Copy, Debug, PartialEq, Eq)]
pub struct Part {
    pub at: usize,
    pub len: usize,
}

#[repr(C)]
#[derive(Clone, Copy, Debug, PartialEq, Eq)]
pub struct Clock {
    pub near: bool,
    pub difference: i64,
}

#[repr(C)]
#[derive(Clone, Copy, Debug, Default, PartialEq, Eq)]
pub struct Outgoing {
    pub kind: u32,
    pub error: bool,
    pub hasactor: bool,
    pub hastimeout: bool,
    pub tl2: bool,
    pub timeout: u32,
    pub code: i32,
    pub number: i64,
    pub actor: i64,
    pub id: u64,
    pub random: [u8; 16],
    pub sender: NetPid,
    pub peer: NetPid,
    pub point: [u8; 32],
}

#[repr(C)]
#[derive(Clone, Copy, Debug, PartialEq, Eq)]
pub struct Sent {
    pub refusal: u8,
    pub size: usize,
}

#[repr(C)]
#[derive(Clone, Copy, Debug, PartialEq, Eq)]
pub struct Md5Digest {
    pub bytes: [u8; 16],
}

#[repr(C)]
#[derive(Clone, Copy, Debug, PartialEq, Eq)]
pub struct Sha1Digest {
    pub bytes: [u8; 20],
}

#[repr(C)]
#[derive(Clone, Copy, Debug, PartialEq, Eq)]
pub struct NonceFields {
    pub refusal: u8,
    pub version: u8,
    pub time: u32,
    pub random: Part,
    pub point: Part,
}

// No Debug for those that hold secrets, from here to the table's.
#[repr(C)]
#[derive(Clone, Copy)]
pub struct Derivation {
    pub version: u8,
    pub from_server: bool,
    pub ends: Ends,
    pub shared: [u8; 32],
}

#[repr(C)]
#[derive(Clone, Copy)]
pub struct Derived {
    pub refusal: u8,
    pub size: usize,
    pub key: [u8; 32],
    pub vector: [u8; 16],
}

#[repr(C)]
#[derive(Clone, Copy)]
pub struct CipherKey {
    pub bytes: [u8; 32],
}

#[repr(C)]
#[derive(Clone, Copy)]
pub struct RoundKeys {
    pub bytes: [u8; 240],
}

#[repr(C)]
#[derive(Clone, Copy)]
pub struct Vector {
    pub bytes: [u8; 16],
}

#[repr(C)]
#[derive(Clone, Copy)]
pub struct Chained {
    pub refusal: u8,
    pub vector: Vector,
}

#[repr(C)]
#[derive(Clone, Copy, Debug, PartialEq, Eq)]
pub struct Table {
    pub masks: [u64; 9],
    pub numbers: [i64; 136],
    pub places: [u8; 128],
    pub order: [u8; 64],
    pub times: [u64; 65],
}

#[repr(C)]
#[derive(Clone, Copy, Debug, PartialEq, Eq)]
pub struct Asked {
    pub refusal: u8,
    pub number: PublisherNumber,
}

#[repr(C)]
#[derive(Clone, Copy, Debug, PartialEq, Eq)]
pub struct Replied {
    pub refusal: u8,
    pub link: u8,
    pub number: FrontNumber,
}

#[repr(C)]
#[derive(Clone, Copy, Debug, PartialEq, Eq)]
pub struct Cancelled {
    pub refusal: u8,
    pub publisher: u8,
    pub number: PublisherNumber,
}

#[repr(C)]
#[derive(Clone, Copy, Debug, PartialEq, Eq)]
pub struct Dropped {
    pub refusal: u8,
    pub count: usize,
}
