//! Checksums of slices of all lengths and alignments, whole and continued.

use crate::compare::{same, Compared};
use crate::counts::Counts;
use reference::checksum::{CRC32, CRC32C};
use reference::generator::Generator;
use relay::checksum::{crc32, crc32_update, crc32c, crc32c_update};

pub fn case(g: &mut Generator, counts: &mut Counts) -> Compared {
    let longest = g.pick(&[8, 40, 300, 1100, 3000]);
    let length = g.below(longest) as usize;
    let skipped = g.below(17) as usize;
    let all = g.bytes(skipped + length);
    let bytes = &all[skipped..];
    let previous = g.draw() as u32;
    let call = || format!("{bytes:02x?}, previous {previous}");
    let ours = [
        crc32(bytes),
        crc32c(bytes),
        crc32_update(previous, bytes),
        crc32c_update(previous, bytes),
    ];
    let second = [
        CRC32.of(bytes),
        CRC32C.of(bytes),
        CRC32.update(previous, bytes),
        CRC32C.update(previous, bytes),
    ];
    counts.add("checksum", Ok("four of a slice"));
    same("checksums", call, ours, second)
}
