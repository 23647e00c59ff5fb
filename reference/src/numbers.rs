//! Little-endian numbers at any offset of a byte slice. Reading takes bytes
//! past the end as 0; storing leaves out the bytes that do not fit. An offset
//! plus a width may exceed 2^64-1: it is then past the end, it never wraps.

/// The index of the byte `step` places after `at`, if the slice has one.
fn index(len: usize, at: u64, step: usize) -> Option<usize> {
    let at = usize::try_from(at).ok()?;
    at.checked_add(step).filter(|&i| i < len)
}

fn read<const N: usize>(bytes: &[u8], at: u64) -> [u8; N] {
    std::array::from_fn(|step| index(bytes.len(), at, step).map_or(0, |i| bytes[i]))
}

pub fn read_u16(bytes: &[u8], at: u64) -> u16 {
    u16::from_le_bytes(read(bytes, at))
}

pub fn read_u32(bytes: &[u8], at: u64) -> u32 {
    u32::from_le_bytes(read(bytes, at))
}

pub fn read_u64(bytes: &[u8], at: u64) -> u64 {
    u64::from_le_bytes(read(bytes, at))
}

pub fn read_i32(bytes: &[u8], at: u64) -> i32 {
    i32::from_le_bytes(read(bytes, at))
}

pub fn read_i64(bytes: &[u8], at: u64) -> i64 {
    i64::from_le_bytes(read(bytes, at))
}

/// Copies `run` to `at`, byte by byte, leaving out what does not fit.
pub fn copy(bytes: &mut [u8], at: u64, run: &[u8]) {
    for (step, &byte) in run.iter().enumerate() {
        if let Some(i) = index(bytes.len(), at, step) {
            bytes[i] = byte;
        }
    }
}

pub fn store_u16(bytes: &mut [u8], at: u64, value: u16) {
    copy(bytes, at, &value.to_le_bytes());
}

pub fn store_u32(bytes: &mut [u8], at: u64, value: u32) {
    copy(bytes, at, &value.to_le_bytes());
}

pub fn store_u64(bytes: &mut [u8], at: u64, value: u64) {
    copy(bytes, at, &value.to_le_bytes());
}

pub fn store_i32(bytes: &mut [u8], at: u64, value: i32) {
    copy(bytes, at, &value.to_le_bytes());
}

pub fn store_i64(bytes: &mut [u8], at: u64, value: i64) {
    copy(bytes, at, &value.to_le_bytes());
}

#[cfg(test)]
mod tests {
    use super::*;

    const BYTES: [u8; 9] = [1, 2, 3, 4, 5, 6, 7, 8, 0xff];

    #[test]
    fn reads_inside() {
        assert_eq!(read_u16(&BYTES, 0), 0x0201);
        assert_eq!(read_u32(&BYTES, 1), 0x0504_0302);
        assert_eq!(read_u64(&BYTES, 0), 0x0807_0605_0403_0201);
        assert_eq!(read_i32(&BYTES, 5), -0xf7_f8fa);
        assert_eq!(read_i64(&BYTES, 1), -0xf7_f8f9_fafb_fcfe);
    }

    #[test]
    fn past_the_end_reads_zero() {
        assert_eq!(read_u16(&BYTES, 8), 0xff);
        assert_eq!(read_u32(&BYTES, 7), 0xff08);
        assert_eq!(read_i32(&BYTES, 8), 0xff);
        assert_eq!(read_u64(&BYTES, 9), 0);
        assert_eq!(read_u64(&[], 0), 0);
    }

    #[test]
    fn offsets_never_wrap() {
        for back in 0..10 {
            let at = u64::MAX - back;
            assert_eq!(read_u64(&BYTES, at), 0);
            let mut bytes = BYTES;
            store_u64(&mut bytes, at, u64::MAX);
            copy(&mut bytes, at, &[0; 30]);
            assert_eq!(bytes, BYTES);
        }
    }

    #[test]
    fn stores_leave_out_what_does_not_fit() {
        let mut bytes = [9; 4];
        store_u32(&mut bytes, 2, 0x0403_0201);
        assert_eq!(bytes, [9, 9, 1, 2]);
        store_i64(&mut bytes, 3, -1);
        assert_eq!(bytes, [9, 9, 1, 0xff]);
        store_u16(&mut bytes, 4, 0x0707);
        copy(&mut bytes, 0, &[]);
        assert_eq!(bytes, [9, 9, 1, 0xff]);
    }

    #[test]
    fn what_is_stored_is_read() {
        let mut bytes = [0xaa; 16];
        store_i32(&mut bytes, 3, i32::MIN);
        assert_eq!(read_i32(&bytes, 3), i32::MIN);
        store_i64(&mut bytes, 8, i64::MIN + 1);
        assert_eq!(read_i64(&bytes, 8), i64::MIN + 1);
        assert_eq!(bytes[7], 0xaa);
    }
}
