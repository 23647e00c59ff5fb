//! A reflected checksum of 32 bits as a user would write it: one table, or eight (slicing by 8).

/// Eight tables, for eight bytes a step; the first alone is for one byte a step.
pub fn tables(polynomial: u32) -> [[u32; 256]; 8] {
    let mut tables = [[0; 256]; 8];
    for byte in 0..256 {
        tables[0][byte] = (0..8).fold(byte as u32, |c, _| (c >> 1) ^ if c & 1 == 1 { polynomial } else { 0 });
    }
    for k in 1..8 {
        for byte in 0..256 {
            let c = tables[k - 1][byte];
            tables[k][byte] = (c >> 8) ^ tables[0][(c & 255) as usize];
        }
    }
    tables
}

pub fn bytewise(table: &[u32; 256], start: u32, bytes: &[u8]) -> u32 {
    bytes.iter().fold(start, |c, &b| (c >> 8) ^ table[((c ^ u32::from(b)) & 255) as usize])
}

pub fn sliced(tables: &[[u32; 256]; 8], bytes: &[u8]) -> u32 {
    let mut steps = bytes.chunks_exact(8);
    let mut c = !0;
    for s in &mut steps {
        let x = c ^ u32::from_le_bytes([s[0], s[1], s[2], s[3]]);
        c = tables[7][(x & 255) as usize]
            ^ tables[6][(x >> 8 & 255) as usize]
            ^ tables[5][(x >> 16 & 255) as usize]
            ^ tables[4][(x >> 24) as usize]
            ^ tables[3][usize::from(s[4])]
            ^ tables[2][usize::from(s[5])]
            ^ tables[1][usize::from(s[6])]
            ^ tables[0][usize::from(s[7])];
    }
    !bytewise(&tables[0], c, steps.remainder())
}
