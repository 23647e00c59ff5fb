//! What the standards print: FIPS 197's example for AES-256, and that of NIST
//! SP 800-38A for CBC with AES-256.

use super::{BLOCK, KEY};

/// FIPS 197, appendix C.3.
pub const EXAMPLE_KEY: [u8; KEY] = key(
    0x0001_0203_0405_0607_0809_0a0b_0c0d_0e0f,
    0x1011_1213_1415_1617_1819_1a1b_1c1d_1e1f,
);
pub const EXAMPLE_PLAIN: [u8; BLOCK] = 0x0011_2233_4455_6677_8899_aabb_ccdd_eeff_u128.to_be_bytes();
pub const EXAMPLE_CIPHERED: [u8; BLOCK] =
    0x8ea2_b7ca_5167_45bf_eafc_4990_4b49_6089_u128.to_be_bytes();

/// SP 800-38A, F.2.5 one way and F.2.6 the other.
pub const MODES_KEY: [u8; KEY] = key(
    0x603d_eb10_15ca_71be_2b73_aef0_857d_7781,
    0x1f35_2c07_3b61_08d7_2d98_10a3_0914_dff4,
);
pub const MODES_VECTOR: [u8; BLOCK] = 0x0001_0203_0405_0607_0809_0a0b_0c0d_0e0f_u128.to_be_bytes();
const MODES_PLAIN: [u128; 4] = [
    0x6bc1_bee2_2e40_9f96_e93d_7e11_7393_172a,
    0xae2d_8a57_1e03_ac9c_9eb7_6fac_45af_8e51,
    0x30c8_1c46_a35c_e411_e5fb_c119_1a0a_52ef,
    0xf69f_2445_df4f_9b17_ad2b_417b_e66c_3710,
];
const MODES_CIPHERED: [u128; 4] = [
    0xf58c_4c04_d6e5_f1ba_779e_abfb_5f7b_fbd6,
    0x9cfc_4e96_7edb_808d_679f_777b_c670_2c7d,
    0x39f2_3369_a9d9_bacf_a530_e263_0423_1461,
    0xb2eb_05e2_c39b_e9fc_da6c_1907_8c6a_9d1b,
];

pub fn modes_plain() -> Vec<u8> {
    bytes(&MODES_PLAIN)
}

pub fn modes_ciphered() -> Vec<u8> {
    bytes(&MODES_CIPHERED)
}

fn bytes(blocks: &[u128]) -> Vec<u8> {
    blocks
        .iter()
        .flat_map(|block| block.to_be_bytes())
        .collect()
}

const fn key(front: u128, back: u128) -> [u8; KEY] {
    let (front, back) = (front.to_be_bytes(), back.to_be_bytes());
    let mut key = [0; KEY];
    let mut i = 0;
    while i < KEY / 2 {
        key[i] = front[i];
        key[i + KEY / 2] = back[i];
        i += 1;
    }
    key
}
