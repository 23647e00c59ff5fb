use super::*;
use crate::generator::Generator;

type Call = fn(&[u8; KEY], &mut [u8; BLOCK], &mut [u8]) -> Result<(), Refusal>;

const CALLS: [Call; 2] = [encipher, decipher];

fn array<const N: usize>(generator: &mut Generator) -> [u8; N] {
    std::array::from_fn(|_| generator.byte())
}

/// What the call makes of the bytes, and the vector after it.
fn done(call: Call, key: &[u8; KEY], vector: [u8; BLOCK], bytes: &[u8]) -> (Vec<u8>, [u8; BLOCK]) {
    let (mut vector, mut buffer) = (vector, bytes.to_vec());
    call(key, &mut vector, &mut buffer).unwrap();
    (buffer, vector)
}

#[test]
fn the_example_of_fips_197() {
    let (plain, ciphered) = (printed::EXAMPLE_PLAIN, printed::EXAMPLE_CIPHERED);
    let there = done(encipher, &printed::EXAMPLE_KEY, [0; BLOCK], &plain);
    assert_eq!(there, (ciphered.to_vec(), ciphered));
    let back = done(decipher, &printed::EXAMPLE_KEY, [0; BLOCK], &ciphered);
    assert_eq!(back, (plain.to_vec(), ciphered));
}

/// F.2.5 and F.2.6; the vector goes from block to block, so all four tell.
#[test]
fn the_example_of_the_modes() {
    let (plain, ciphered) = (printed::modes_plain(), printed::modes_ciphered());
    let (key, vector) = (printed::MODES_KEY, printed::MODES_VECTOR);
    let last: [u8; BLOCK] = ciphered[48..].try_into().unwrap();
    assert_eq!(
        done(encipher, &key, vector, &plain),
        (ciphered.clone(), last)
    );
    assert_eq!(done(decipher, &key, vector, &ciphered), (plain, last));
}

#[test]
fn each_way_undoes_the_other() {
    let mut generator = Generator::new(0xAE5);
    for blocks in 0..20 {
        let (key, vector) = (array(&mut generator), array(&mut generator));
        let bytes = generator.bytes(blocks * BLOCK);
        for (there, back) in [(CALLS[0], CALLS[1]), (CALLS[1], CALLS[0])] {
            let (other, _) = done(there, &key, vector, &bytes);
            assert_eq!(done(back, &key, vector, &other).0, bytes);
            assert!(blocks == 0 || other != bytes);
        }
    }
}

#[test]
fn two_calls_in_a_row_are_one() {
    let mut generator = Generator::new(0xAE6);
    let (key, vector) = (array(&mut generator), array(&mut generator));
    let bytes = generator.bytes(9 * BLOCK);
    for call in CALLS {
        let whole = done(call, &key, vector, &bytes);
        for cut in (0..=bytes.len()).step_by(BLOCK) {
            let (front, carried) = done(call, &key, vector, &bytes[..cut]);
            let (back, last) = done(call, &key, carried, &bytes[cut..]);
            assert_eq!(([front, back].concat(), last), whole);
        }
    }
}

#[test]
fn no_bytes_leave_the_vector() {
    for call in CALLS {
        assert_eq!(done(call, &[1; KEY], [2; BLOCK], &[]), (vec![], [2; BLOCK]));
    }
}

#[test]
fn no_whole_blocks_are_37_and_change_nothing() {
    for call in CALLS {
        for length in (0..100).filter(|length| length % BLOCK != 0) {
            let (mut vector, mut buffer) = ([2; BLOCK], vec![3; length]);
            let refused = call(&[1; KEY], &mut vector, &mut buffer);
            assert_eq!(refused, Err(Refusal::NotWholeBlocks));
            assert_eq!(refused.unwrap_err().number(), 37);
            assert_eq!((vector, buffer), ([2; BLOCK], vec![3; length]));
        }
    }
}

/// Every bit of key and block makes a difference.
#[test]
fn every_bit_counts() {
    let mut generator = Generator::new(0xAE7);
    let (key, vector): ([u8; KEY], [u8; BLOCK]) = (array(&mut generator), array(&mut generator));
    let block: [u8; BLOCK] = array(&mut generator);
    for call in CALLS {
        let mut seen = vec![done(call, &key, vector, &block).0];
        for bit in 0..8 * KEY {
            let mut key = key;
            key[bit / 8] ^= 1 << (bit % 8);
            seen.push(done(call, &key, vector, &block).0);
        }
        for bit in 0..8 * BLOCK {
            let mut block = block;
            block[bit / 8] ^= 1 << (bit % 8);
            seen.push(done(call, &key, vector, &block).0);
        }
        let count = seen.len();
        seen.sort();
        seen.dedup();
        assert_eq!(seen.len(), count);
    }
}
