//! One AES block: published vectors, random blocks, and the order of tries.

use super::case::{Case, Difference};
use super::Check;
use crate::entry::EntryPoints;

pub const CHECKS: &[Check] = &[vectors_and_random_blocks, slices_of_every_length];

pub fn vectors_and_random_blocks(library: &dyn EntryPoints, seed: u64) -> Result<(), Difference> {
    // FIPS 197, appendices B and C.1; the second program's own tests have the results.
    let vectors = [
        (0x2b7e151628aed2a6abf7158809cf4f3c_u128, 0x3243f6a8885a308d313198a2e0370734_u128),
        (0x000102030405060708090a0b0c0d0e0f, 0x00112233445566778899aabbccddeeff),
    ];
    for number in 0..4000 {
        let mut case = Case::new(library, "one block", seed, number);
        let (key, input) = match vectors.get(number as usize) {
            Some((key, input)) => (key.to_be_bytes(), input.to_be_bytes()),
            None => (case.random.sixteen(), case.random.sixteen()),
        };
        let mut output = case.random.bytes(16);
        case.aes128(&key, &input, &mut output)?;
    }
    Ok(())
}

pub fn slices_of_every_length(library: &dyn EntryPoints, seed: u64) -> Result<(), Difference> {
    let lengths = [0, 1, 15, 16, 17, 24, 32];
    let mut number = 0;
    for key in lengths {
        for input in lengths {
            for output in lengths {
                let mut case = Case::new(library, "one block's slices", seed, number);
                let (key, input) = (case.random.bytes(key), case.random.bytes(input));
                let mut output = case.random.bytes(output);
                case.aes128(&key, &input, &mut output)?;
                number += 1;
            }
        }
    }
    Ok(())
}
