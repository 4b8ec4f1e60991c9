//! The counter of source document 003, section III.A (01, "The counter").

use super::bits::{pack, unpack};

/// One step: every bit moves one place down, and the new r127 is the sum modulo
/// 2 of the old r29, r17, r2 and r0. Byte 0's top bit is r127.
pub fn step(counter: [u8; 16]) -> [u8; 16] {
    let bits = unpack(&counter, 128);
    let r = |i: usize| bits[127 - i];

    let mut stepped = vec![r(29) ^ r(17) ^ r(2) ^ r(0)];
    for i in (1..=127).rev() {
        stepped.push(r(i));
    }

    let mut result = [0; 16];
    result.copy_from_slice(&pack(&stepped));
    result
}
