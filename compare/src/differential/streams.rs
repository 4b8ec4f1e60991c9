//! Bits that trouble a scanner, and the pieces and buffers they come in.

use super::random::Random;
use crate::reference::bits::{pack, unpack};
use crate::reference::mode::{BitRule, Direction};

/// A pattern: every other time one whose bits match themselves when shifted.
pub fn pattern(random: &mut Random) -> u8 {
    if random.once_in(2) {
        random.one_of(&[0x00, 0xFF, 0x80, 0x01, 0x7F, 0xFE, 0xAA, 0x55, 0x86, 0x88])
    } else {
        random.byte()
    }
}

/// Line bits in which the pattern comes densely, rarely, nearly, or by chance.
pub fn line_bits(random: &mut Random, pattern: u8, count: usize) -> Vec<u8> {
    let mut bits = match random.below(6) {
        0 => random.bits(count),
        1 => vec![random.below(2) as u8; count],
        2 => unpack(&vec![pattern; count / 8 + 2], count + 8)[random.below(8)..].to_vec(),
        _ => mosaic(random, pattern, count),
    };
    bits.truncate(count);
    bits
}

/// The pattern, parts of it and near misses, among runs and random bits.
fn mosaic(random: &mut Random, pattern: u8, count: usize) -> Vec<u8> {
    let pattern = unpack(&[pattern], 8);
    let mut bits = Vec::new();
    while bits.len() < count {
        let stone = match random.below(6) {
            0 => pattern.clone(),
            1 => {
                let mut miss = pattern.clone();
                miss[random.below(8)] ^= 1;
                miss
            }
            2 => pattern[..random.below(8)].to_vec(),
            3 => pattern[random.below(8)..].to_vec(),
            4 => {
                let length = random.below(150);
                vec![random.below(2) as u8; length]
            }
            _ => {
                let length = random.below(200);
                random.bits(length)
            }
        };
        bits.extend(stone);
    }
    bits
}

/// The bits to give a line that stands so, for these to be its line bits.
pub fn input_for(rule: &BitRule, line_bits: &[u8]) -> Vec<u8> {
    match rule.direction {
        Direction::Receive => line_bits.to_vec(),
        Direction::Send => {
            let mut receiver = rule.clone();
            receiver.direction = Direction::Receive;
            receiver.pass_all(line_bits)
        }
    }
}

/// How many of the remaining bits the next call takes; at times none.
pub fn piece(random: &mut Random, remaining: usize) -> usize {
    let size = match random.below(4) {
        0 => random.one_of(&[0, 1, 7, 8, 9, 63, 64, 65, 127, 128, 129, 135, 136, 256]),
        1 => random.below(20),
        2 => random.below(400),
        _ => random.below(2000),
    };
    size.min(remaining)
}

/// The bits packed for input, with anything in the unused low bits of the last
/// byte and in later bytes.
pub fn packed(random: &mut Random, bits: &[u8]) -> Vec<u8> {
    let used = bits.len().div_ceil(8) * 8;
    let mut padded = bits.to_vec();
    padded.extend(random.bits(used - bits.len()));
    let mut bytes = pack(&padded);
    let more = random.one_of(&[0, 0, 1, 9]);
    bytes.extend(random.bytes(more));
    bytes
}

/// A buffer of at least so many bytes with anything in it.
pub fn buffer(random: &mut Random, needed: usize) -> Vec<u8> {
    let more = random.one_of(&[0, 0, 1, 9]);
    random.bytes(needed + more)
}
