//! The bit rule of source document 001 (01, "The bit rule"), one bit at a time.

use super::bits::{pack, unpack};
use super::keystream::Keystream;
use super::refusal::{refuse_if, Refusal};

/// The block B in bits.
pub const BLOCK: usize = 128;

/// The pattern's length in bits.
pub const PATTERN: usize = 8;

#[derive(Clone, Copy, Debug, PartialEq, Eq)]
pub enum Direction {
    Send,
    Receive,
}

impl Direction {
    /// A host gives the direction as a number: 0 send, any other receive.
    pub fn from_number(number: u64) -> Direction {
        if number == 0 {
            Direction::Send
        } else {
            Direction::Receive
        }
    }
}

/// A line's settings, and where it stands in the bit rule.
#[derive(Clone, Debug, PartialEq, Eq)]
pub struct BitRule {
    pub l: usize,
    pub pattern: u8,
    pub direction: Direction,
    /// Key, counter and place in the block.
    pub keystream: Keystream,
    /// The line bits seen while scanning, at most the last 7.
    pub window: Vec<u8>,
    /// The blackout bits left; 0 while scanning.
    pub left: usize,
    /// The bits of the new IV collected so far.
    pub iv: Vec<u8>,
}

impl BitRule {
    /// Opening tries 1, 2, 3.
    pub fn open(
        key: &[u8],
        iv: &[u8],
        pattern: u8,
        l: u64,
        direction: Direction,
    ) -> Result<BitRule, Refusal> {
        let key = key.try_into().map_err(|_| Refusal::KeyNot16Bytes)?;
        let iv = iv.try_into().map_err(|_| Refusal::IvNot16Bytes)?;
        refuse_if(l == 0 || l > 11, Refusal::LOutOfRange)?;
        Ok(BitRule {
            l: l as usize,
            pattern,
            direction,
            keystream: Keystream::at(key, iv, 0),
            window: Vec::new(),
            left: 0,
            iv: Vec::new(),
        })
    }

    /// Passes one bit: a plaintext bit becomes a line bit, or a line bit a
    /// recovered one. Everything else depends on the line bit alone.
    pub fn pass(&mut self, bit: u8) -> u8 {
        let result = bit ^ self.keystream.next_bit();
        let line_bit = match self.direction {
            Direction::Send => result,
            Direction::Receive => bit,
        };
        if self.left == 0 {
            self.scan(line_bit);
        } else {
            self.black_out(line_bit);
        }
        result
    }

    pub fn pass_all(&mut self, bits: &[u8]) -> Vec<u8> {
        bits.iter().map(|&bit| self.pass(bit)).collect()
    }

    /// Scanning. When the last 8 line bits equal the pattern, the blackout
    /// begins with the next bit.
    fn scan(&mut self, line_bit: u8) {
        self.window.push(line_bit);
        if self.window == unpack(&[self.pattern], PATTERN) {
            self.window.clear();
            self.left = BLOCK * self.l;
        } else if self.window.len() == PATTERN {
            self.window.remove(0);
        }
    }

    /// Blackout. The first 128 of its bits are collected as the new IV; at its
    /// end the counter becomes that IV, at the start of its block.
    fn black_out(&mut self, line_bit: u8) {
        if self.iv.len() < BLOCK {
            self.iv.push(line_bit);
        }
        self.left -= 1;
        if self.left == 0 {
            let mut counter = [0; 16];
            counter.copy_from_slice(&pack(&self.iv));
            self.keystream = Keystream::at(self.keystream.key(), counter, 0);
            self.iv.clear();
        }
    }

    /// The tests for 9 that free and paced lines share.
    pub fn meets_a_test_for_9(&self) -> bool {
        if self.l == 0 || self.l > 11 {
            return true;
        }
        if self.keystream.place() > 127 || self.left > BLOCK * self.l {
            return true;
        }
        if self.left == 0 {
            !self.iv.is_empty() || self.window.len() > PATTERN - 1
        } else {
            let passed = BLOCK * self.l - self.left;
            self.iv.len() != passed.min(BLOCK) || !self.window.is_empty()
        }
    }
}

#[cfg(test)]
mod tests {
    use super::*;

    fn opened(l: u64, pattern: u8, direction: Direction) -> BitRule {
        BitRule::open(&[7; 16], &[9; 16], pattern, l, direction).unwrap()
    }

    #[test]
    fn the_counter_changes_at_the_end_of_the_blackout_for_every_l() {
        for l in 1..=11 {
            let mut line = opened(l, 0xA5, Direction::Receive);
            line.pass_all(&unpack(&[0xA5], 8));
            assert_eq!(line.left, 128 * l as usize);
            line.pass_all(&vec![1; 128 * l as usize - 1]);
            assert_ne!(line.keystream.counter(), [0xFF; 16]);
            assert_eq!((line.left, line.iv.len()), (1, if l == 1 { 127 } else { 128 }));
            line.pass(1);
            assert_eq!((line.left, line.keystream.place()), (0, 0));
            assert_eq!(line.keystream.counter(), [0xFF; 16]);
            assert!(line.iv.is_empty() && line.window.is_empty());
        }
    }

    #[test]
    fn a_receiver_turns_back_what_a_sender_made() {
        for pattern in [0x00, 0x80, 0x86, 0xFF] {
            let plain: Vec<u8> = (0..5000).map(|i| (i * i / 7 % 2) as u8).collect();
            let line = opened(2, pattern, Direction::Send).pass_all(&plain);
            assert_eq!(opened(2, pattern, Direction::Receive).pass_all(&line), plain);
        }
    }

    #[test]
    fn each_test_for_9() {
        let scanning = opened(2, 0x80, Direction::Send);
        let mut blackout = opened(2, 0x80, Direction::Receive);
        blackout.pass_all(&unpack(&[0x80, 0x11, 0x22], 24));
        assert!(!scanning.meets_a_test_for_9() && !blackout.meets_a_test_for_9());

        let refused = |line: &BitRule, change: fn(&mut BitRule)| {
            let mut changed = line.clone();
            change(&mut changed);
            assert!(changed.meets_a_test_for_9());
        };
        refused(&scanning, |line| line.l = 0);
        refused(&scanning, |line| line.l = 12);
        refused(&scanning, |line| line.keystream = Keystream::at([0; 16], [0; 16], 128));
        refused(&scanning, |line| line.left = 257);
        refused(&scanning, |line| line.iv.push(0));
        refused(&scanning, |line| line.window = vec![1; 8]);
        refused(&blackout, |line| line.left += 1);
        refused(&blackout, |line| line.left -= 1);
        refused(&blackout, |line| line.left = 0);
        refused(&blackout, |line| line.iv.push(0));
        refused(&blackout, |line| line.iv.truncate(15));
        refused(&blackout, |line| line.window.push(0));
    }
}
