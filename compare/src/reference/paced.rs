//! The paced line: two queues and a fixed rate (source document 003, III.D and
//! III.E; 01, "The tick").

use super::bits::{bytes_for, unpack, write};
use super::mode::{BitRule, Direction, BLOCK};
use super::refusal::{refuse_if, Refusal};

#[derive(Clone, Debug, PartialEq, Eq)]
pub struct PacedLine {
    pub rule: BitRule,
    /// The rate: bits given and places leaving at each tick.
    pub d: usize,
    /// Bits that passed the bit rule, oldest first.
    pub ready: Vec<u8>,
    /// Bits that did not yet, oldest first.
    pub waiting: Vec<u8>,
    /// Places that hold no bit.
    pub fillers: usize,
    pub closed: bool,
}

/// What a tick or a closing answers.
#[derive(Clone, Copy, Debug, PartialEq, Eq)]
pub struct Moved {
    /// The number of line bits written.
    pub bits: usize,
    /// The number of bits waiting.
    pub waiting: usize,
}

/// Refusal 4: D is 0, or D(L + 1) > 128L.
pub fn d_out_of_range(l: u64, d: u64) -> bool {
    let (l, d) = (l as u128, d as u128);
    d == 0 || d * (l + 1) > 128 * l
}

/// M = 128 + 3D - 2, the places of a line.
pub fn hold(d: usize) -> usize {
    BLOCK + 3 * d - 2
}

impl PacedLine {
    /// Opening tries 1, 2, 3, 4.
    pub fn open(
        key: &[u8],
        iv: &[u8],
        pattern: u8,
        l: u64,
        direction: Direction,
        d: u64,
    ) -> Result<PacedLine, Refusal> {
        let rule = BitRule::open(key, iv, pattern, l, direction)?;
        refuse_if(d_out_of_range(l, d), Refusal::DOutOfRange)?;
        let d = d as usize;
        Ok(PacedLine {
            rule,
            d,
            ready: Vec::new(),
            waiting: Vec::new(),
            fillers: hold(d),
            closed: false,
        })
    }

    /// A tick tries 9, 8, 6, 7.
    pub fn tick(&mut self, input: &[u8], output: &mut [u8]) -> Result<Moved, Refusal> {
        refuse_if(self.meets_a_test_for_9(), Refusal::NoSuchState)?;
        refuse_if(self.closed, Refusal::AlreadyClosed)?;
        let needed = bytes_for(self.d as u64) as usize;
        refuse_if(input.len() < needed, Refusal::InputTooShort)?;
        refuse_if(output.len() < needed, Refusal::OutputTooShort)?;

        // 1. D input bits join the waiting bits. D places leave the other end:
        // fillers first, then ready bits, oldest first.
        self.waiting.extend(unpack(input, self.d));
        let fillers_leaving = self.fillers.min(self.d);
        self.fillers -= fillers_leaving;
        let leaving: Vec<u8> = self.ready.drain(..self.d - fillers_leaving).collect();
        write(&leaving, output);

        // 2. If at least w bits wait, exactly w of them pass and become ready.
        let left = self.rule.left;
        let w = if 0 < left && left < BLOCK { left } else { BLOCK };
        if self.waiting.len() >= w {
            let moving: Vec<u8> = self.waiting.drain(..w).collect();
            self.ready.extend(self.rule.pass_all(&moving));
        }

        Ok(Moved { bits: leaving.len(), waiting: self.waiting.len() })
    }

    /// Closing tries 9, 8, 7. It writes the ready bits and then the waiting
    /// bits, passed through the bit rule, and drops the fillers.
    pub fn close(&mut self, output: &mut [u8]) -> Result<Moved, Refusal> {
        refuse_if(self.meets_a_test_for_9(), Refusal::NoSuchState)?;
        refuse_if(self.closed, Refusal::AlreadyClosed)?;
        let needed = bytes_for((self.waiting.len() + self.ready.len()) as u64) as usize;
        refuse_if(output.len() < needed, Refusal::OutputTooShort)?;

        let mut leaving = std::mem::take(&mut self.ready);
        let waiting = std::mem::take(&mut self.waiting);
        leaving.extend(self.rule.pass_all(&waiting));
        write(&leaving, output);
        self.fillers = 0;
        self.closed = true;

        Ok(Moved { bits: leaving.len(), waiting: 0 })
    }

    /// The tests for 9 on a paced line.
    pub fn meets_a_test_for_9(&self) -> bool {
        if self.rule.meets_a_test_for_9() || d_out_of_range(self.rule.l as u64, self.d as u64) {
            return true;
        }
        let (waiting, ready) = (self.waiting.len(), self.ready.len());
        if self.closed {
            waiting != 0 || ready != 0 || self.fillers != 0
        } else {
            let m = hold(self.d);
            waiting + ready + self.fillers != m || waiting > m - self.d
        }
    }
}

#[cfg(test)]
mod tests {
    use super::*;

    fn opened(l: u64, d: u64) -> PacedLine {
        PacedLine::open(&[3; 16], &[4; 16], 0x80, l, Direction::Send, d).unwrap()
    }

    #[test]
    fn opening_tries_1_then_2_then_3_then_4() {
        let answer = |key: usize, iv: usize, l, d| {
            PacedLine::open(&vec![0; key], &vec![0; iv], 0, l, Direction::Send, d).map(|_| ())
        };
        assert_eq!(answer(15, 15, 0, 0), Err(Refusal::KeyNot16Bytes));
        assert_eq!(answer(16, 15, 0, 0), Err(Refusal::IvNot16Bytes));
        assert_eq!(answer(16, 16, 0, 0), Err(Refusal::LOutOfRange));
        assert_eq!(answer(16, 16, 1, 0), Err(Refusal::DOutOfRange));
        assert_eq!(answer(16, 16, 11, u64::MAX), Err(Refusal::DOutOfRange));
        assert_eq!(answer(16, 16, 1, 1), Ok(()));
    }

    #[test]
    fn d_at_its_edges() {
        for (l, d) in [(1, 64), (10, 116), (11, 117)] {
            assert!(!d_out_of_range(l, d));
            assert!(d_out_of_range(l, d + 1));
        }
    }

    #[test]
    fn document_003_has_m_474_at_d_116() {
        assert_eq!(hold(116), 474);
    }

    #[test]
    fn calls_try_9_then_8_then_6_then_7() {
        let mut line = opened(1, 9);
        assert_eq!(line.tick(&[0], &mut [0]), Err(Refusal::InputTooShort));
        assert_eq!(line.tick(&[0; 2], &mut [0]), Err(Refusal::OutputTooShort));
        line.tick(&[0; 2], &mut [0; 2]).unwrap();
        assert_eq!(line.close(&mut [0]), Err(Refusal::OutputTooShort));
        line.close(&mut [0; 2]).unwrap();
        assert_eq!(line.tick(&[], &mut []), Err(Refusal::AlreadyClosed));
        assert_eq!(line.close(&mut []), Err(Refusal::AlreadyClosed));
        line.fillers = 1;
        assert_eq!(line.tick(&[], &mut []), Err(Refusal::NoSuchState));
        assert_eq!(line.close(&mut []), Err(Refusal::NoSuchState));
    }

    #[test]
    fn bit_i_leaves_in_tick_i_plus_m_over_d_plus_1_and_no_tick_is_refused() {
        for l in 1..=11 {
            for d in (1..=128 * l / (l + 1)).step_by(5) {
                let mut line = opened(l, d);
                let (m, d) = (hold(d as usize), d as usize);
                let mut gone = 0;
                for tick in 1..=60 {
                    let input: Vec<u8> = (0..15).map(|i| (tick * 31 + i * 7) as u8).collect();
                    let moved = line.tick(&input, &mut [0; 15]).unwrap();
                    for i in gone..gone + moved.bits {
                        assert_eq!((i + m) / d + 1, tick);
                    }
                    gone += moved.bits;
                    assert_eq!(line.waiting.len() + line.ready.len() + line.fillers, m);
                }
            }
        }
    }

    #[test]
    fn ticks_and_closing_give_the_bits_of_a_free_line() {
        let d = 50;
        let mut line = opened(1, d);
        let mut free = line.rule.clone();
        let (mut given, mut taken) = (Vec::new(), Vec::new());
        for tick in 0..100_u64 {
            let input: Vec<u8> = (0..7).map(|i| (tick * 13 + i * i) as u8).collect();
            let mut output = [0; 7];
            let moved = line.tick(&input, &mut output).unwrap();
            given.extend(unpack(&input, d as usize));
            taken.extend(unpack(&output, moved.bits));
        }
        let mut output = [0; 60];
        let moved = line.close(&mut output).unwrap();
        taken.extend(unpack(&output, moved.bits));
        assert_eq!(taken, free.pass_all(&given));
        assert_eq!(line.rule, free);
    }

    #[test]
    fn each_test_for_9() {
        let mut line = opened(1, 64);
        for _ in 0..6 {
            line.tick(&[0x5A; 8], &mut [0; 8]).unwrap();
        }
        assert!(!line.meets_a_test_for_9());

        let refused = |change: fn(&mut PacedLine)| {
            let mut changed = line.clone();
            change(&mut changed);
            assert!(changed.meets_a_test_for_9());
        };
        refused(|line| line.rule.l = 0);
        refused(|line| line.d = 0);
        refused(|line| line.d = 65);
        refused(|line| line.fillers += 1);
        refused(|line| line.waiting.push(0));
        refused(|line| line.ready.clear());
        refused(|line| line.closed = true);
        // Still M together, yet too many wait.
        refused(|line| {
            line.ready.clear();
            line.fillers = line.d - 1;
            line.waiting = vec![0; hold(line.d) - line.fillers];
        });
    }
}
