//! The free line: bits answered at once.

use super::bits::{bytes_for, unpack, write};
use super::mode::{BitRule, Direction};
use super::refusal::{refuse_if, Refusal};

/// The most bits that one run may have.
pub const RUN_BITS: u64 = 524_288;

#[derive(Clone, Debug, PartialEq, Eq)]
pub struct FreeLine {
    pub rule: BitRule,
}

impl FreeLine {
    /// Opening tries 1, 2, 3.
    pub fn open(
        key: &[u8],
        iv: &[u8],
        pattern: u8,
        l: u64,
        direction: Direction,
    ) -> Result<FreeLine, Refusal> {
        let rule = BitRule::open(key, iv, pattern, l, direction)?;
        Ok(FreeLine { rule })
    }

    /// A run tries 9, 5, 6, 7.
    pub fn run(&mut self, bits: u64, input: &[u8], output: &mut [u8]) -> Result<(), Refusal> {
        refuse_if(self.rule.meets_a_test_for_9(), Refusal::NoSuchState)?;
        refuse_if(bits > RUN_BITS, Refusal::RunTooLong)?;
        refuse_if((input.len() as u64) < bytes_for(bits), Refusal::InputTooShort)?;
        refuse_if((output.len() as u64) < bytes_for(bits), Refusal::OutputTooShort)?;
        let result = self.rule.pass_all(&unpack(input, bits as usize));
        write(&result, output);
        Ok(())
    }
}

#[cfg(test)]
mod tests {
    use super::*;

    fn opened(direction: Direction) -> FreeLine {
        FreeLine::open(&[1; 16], &[2; 16], 0x00, 1, direction).unwrap()
    }

    #[test]
    fn opening_tries_1_then_2_then_3() {
        let answer = |key: usize, iv: usize, l| {
            FreeLine::open(&vec![0; key], &vec![0; iv], 0, l, Direction::Send).map(|_| ())
        };
        assert_eq!(answer(15, 15, 0), Err(Refusal::KeyNot16Bytes));
        assert_eq!(answer(16, 17, 0), Err(Refusal::IvNot16Bytes));
        assert_eq!(answer(16, 16, 0), Err(Refusal::LOutOfRange));
        assert_eq!(answer(16, 16, 12), Err(Refusal::LOutOfRange));
        assert_eq!(answer(16, 16, u64::MAX), Err(Refusal::LOutOfRange));
        assert_eq!(answer(16, 16, 1), Ok(()));
        assert_eq!(answer(16, 16, 11), Ok(()));
    }

    #[test]
    fn a_run_tries_9_then_5_then_6_then_7() {
        let mut line = opened(Direction::Send);
        assert_eq!(line.run(RUN_BITS + 1, &[], &mut []), Err(Refusal::RunTooLong));
        assert_eq!(line.run(u64::MAX, &[], &mut []), Err(Refusal::RunTooLong));
        assert_eq!(line.run(9, &[0], &mut [0]), Err(Refusal::InputTooShort));
        assert_eq!(line.run(9, &[0; 2], &mut [0]), Err(Refusal::OutputTooShort));
        assert_eq!(line, opened(Direction::Send));
        line.rule.l = 0;
        assert_eq!(line.run(RUN_BITS + 1, &[], &mut []), Err(Refusal::NoSuchState));
    }

    #[test]
    fn bit_counts_of_0_are_allowed() {
        let mut line = opened(Direction::Send);
        assert_eq!(line.run(0, &[], &mut []), Ok(()));
        assert_eq!(line, opened(Direction::Send));
    }

    #[test]
    fn a_stream_in_pieces_is_the_stream_whole() {
        let input: Vec<u8> = (0..400).map(|i| (i * 29 + i / 3) as u8).collect();
        let mut whole = opened(Direction::Receive);
        let mut expected = vec![0; 400];
        whole.run(3200, &input, &mut expected).unwrap();

        let mut pieces = opened(Direction::Receive);
        let mut recovered = Vec::new();
        let bits = unpack(&input, 3200);
        for piece in bits.chunks(37) {
            let mut output = [0; 5];
            let bytes = super::super::bits::pack(piece);
            pieces.run(piece.len() as u64, &bytes, &mut output).unwrap();
            recovered.extend(unpack(&output, piece.len()));
        }
        assert_eq!(pieces, whole);
        assert_eq!(recovered, unpack(&expected, 3200));
    }

    #[test]
    fn a_run_of_524_288_bits_is_done_and_one_of_524_289_refused_5() {
        let input = vec![0; 65_537];
        let mut output = vec![0; 65_537];
        let mut line = opened(Direction::Receive);
        assert_eq!(line.run(524_288, &input, &mut output), Ok(()));
        assert_eq!(line.run(524_289, &input, &mut output), Err(Refusal::RunTooLong));
    }
}
