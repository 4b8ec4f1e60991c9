//! The library's entry points on numbers and byte slices (include/tisarqluk.h),
//! and the second program behind them: each call loads the record, does the
//! work, and stores the record.

use crate::layout::{FreeLayout, PacedLayout};
use crate::reference::aes;
use crate::reference::free::FreeLine;
use crate::reference::mode::Direction;
use crate::reference::paced::{Moved, PacedLine};
use crate::reference::refusal::{refuse_if, Refusal};

/// `tq_answer`; refusal 0 means done.
#[repr(C)]
#[derive(Clone, Copy, Debug, PartialEq, Eq)]
pub struct Answer {
    pub refusal: u32,
    pub bits: u32,
    pub waiting: u32,
}

/// A key, an IV and the numbers that a line is opened with, as a host gives them.
#[derive(Clone, Debug)]
pub struct Opening {
    pub key: Vec<u8>,
    pub iv: Vec<u8>,
    pub pattern: u8,
    pub l: u64,
    pub direction: u64,
}

pub trait EntryPoints {
    fn free_record_bytes(&self) -> usize;
    fn paced_record_bytes(&self) -> usize;
    fn aes128(&self, key: &[u8], input: &[u8], output: &mut [u8]) -> u32;
    fn free_open(&self, record: &mut [u8], opening: &Opening) -> u32;
    fn free_run(&self, record: &mut [u8], bits: u64, input: &[u8], output: &mut [u8]) -> u32;
    fn paced_open(&self, record: &mut [u8], opening: &Opening, d: u64) -> u32;
    fn paced_tick(&self, record: &mut [u8], input: &[u8], output: &mut [u8]) -> Answer;
    fn paced_close(&self, record: &mut [u8], output: &mut [u8]) -> Answer;
}

pub struct SecondProgram;

impl EntryPoints for SecondProgram {
    fn free_record_bytes(&self) -> usize {
        FreeLayout::BYTES
    }

    fn paced_record_bytes(&self) -> usize {
        PacedLayout::BYTES
    }

    fn aes128(&self, key: &[u8], input: &[u8], output: &mut [u8]) -> u32 {
        number(aes::encipher_slices(key, input, output))
    }

    fn free_open(&self, record: &mut [u8], opening: &Opening) -> u32 {
        number(open_free(record, opening))
    }

    fn free_run(&self, record: &mut [u8], bits: u64, input: &[u8], output: &mut [u8]) -> u32 {
        number(with_free(record, |line| line.run(bits, input, output)))
    }

    fn paced_open(&self, record: &mut [u8], opening: &Opening, d: u64) -> u32 {
        number(open_paced(record, opening, d))
    }

    fn paced_tick(&self, record: &mut [u8], input: &[u8], output: &mut [u8]) -> Answer {
        answer(with_paced(record, |line| line.tick(input, output)))
    }

    fn paced_close(&self, record: &mut [u8], output: &mut [u8]) -> Answer {
        answer(with_paced(record, |line| line.close(output)))
    }
}

/// A buffer that is too short is refused 9, tried first.
fn open_free(record: &mut [u8], opening: &Opening) -> Result<(), Refusal> {
    refuse_if(record.len() < FreeLayout::BYTES, Refusal::NoSuchState)?;
    let Opening { key, iv, pattern, l, direction } = opening;
    let line = FreeLine::open(key, iv, *pattern, *l, Direction::from_number(*direction))?;
    store(record, &FreeLayout::encode(&line));
    Ok(())
}

fn open_paced(record: &mut [u8], opening: &Opening, d: u64) -> Result<(), Refusal> {
    refuse_if(record.len() < PacedLayout::BYTES, Refusal::NoSuchState)?;
    let Opening { key, iv, pattern, l, direction } = opening;
    let line = PacedLine::open(key, iv, *pattern, *l, Direction::from_number(*direction), d)?;
    store(record, &PacedLayout::encode(&line));
    Ok(())
}

/// Bytes that stand for no record of the kind are refused 9. A refused call
/// leaves the record's bytes.
fn with_free(
    record: &mut [u8],
    call: impl FnOnce(&mut FreeLine) -> Result<(), Refusal>,
) -> Result<(), Refusal> {
    let mut line = FreeLayout::decode(record).ok_or(Refusal::NoSuchState)?;
    call(&mut line)?;
    store(record, &FreeLayout::encode(&line));
    Ok(())
}

fn with_paced(
    record: &mut [u8],
    call: impl FnOnce(&mut PacedLine) -> Result<Moved, Refusal>,
) -> Result<Moved, Refusal> {
    let mut line = PacedLayout::decode(record).ok_or(Refusal::NoSuchState)?;
    let moved = call(&mut line)?;
    store(record, &PacedLayout::encode(&line));
    Ok(moved)
}

/// A longer buffer keeps its later bytes.
fn store(record: &mut [u8], bytes: &[u8]) {
    record[..bytes.len()].copy_from_slice(bytes);
}

fn number(result: Result<(), Refusal>) -> u32 {
    result.map_or_else(Refusal::number, |()| 0)
}

fn answer(result: Result<Moved, Refusal>) -> Answer {
    match result {
        Ok(moved) => Answer { refusal: 0, bits: moved.bits as u32, waiting: moved.waiting as u32 },
        Err(refusal) => Answer { refusal: refusal.number(), bits: 0, waiting: 0 },
    }
}
