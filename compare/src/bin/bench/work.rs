//! The works that are timed, each done by the library or by the second program.

use compare::differential::random::Random;
use compare::entry::{EntryPoints, Opening};
use compare::reference::free::RUN_BITS;

pub trait Work {
    fn once(&mut self);
    /// How many units one time has.
    fn units(&self) -> u64;
    fn unit(&self) -> &'static str;
}

fn opening(pattern: u8, l: u64, direction: u64) -> Opening {
    Opening { key: vec![0x2B; 16], iv: vec![0x7E; 16], pattern, l, direction }
}

/// A run of full length.
pub struct FreeRun {
    side: &'static dyn EntryPoints,
    record: Vec<u8>,
    input: Vec<u8>,
    output: Vec<u8>,
}

impl FreeRun {
    fn new(side: &'static dyn EntryPoints, opening: &Opening, input: Vec<u8>) -> FreeRun {
        let mut record = vec![0; side.free_record_bytes()];
        assert_eq!(side.free_open(&mut record, opening), 0);
        let output = vec![0; input.len()];
        FreeRun { side, record, input, output }
    }

    /// The settings of source document 003, sending random bits.
    pub fn random(side: &'static dyn EntryPoints) -> FreeRun {
        let input = Random::new(1, "bench", 0).bytes(RUN_BITS as usize / 8);
        FreeRun::new(side, &opening(0x86, 11, 0), input)
    }

    /// Patterns and blackouts as often as the rule can have them.
    pub fn densest(side: &'static dyn EntryPoints) -> FreeRun {
        FreeRun::new(side, &opening(0x00, 1, 1), vec![0; RUN_BITS as usize / 8])
    }
}

impl Work for FreeRun {
    fn once(&mut self) {
        let FreeRun { side, record, input, output } = self;
        assert_eq!(side.free_run(record, RUN_BITS, input, output), 0);
    }

    fn units(&self) -> u64 {
        RUN_BITS
    }

    fn unit(&self) -> &'static str {
        "bit"
    }
}

/// A hundred short runs, to hold a tick of as many bits to.
pub struct ShortRuns {
    side: &'static dyn EntryPoints,
    record: Vec<u8>,
    bits: usize,
    input: Vec<u8>,
}

impl ShortRuns {
    pub fn new(side: &'static dyn EntryPoints, bits: usize) -> ShortRuns {
        let mut record = vec![0; side.free_record_bytes()];
        assert_eq!(side.free_open(&mut record, &opening(0x86, 10, 0)), 0);
        let input = Random::new(1, "bench", 2).bytes(TICKS * bits.div_ceil(8));
        ShortRuns { side, record, bits, input }
    }
}

impl Work for ShortRuns {
    fn once(&mut self) {
        let mut output = [0; 15];
        for input in self.input.chunks(self.bits.div_ceil(8)) {
            let bits = self.bits as u64;
            assert_eq!(self.side.free_run(&mut self.record, bits, input, &mut output), 0);
        }
    }

    fn units(&self) -> u64 {
        TICKS as u64
    }

    fn unit(&self) -> &'static str {
        "run"
    }
}

/// A hundred ticks of D bits, at the L of source document 003.
pub struct Ticks {
    side: &'static dyn EntryPoints,
    record: Vec<u8>,
    bytes: usize,
    input: Vec<u8>,
}

const TICKS: usize = 100;

impl Ticks {
    pub fn new(side: &'static dyn EntryPoints, d: usize) -> Ticks {
        let mut record = vec![0; side.paced_record_bytes()];
        assert_eq!(side.paced_open(&mut record, &opening(0x86, 10, 0), d as u64), 0);
        let bytes = d.div_ceil(8);
        let input = Random::new(1, "bench", 1).bytes(TICKS * bytes);
        Ticks { side, record, bytes, input }
    }
}

impl Work for Ticks {
    fn once(&mut self) {
        let mut output = [0; 15];
        for input in self.input.chunks(self.bytes) {
            assert_eq!(self.side.paced_tick(&mut self.record, input, &mut output).refusal, 0);
        }
    }

    fn units(&self) -> u64 {
        TICKS as u64
    }

    fn unit(&self) -> &'static str {
        "tick"
    }
}

/// A hundred blocks, each the input of the next.
pub struct Block {
    side: &'static dyn EntryPoints,
    block: [u8; 16],
}

impl Block {
    pub fn new(side: &'static dyn EntryPoints) -> Block {
        Block { side, block: [0x55; 16] }
    }
}

impl Work for Block {
    fn once(&mut self) {
        for _ in 0..self.units() {
            let input = self.block;
            assert_eq!(self.side.aes128(&[0x2B; 16], &input, &mut self.block), 0);
        }
    }

    fn units(&self) -> u64 {
        100
    }

    fn unit(&self) -> &'static str {
        "block"
    }
}
