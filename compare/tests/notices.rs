//! The differential tests have to notice lines that are wrong on purpose: those
//! of document 01, "Plausible and wrong" and "What the contracts have to say",
//! and ones that treat refusals and lent bytes wrongly.

use compare::differential::files::{self, Programs, Ran, SecondPrograms};
use compare::differential::{blocks, damage, free_lines, paced_lines, refusals, run, Check};
use compare::entry::{Answer, EntryPoints, Opening, SecondProgram};
use compare::layout::{FreeLayout, PacedLayout, IV, QUEUE, WINDOW};
use compare::reference::bits::{bytes_for, pack, unpack, write};
use compare::reference::keystream::Keystream;
use compare::reference::linefile;
use compare::reference::mode::{BitRule, Direction};
use compare::reference::paced::PacedLine;

#[derive(Clone, Copy, Debug, PartialEq)]
enum Fault {
    CounterChangesWhenTheIvIsComplete,
    OldKeystreamBlockIsUsedUp,
    RecoveredBitsAreScanned,
    WindowReachesBackIntoTheBlackout,
    WaitsFor128Bits,
    RefusesEachOpening,
    SendsZeros,
    CopiesItsInput,
    NeverChangesCounter,
    SendsNothingUntilClosing,
    InventsItsLineBitCount,
    InventsItsWaitingCount,
    ARefusedRunWrites,
    ARefusedOpeningWrites,
    LaterBytesOfAnOutputAreCleared,
    LaterBytesOfARecordAreCleared,
    UnusedLowBitsStay,
    ShortOutputComesBeforeShortInput,
    AKeyIsTriedBeforeTheRecord,
    LIsCutTo8Bits,
    DTimesLPlus1IsCutTo64Bits,
    ARunMayBeOneBitTooLong,
    WindowBitsAboveTheCountPass,
    IvBitsPastTheCollectedPass,
    QueueBitsPastTheEndPass,
    ClosedLinesTick,
}

/// The second program with one fault.
struct Wrong(Fault);

impl Wrong {
    fn pass(&self, rule: &mut BitRule, bit: u8) -> u8 {
        let before = rule.clone();
        let result = rule.pass(bit);
        let key = rule.keystream.key();
        let iv_completed = before.iv.len() == 127 && rule.iv.len() == 128;
        let blackout_ended = before.left == 1;
        match self.0 {
            Fault::CounterChangesWhenTheIvIsComplete if iv_completed => {
                let counter = pack(&rule.iv).try_into().expect("sixteen bytes");
                rule.keystream = Keystream::at(key, counter, 0);
            }
            Fault::OldKeystreamBlockIsUsedUp if blackout_ended => {
                let place = (before.keystream.place() + 1) % 128;
                rule.keystream = Keystream::at(key, rule.keystream.counter(), place);
            }
            Fault::RecoveredBitsAreScanned if rule.direction == Direction::Receive => {
                if let Some(last) = rule.window.last_mut() {
                    *last = result;
                }
            }
            Fault::WindowReachesBackIntoTheBlackout if blackout_ended && rule.l == 1 => {
                rule.window = unpack(&rule.keystream.counter(), 128)[121..].to_vec();
            }
            Fault::NeverChangesCounter if blackout_ended => {
                rule.keystream = before.keystream;
                rule.keystream.next_bit();
            }
            Fault::SendsZeros if rule.direction == Direction::Send => return 0,
            Fault::CopiesItsInput => return bit,
            _ => {}
        }
        result
    }

    /// A tick that waits for 128 bits where only the rest of a blackout is due.
    fn tick_of_128(line: &mut PacedLine, input: &[u8], output: &mut [u8]) -> Answer {
        let mut right = line.clone();
        let moved = right.tick(input, output).expect("a tick that is not refused");
        let waited = line.waiting.len() + line.d;
        let mut waiting = right.waiting.len();
        if waited < 128 && waiting < waited {
            waiting = waited;
            line.waiting.extend(unpack(input, line.d));
            line.ready.drain(..moved.bits);
            line.fillers -= line.d - moved.bits;
        } else {
            *line = right;
        }
        Answer { refusal: 0, bits: moved.bits as u32, waiting: waiting as u32 }
    }

    /// The record as the fault would have it read.
    fn overlook(&self, record: &mut [u8]) {
        match self.0 {
            Fault::WindowBitsAboveTheCountPass if record.len() > 40 => {
                let count = record[WINDOW.start + 1].min(8);
                record[WINDOW.start] &= ((1_u16 << count) - 1) as u8;
            }
            Fault::IvBitsPastTheCollectedPass if record.len() >= FreeLayout::BYTES => {
                let collected = record[IV.start + 16].min(128) as usize;
                let bits = unpack(IV.of(record), collected);
                IV.put(record, &pack(&bits));
            }
            Fault::QueueBitsPastTheEndPass if record.len() >= PacedLayout::BYTES => {
                let queued =
                    compare::layout::READY.number(record) + compare::layout::WAITING.number(record);
                let bits = unpack(QUEUE.of(record), queued.min(480));
                QUEUE.put(record, &pack(&bits));
            }
            _ => {}
        }
    }
}

impl EntryPoints for Wrong {
    fn free_record_bytes(&self) -> usize {
        SecondProgram.free_record_bytes()
    }

    fn paced_record_bytes(&self) -> usize {
        SecondProgram.paced_record_bytes()
    }

    fn aes128(&self, key: &[u8], input: &[u8], output: &mut [u8]) -> u32 {
        if self.0 == Fault::ShortOutputComesBeforeShortInput && key.len() == 16 && output.len() < 16
        {
            return 7;
        }
        SecondProgram.aes128(key, input, output)
    }

    fn free_open(&self, record: &mut [u8], opening: &Opening) -> u32 {
        let mut opening = opening.clone();
        match self.0 {
            Fault::RefusesEachOpening => return 3,
            Fault::AKeyIsTriedBeforeTheRecord if opening.key.len() != 16 => return 1,
            Fault::LIsCutTo8Bits => opening.l %= 256,
            _ => {}
        }
        let refusal = SecondProgram.free_open(record, &opening);
        if refusal != 0 && self.0 == Fault::ARefusedOpeningWrites {
            record.fill(0);
        }
        if refusal == 0 && self.0 == Fault::LaterBytesOfARecordAreCleared {
            record[FreeLayout::BYTES..].fill(0);
        }
        refusal
    }

    fn free_run(&self, record: &mut [u8], bits: u64, input: &[u8], output: &mut [u8]) -> u32 {
        self.overlook(record);
        let needed = bytes_for(bits) as usize;
        let last = output.get(needed.wrapping_sub(1)).copied();
        let refusal = SecondProgram.free_run(&mut record.to_vec(), bits, input, output);
        match (refusal, self.0) {
            (5, Fault::ARunMayBeOneBitTooLong) if bits == 524_289 => {
                return SecondProgram.free_run(record, bits - 1, input, output);
            }
            (6, Fault::ShortOutputComesBeforeShortInput) if output.len() < needed => return 7,
            (1.., Fault::ARefusedRunWrites) => output.fill(0),
            _ => {}
        }
        if refusal != 0 {
            return refusal;
        }
        let mut line = FreeLayout::decode(record).expect("a record that passed");
        let input = unpack(input, bits as usize);
        let result: Vec<u8> = input.iter().map(|&bit| self.pass(&mut line.rule, bit)).collect();
        write(&result, output);
        record[..FreeLayout::BYTES].copy_from_slice(&FreeLayout::encode(&line));
        match (last, self.0) {
            (Some(last), Fault::UnusedLowBitsStay) => {
                output[needed - 1] |= last & (0xFF >> ((bits + 7) % 8 + 1)) as u8;
            }
            (_, Fault::LaterBytesOfAnOutputAreCleared) => output[needed..].fill(0),
            _ => {}
        }
        0
    }

    fn paced_open(&self, record: &mut [u8], opening: &Opening, d: u64) -> u32 {
        let cut = d.wrapping_mul(opening.l.wrapping_add(1)) <= 128_u64.wrapping_mul(opening.l);
        if self.0 == Fault::DTimesLPlus1IsCutTo64Bits && d > 255 && cut {
            return SecondProgram.paced_open(record, opening, 1);
        }
        SecondProgram.paced_open(record, opening, d)
    }

    fn paced_tick(&self, record: &mut [u8], input: &[u8], output: &mut [u8]) -> Answer {
        self.overlook(record);
        let (record_before, output_before) = (record.to_vec(), output.to_vec());
        let mut answer = SecondProgram.paced_tick(record, input, output);
        match self.0 {
            Fault::ClosedLinesTick if answer.refusal == 8 => answer.refusal = 0,
            _ if answer.refusal != 0 => {}
            Fault::WaitsFor128Bits => {
                let mut line = PacedLayout::decode(&record_before).expect("a record that passed");
                answer = Wrong::tick_of_128(&mut line, input, output);
                record[..PacedLayout::BYTES].copy_from_slice(&PacedLayout::encode(&line));
            }
            Fault::SendsNothingUntilClosing => {
                output.copy_from_slice(&output_before);
                answer.bits = 0;
            }
            Fault::InventsItsLineBitCount => answer.bits = 64,
            Fault::InventsItsWaitingCount => answer.waiting = 0,
            _ => {}
        }
        answer
    }

    fn paced_close(&self, record: &mut [u8], output: &mut [u8]) -> Answer {
        self.overlook(record);
        SecondProgram.paced_close(record, output)
    }
}

#[test]
fn each_fault_is_noticed() {
    let table: [(Fault, &[Check]); 27] = [
        (Fault::CounterChangesWhenTheIvIsComplete, free_lines::CHECKS),
        (Fault::OldKeystreamBlockIsUsedUp, free_lines::CHECKS),
        (Fault::RecoveredBitsAreScanned, free_lines::CHECKS),
        (Fault::WindowReachesBackIntoTheBlackout, free_lines::CHECKS),
        (Fault::WaitsFor128Bits, paced_lines::CHECKS),
        (Fault::RefusesEachOpening, free_lines::CHECKS),
        (Fault::SendsZeros, free_lines::CHECKS),
        (Fault::CopiesItsInput, free_lines::CHECKS),
        (Fault::NeverChangesCounter, free_lines::CHECKS),
        (Fault::SendsNothingUntilClosing, paced_lines::CHECKS),
        (Fault::InventsItsLineBitCount, paced_lines::CHECKS),
        (Fault::InventsItsWaitingCount, paced_lines::CHECKS),
        (Fault::ARefusedRunWrites, refusals::CHECKS),
        (Fault::ARefusedOpeningWrites, refusals::CHECKS),
        (Fault::LaterBytesOfAnOutputAreCleared, free_lines::CHECKS),
        (Fault::LaterBytesOfARecordAreCleared, refusals::CHECKS),
        (Fault::UnusedLowBitsStay, free_lines::CHECKS),
        (Fault::ShortOutputComesBeforeShortInput, blocks::CHECKS),
        (Fault::ShortOutputComesBeforeShortInput, refusals::CHECKS),
        (Fault::AKeyIsTriedBeforeTheRecord, refusals::CHECKS),
        (Fault::LIsCutTo8Bits, refusals::CHECKS),
        (Fault::DTimesLPlus1IsCutTo64Bits, refusals::CHECKS),
        (Fault::ARunMayBeOneBitTooLong, refusals::CHECKS),
        (Fault::WindowBitsAboveTheCountPass, damage::CHECKS),
        (Fault::IvBitsPastTheCollectedPass, damage::CHECKS),
        (Fault::QueueBitsPastTheEndPass, damage::CHECKS),
        (Fault::ClosedLinesTick, paced_lines::CHECKS),
    ];
    for (fault, checks) in table {
        let difference = run(checks, &Wrong(fault), 1).expect_err(&format!("{fault:?}"));
        assert!(difference.text.contains("TISARQLUK_SEED=1"), "{difference}");
    }
}

/// The second program's answers to files, changed.
struct WrongPrograms(fn(&[u8], Ran) -> Ran);

impl Programs for WrongPrograms {
    fn run(&self, program: &str, file: &[u8]) -> Ran {
        self.0(file, SecondPrograms.run(program, file))
    }
}

fn refused(number: u32) -> Vec<u8> {
    format!("refused {number}\n").into_bytes()
}

#[test]
fn wrong_programs_are_noticed() {
    let run = |change| files::CHECKS.iter().try_for_each(|check| check(&WrongPrograms(change), 1));
    // A good file ends with another status than 0, or any file by a signal.
    assert!(
        run(|file, ran| Ran { status: Some(linefile::read(file).is_ok() as i32), ..ran }).is_err()
    );
    assert!(run(|_, ran| Ran { status: None, ..ran }).is_err());
    // Something is said besides the document's line.
    assert!(run(|_, ran| Ran { errors: b"refused".to_vec(), ..ran }).is_err());
    // D is not tried.
    assert!(run(|_, ran| {
        let output = if ran.output == refused(4) { Vec::new() } else { ran.output };
        Ran { output, ..ran }
    })
    .is_err());
    // An empty area may not start at the end of the file.
    assert!(run(|file, ran| {
        let at_the_end = file.get(8..12) == Some(&(file.len() as u32).to_be_bytes()[..]);
        let output = if at_the_end { refused(10) } else { ran.output };
        Ran { output, ..ran }
    })
    .is_err());
}
