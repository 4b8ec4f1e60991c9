//! Line files, good and malformed, through the two programs.

use super::case::{hex, Difference};
use super::random::Random;
use super::states::{greatest_d, opening};
use super::streams::line_bits;
use crate::reference::bits::pack;
use crate::reference::linefile::{self, FILE_BYTES};

/// A check on the two programs, from a seed.
pub type Check = fn(&dyn Programs, u64) -> Result<(), Difference>;

pub const CHECKS: &[Check] = &[good, empty_bits, settings, malformed, largest];

/// What a program did with a file on its standard input.
pub struct Ran {
    pub output: Vec<u8>,
    pub errors: Vec<u8>,
    /// The status it ended with; none if a signal ended it.
    pub status: Option<i32>,
}

/// The two programs, by name: `linerun` and `syncs`.
pub trait Programs {
    fn run(&self, program: &str, file: &[u8]) -> Ran;
}

/// The second program in their place.
pub struct SecondPrograms;

impl Programs for SecondPrograms {
    fn run(&self, program: &str, file: &[u8]) -> Ran {
        let output = match program {
            "linerun" => linefile::linerun(file),
            _ => linefile::syncs(file).map(String::into_bytes),
        };
        let output = output.unwrap_or_else(|refusal| linefile::refused(refusal).into_bytes());
        Ran { output, errors: Vec::new(), status: Some(0) }
    }
}

/// Gives a file to both programs. A good file ends with status 0; with a refusal
/// the document leaves the status open.
fn compare(programs: &dyn Programs, case: &str, file: &[u8]) -> Result<(), Difference> {
    for program in ["linerun", "syncs"] {
        let expected = SecondPrograms.run(program, file).output;
        let ran = programs.run(program, file);
        let good = linefile::read(file).is_ok();
        let ended = if good { ran.status == Some(0) } else { ran.status.is_some() };
        if ran.output != expected || !ran.errors.is_empty() || !ended {
            let text = format!(
                "{program} differs from the second program\n{case}\n  file: {}\n  \
                 writes {}\n  second program writes {}\n  status {:?}, standard error: {}\n",
                hex(file),
                hex(&ran.output),
                hex(&expected),
                ran.status,
                String::from_utf8_lossy(&ran.errors)
            );
            return Err(Difference { text });
        }
    }
    Ok(())
}

fn told(check: &str, seed: u64, number: u64) -> String {
    format!("check {check}, case {number}\nrepeat with TISARQLUK_SEED={seed}")
}

/// The parts of a file, before they are put together.
struct Parts {
    settings: Vec<u8>,
    bit_count: usize,
    bits: Vec<u8>,
    bits_first: bool,
    /// Bytes before, between and after the two areas.
    gaps: [Vec<u8>; 3],
}

impl Parts {
    fn random(random: &mut Random, most_bits: usize) -> Parts {
        let opening = opening(random);
        let free = random.once_in(2);
        let d = if free { 0 } else { 1 + random.below(greatest_d(opening.l) as usize) };
        let mut bit_count = if random.once_in(10) { 0 } else { random.below(most_bits) };
        if !free {
            bit_count -= bit_count % d;
        }
        let direction = random.below(2) as u8;
        let mut settings = vec![opening.l as u8, opening.pattern, direction, d as u8];
        settings.extend(&opening.key);
        settings.extend(&opening.iv);
        Parts {
            settings,
            bit_count,
            bits: pack(&line_bits(random, opening.pattern, bit_count)),
            bits_first: random.once_in(2),
            gaps: std::array::from_fn(|_| {
                let bytes = random.one_of(&[0, 0, 1, 7, 40]);
                random.bytes(bytes)
            }),
        }
    }

    fn put_together(&self) -> Vec<u8> {
        let (first, second) = if self.bits_first {
            (&self.bits, &self.settings)
        } else {
            (&self.settings, &self.bits)
        };
        let first_start = 16 + self.gaps[0].len();
        let second_start = first_start + first.len() + self.gaps[1].len();
        let length = second_start + second.len() + self.gaps[2].len();
        let (bits_start, settings_start) =
            if self.bits_first { (first_start, second_start) } else { (second_start, first_start) };
        let mut file = Vec::new();
        for number in [length, self.bit_count, bits_start, settings_start] {
            file.extend((number as u32).to_be_bytes());
        }
        for part in [&self.gaps[0], first, &self.gaps[1], second, &self.gaps[2]] {
            file.extend(part);
        }
        file
    }
}

pub fn good(programs: &dyn Programs, seed: u64) -> Result<(), Difference> {
    for number in 0..500 {
        let mut random = Random::new(seed, "good files", number);
        let most_bits = random.one_of(&[20, 300, 3000, 3000, 20_000]);
        let file = Parts::random(&mut random, most_bits).put_together();
        compare(programs, &told("good files", seed, number), &file)?;
    }
    Ok(())
}

/// Files of 65,536 bytes, whose bits fill them, and files one byte larger.
pub fn largest(programs: &dyn Programs, seed: u64) -> Result<(), Difference> {
    for number in 0..12 {
        let mut random = Random::new(seed, "largest files", number);
        let mut parts = Parts::random(&mut random, 1);
        let room = FILE_BYTES + (number % 2) as usize - parts.put_together().len();
        let d = (parts.settings[3] as usize).max(1);
        parts.bit_count = 8 * room - 8 * room % d;
        parts.bits = pack(&line_bits(&mut random, parts.settings[1], parts.bit_count));
        parts.gaps[2].extend(vec![0; room - parts.bits.len()]);
        compare(programs, &told("largest files", seed, number), &parts.put_together())?;
    }
    Ok(())
}

/// An empty bit area at every offset of the file and past it.
pub fn empty_bits(programs: &dyn Programs, seed: u64) -> Result<(), Difference> {
    let mut random = Random::new(seed, "empty bits", 0);
    let file =
        Parts { gaps: [vec![1; 2], vec![2; 2], vec![3; 2]], ..Parts::random(&mut random, 1) }
            .put_together();
    for start in 0..=file.len() + 2 {
        let mut file = file.clone();
        file[8..12].copy_from_slice(&(start as u32).to_be_bytes());
        compare(programs, &told("empty bits", seed, start as u64), &file)?;
    }
    Ok(())
}

/// L, D and direction at their edges, with bit counts that are multiples of D
/// and ones that are not.
pub fn settings(programs: &dyn Programs, seed: u64) -> Result<(), Difference> {
    let mut number = 0;
    for l in [0, 1, 2, 10, 11, 12, 255] {
        let edge = greatest_d((l as u64).clamp(1, 11)) as u8;
        for d in [0, 1, edge, edge + 1, 128, 255] {
            for direction in [0, 1, 2, 255] {
                let mut random = Random::new(seed, "settings", number);
                let mut parts = Parts::random(&mut random, 1);
                parts.settings[0] = l;
                parts.settings[2] = direction;
                parts.settings[3] = d;
                parts.bit_count = d as usize * random.below(5) + random.one_of(&[0, 0, 1]);
                parts.bits = random.bytes(parts.bit_count.div_ceil(8));
                compare(programs, &told("settings", seed, number), &parts.put_together())?;
                number += 1;
            }
        }
    }
    Ok(())
}

/// Changes a number of the header to one near it, at an edge, or of a size that
/// a sum would carry past 32 bits.
fn damage_header(random: &mut Random, file: &mut [u8]) {
    let at = 4 * random.below(4);
    let mut bytes = [0; 4];
    bytes.copy_from_slice(&file[at..at + 4]);
    let number = u32::from_be_bytes(bytes);
    let length = file.len() as u32;
    let number = match random.below(4) {
        0 => number.wrapping_add(1),
        1 => number.wrapping_sub(1),
        2 => random.below(file.len() + 10) as u32,
        _ => random.one_of(&[
            0,
            15,
            16,
            17,
            52,
            length.saturating_sub(36),
            length.saturating_sub(1),
            length,
            length + 1,
            65_536,
            65_537,
            1 << 31,
            u32::MAX - 7,
            u32::MAX - 35,
            u32::MAX,
        ]),
    };
    file[at..at + 4].copy_from_slice(&number.to_be_bytes());
}

pub fn malformed(programs: &dyn Programs, seed: u64) -> Result<(), Difference> {
    for number in 0..900 {
        let mut random = Random::new(seed, "malformed files", number);
        let most_bits = random.one_of(&[20, 300]);
        let mut parts = Parts::random(&mut random, most_bits);
        if random.once_in(3) {
            let at = random.below(4);
            parts.settings[at] = random.one_of(&[0, 1, 2, 11, 12, 64, 65, 117, 118, 128, 255]);
        }
        let mut file = parts.put_together();
        match random.below(6) {
            0 => file.truncate(random.below(file.len() + 1)),
            1 => file.push(random.byte()),
            2 => {}
            _ => damage_header(&mut random, &mut file),
        }
        compare(programs, &told("malformed files", seed, number), &file)?;
    }
    Ok(())
}
