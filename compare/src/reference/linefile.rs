//! Line files and the two programs' outputs (01, "Line files and the two programs").

use super::bits::{bytes_for, pack, unpack};
use super::free::FreeLine;
use super::mode::{BitRule, Direction, BLOCK};
use super::paced::{d_out_of_range, PacedLine};
use super::refusal::{refuse_if, Refusal};

/// The most bytes that a file may have.
pub const FILE_BYTES: usize = 65_536;

const HEADER_BYTES: u64 = 16;
const SETTINGS_BYTES: u64 = 36;

#[derive(Clone, Debug, PartialEq, Eq)]
pub struct LineFile {
    pub l: u8,
    pub pattern: u8,
    pub direction: Direction,
    /// 0 means a free line.
    pub d: u8,
    pub key: [u8; 16],
    pub iv: [u8; 16],
    pub bits: Vec<u8>,
}

/// A part of the file, in bytes.
struct Area {
    start: u64,
    bytes: u64,
}

impl Area {
    fn end(&self) -> u64 {
        self.start + self.bytes
    }

    fn starts_early_or_ends_late(&self, file_bytes: u64) -> bool {
        self.start < HEADER_BYTES || self.end() > file_bytes
    }

    /// An empty area overlaps nothing.
    fn overlaps(&self, other: &Area) -> bool {
        self.bytes > 0 && other.bytes > 0 && self.start < other.end() && other.start < self.end()
    }
}

/// The big-endian number of four bytes.
fn number(file: &[u8], at: usize) -> u64 {
    let mut bytes = [0; 4];
    bytes.copy_from_slice(&file[at..at + 4]);
    u32::from_be_bytes(bytes) as u64
}

/// Reads a file: tries 10, 3, 4.
pub fn read(file: &[u8]) -> Result<LineFile, Refusal> {
    let malformed = |so| refuse_if(so, Refusal::FileMalformed);
    let file_bytes = file.len() as u64;
    malformed(file.len() > FILE_BYTES)?;
    malformed(file_bytes < HEADER_BYTES)?;
    malformed(number(file, 0) != file_bytes)?;
    let bit_count = number(file, 4);
    let bits = Area { start: number(file, 8), bytes: bytes_for(bit_count) };
    let settings = Area { start: number(file, 12), bytes: SETTINGS_BYTES };
    malformed(bits.starts_early_or_ends_late(file_bytes))?;
    malformed(settings.starts_early_or_ends_late(file_bytes))?;
    malformed(bits.overlaps(&settings))?;

    let settings = &file[settings.start as usize..settings.end() as usize];
    let (l, pattern, direction, d) = (settings[0], settings[1], settings[2], settings[3]);
    malformed(direction > 1)?;
    malformed(d != 0 && bit_count % d as u64 != 0)?;

    refuse_if(l == 0 || l > 11, Refusal::LOutOfRange)?;
    refuse_if(d != 0 && d_out_of_range(l as u64, d as u64), Refusal::DOutOfRange)?;

    let mut key = [0; 16];
    key.copy_from_slice(&settings[4..20]);
    let mut iv = [0; 16];
    iv.copy_from_slice(&settings[20..36]);
    Ok(LineFile {
        l,
        pattern,
        direction: Direction::from_number(direction as u64),
        d,
        key,
        iv,
        bits: unpack(&file[bits.start as usize..bits.end() as usize], bit_count as usize),
    })
}

/// The result bits, packed: free, or by ticks and closing.
pub fn linerun(file: &[u8]) -> Result<Vec<u8>, Refusal> {
    let file = read(file)?;
    if file.d == 0 {
        run_free(&file)
    } else {
        run_paced(&file)
    }
}

fn run_free(file: &LineFile) -> Result<Vec<u8>, Refusal> {
    let mut line =
        FreeLine::open(&file.key, &file.iv, file.pattern, file.l as u64, file.direction)?;
    let input = pack(&file.bits);
    let mut output = vec![0; input.len()];
    line.run(file.bits.len() as u64, &input, &mut output)?;
    Ok(output)
}

fn run_paced(file: &LineFile) -> Result<Vec<u8>, Refusal> {
    let (l, d) = (file.l as u64, file.d as u64);
    let mut line = PacedLine::open(&file.key, &file.iv, file.pattern, l, file.direction, d)?;
    let mut output = vec![0; 60];
    let mut result = Vec::new();
    for input in file.bits.chunks(file.d as usize) {
        let moved = line.tick(&pack(input), &mut output)?;
        result.extend(unpack(&output, moved.bits));
    }
    let moved = line.close(&mut output)?;
    result.extend(unpack(&output, moved.bits));
    Ok(pack(&result))
}

/// The file's bits taken as line bits and scanned, as text.
pub fn syncs(file: &[u8]) -> Result<String, Refusal> {
    let file = read(file)?;
    let mut line =
        BitRule::open(&file.key, &file.iv, file.pattern, file.l as u64, Direction::Receive)?;
    let mut found = Vec::new();
    for (i, &bit) in file.bits.iter().enumerate() {
        let was_scanning = line.left == 0;
        line.pass(bit);
        if was_scanning && line.left > 0 {
            found.push(i + 1);
        }
    }

    let mut text = format!("bits {} syncs {}\n", file.bits.len(), found.len());
    for last_bit in found {
        let first_under_new_counter = last_bit + BLOCK * file.l as usize + 1;
        text += &format!("{last_bit} {first_under_new_counter}\n");
    }
    Ok(text)
}

/// What a program writes on a refusal.
pub fn refused(refusal: Refusal) -> String {
    format!("refused {}\n", refusal.number())
}

#[cfg(test)]
mod tests {
    use super::*;

    /// A file with its settings first and its bits right after them.
    fn plain(settings: [u8; 4], bit_count: u32, bytes: &[u8]) -> Vec<u8> {
        let mut file = Vec::new();
        for number in [52 + bytes.len() as u32, bit_count, 52, 16] {
            file.extend(number.to_be_bytes());
        }
        file.extend(settings);
        file.extend([0x11; 16]);
        file.extend([0x22; 16]);
        file.extend(bytes);
        file
    }

    fn put(file: &mut [u8], at: usize, number: u32) {
        file[at..at + 4].copy_from_slice(&number.to_be_bytes());
    }

    fn answer(file: &[u8]) -> Result<(), u32> {
        read(file).map(|_| ()).map_err(Refusal::number)
    }

    #[test]
    fn the_example_of_the_document() {
        let mut bits = vec![0x01];
        bits.extend([0; 17]);
        bits.push(0x80);
        let file = plain([1, 0x80, 1, 0], 152, &bits);
        assert_eq!(file.len(), 71);
        assert_eq!(syncs(&file).unwrap(), "bits 152 syncs 2\n15 144\n152 281\n");
    }

    #[test]
    fn each_malformed_case() {
        let good = plain([1, 0x80, 0, 3], 9, &[0xAB, 0x80]);
        assert_eq!(answer(&good), Ok(()));
        let with = |at: usize, number: u32| {
            let mut file = good.clone();
            put(&mut file, at, number);
            answer(&file)
        };
        for length in [0, 15, 16, 53, 55, u32::MAX] {
            assert_eq!(with(0, length), Err(10));
        }
        for bit_count in [17, 18, 1_000_000_000, u32::MAX] {
            assert_eq!(with(4, bit_count), Err(10));
        }
        for bits_start in [0, 15, 16, 51, 53, 54, 55, u32::MAX] {
            assert_eq!(with(8, bits_start), Err(10));
        }
        for settings_start in [0, 15, 17, 18, 19, 54, u32::MAX] {
            assert_eq!(with(12, settings_start), Err(10));
        }
        for bit_count in [8, 10, 16] {
            assert_eq!(with(4, bit_count), Err(10));
        }
        let mut file = good.clone();
        file[18] = 2;
        assert_eq!(answer(&file), Err(10));
        for bytes in 0..16 {
            assert_eq!(answer(&vec![0; bytes]), Err(10));
        }
    }

    #[test]
    fn an_empty_area_overlaps_nothing_and_starts_at_16_to_the_length() {
        let mut file = plain([1, 0x80, 0, 0], 0, &[0xFF]);
        for (start, expected) in
            [(15, Err(10)), (16, Ok(())), (30, Ok(())), (52, Ok(())), (53, Ok(())), (54, Err(10))]
        {
            put(&mut file, 8, start);
            assert_eq!(answer(&file), expected);
        }
    }

    #[test]
    fn a_file_is_at_most_65_536_bytes() {
        let largest = plain([1, 0x80, 0, 0], 8 * 65_484, &[0; 65_484]);
        assert_eq!(answer(&largest), Ok(()));
        let larger = plain([1, 0x80, 0, 0], 8 * 65_484, &[0; 65_485]);
        assert_eq!(answer(&larger), Err(10));
    }

    #[test]
    fn malformed_comes_before_3_and_3_before_4() {
        assert_eq!(answer(&plain([0, 0, 2, 200], 0, &[])), Err(10));
        assert_eq!(answer(&plain([0, 0, 1, 200], 1, &[0])), Err(10));
        assert_eq!(answer(&plain([0, 0, 1, 200], 0, &[])), Err(3));
        assert_eq!(answer(&plain([12, 0, 1, 1], 0, &[])), Err(3));
        assert_eq!(answer(&plain([1, 0, 1, 65], 0, &[])), Err(4));
        assert_eq!(answer(&plain([1, 0, 1, 64], 0, &[])), Ok(()));
        assert_eq!(refused(Refusal::DOutOfRange), "refused 4\n");
    }

    #[test]
    fn free_or_paced_the_result_bits_are_the_same() {
        let bytes: Vec<u8> = (0..300).map(|i| (i * 37 + i / 5) as u8).collect();
        for direction in 0..2 {
            let free = linerun(&plain([2, 0x86, direction, 0], 2400, &bytes)).unwrap();
            let paced = linerun(&plain([2, 0x86, direction, 75], 2400, &bytes)).unwrap();
            assert_eq!(free, paced);
        }
    }
}
