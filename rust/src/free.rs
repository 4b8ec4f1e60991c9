//! The free line.

use crate::c;
use crate::refusal::{result, Refusal};
use crate::settings::Settings;
use core::fmt;

/// The bytes of a free line's record.
pub const FREE_RECORD_BYTES: usize = 58;

/// The most bits of one run.
pub const RUN_BITS: u64 = 524_288;

/// A line that answers each bit at once.
#[derive(Clone, PartialEq, Eq)]
pub struct FreeLine {
    record: [u8; FREE_RECORD_BYTES],
}

impl FreeLine {
    /// Opens a line. Tries refusals 1, 2, 3.
    ///
    /// ```
    /// use tisarqluk::{Direction, FreeLine, Refusal, Settings};
    ///
    /// let direction = Direction::Send;
    /// let settings = Settings { key: &[1; 16], iv: &[2; 16], pattern: 0x80, l: 12, direction };
    /// assert_eq!(FreeLine::open(&settings), Err(Refusal::L));
    /// assert!(FreeLine::open(&Settings { l: 11, ..settings }).is_ok());
    /// ```
    pub fn open(settings: &Settings) -> Result<FreeLine, Refusal> {
        let mut record = [0; FREE_RECORD_BYTES];
        // Each pointer is good for its length, and the record is ours alone.
        result(unsafe {
            c::tq_free_open(
                record.as_mut_ptr(),
                record.len(),
                settings.key.as_ptr(),
                settings.key.len(),
                settings.iv.as_ptr(),
                settings.iv.len(),
                settings.pattern,
                settings.l,
                settings.direction.number(),
            )
        })?;
        Ok(FreeLine { record })
    }

    /// Passes so many bits of the input through the line into the output. A
    /// stream may be run in pieces of any number of bits. Tries refusals 5, 6, 7.
    ///
    /// ```
    /// use tisarqluk::{Direction, FreeLine, Refusal, Settings};
    ///
    /// let direction = Direction::Send;
    /// let settings = Settings { key: &[1; 16], iv: &[2; 16], pattern: 0x80, l: 1, direction };
    /// let mut whole = FreeLine::open(&settings)?;
    /// let mut pieces = whole.clone();
    ///
    /// let mut output = [0; 4];
    /// whole.run(32, &[0xAA, 0xBB, 0xCC, 0xDD], &mut output)?;
    ///
    /// let (mut first, mut rest) = ([0; 1], [0; 3]);
    /// pieces.run(8, &[0xAA], &mut first)?;
    /// pieces.run(0, &[], &mut [])?;
    /// pieces.run(24, &[0xBB, 0xCC, 0xDD], &mut rest)?;
    /// assert_eq!(output, [first[0], rest[0], rest[1], rest[2]]);
    /// assert!(whole == pieces);
    ///
    /// assert_eq!(whole.run(9, &[0], &mut output), Err(Refusal::Input));
    /// # Ok::<(), Refusal>(())
    /// ```
    pub fn run(&mut self, bits: u64, input: &[u8], output: &mut [u8]) -> Result<(), Refusal> {
        // Each pointer is good for its length; record and output are borrowed alone.
        result(unsafe {
            c::tq_free_run(
                self.record.as_mut_ptr(),
                self.record.len(),
                bits,
                input.as_ptr(),
                input.len(),
                output.as_mut_ptr(),
                output.len(),
            )
        })
    }

    /// The line as bytes, to be kept or handed on; they hold the key.
    pub fn record(&self) -> &[u8; FREE_RECORD_BYTES] {
        &self.record
    }

    /// The line that [`record`](FreeLine::record) gave, whose bytes come first
    /// here. Refused 9 if they are no free line's record.
    ///
    /// ```
    /// use tisarqluk::{Direction, FreeLine, Refusal, Settings};
    ///
    /// let direction = Direction::Receive;
    /// let settings = Settings { key: &[1; 16], iv: &[2; 16], pattern: 0x80, l: 1, direction };
    /// let line = FreeLine::open(&settings)?;
    /// assert_eq!(FreeLine::from_record(line.record())?, line);
    /// assert_eq!(FreeLine::from_record(&[0; 58]), Err(Refusal::Record));
    /// # Ok::<(), Refusal>(())
    /// ```
    pub fn from_record(bytes: &[u8]) -> Result<FreeLine, Refusal> {
        let record = *bytes.first_chunk().ok_or(Refusal::Record)?;
        let mut line = FreeLine { record };
        // A run of no bits changes nothing and is refused only with 9.
        line.run(0, &[], &mut [])?;
        Ok(line)
    }
}

/// Leaves the record out, since it holds the key.
impl fmt::Debug for FreeLine {
    fn fmt(&self, f: &mut fmt::Formatter<'_>) -> fmt::Result {
        f.debug_struct("FreeLine").finish_non_exhaustive()
    }
}
