//! The paced line.

use crate::c;
use crate::refusal::{result, Refusal};
use crate::settings::Settings;
use core::fmt;

/// The bytes of a paced line's record.
pub const PACED_RECORD_BYTES: usize = 126;

/// Output that is enough for any tick.
pub const TICK_BYTES: usize = 15;

/// Output that is enough for any closing.
pub const CLOSE_BYTES: usize = 60;

/// A line that takes D bits and gives D places at each tick.
#[derive(Clone, PartialEq, Eq)]
pub struct PacedLine {
    record: [u8; PACED_RECORD_BYTES],
}

/// What a tick or a closing did.
#[derive(Clone, Copy, Debug, PartialEq, Eq)]
pub struct Moved {
    /// The number of bits written to the output.
    pub bits: usize,
    /// The number of bits that wait in the line.
    pub waiting: usize,
}

impl PacedLine {
    /// Opens a line with the rate D. Tries refusals 1, 2, 3, 4.
    ///
    /// ```
    /// use tisarqluk::{Direction, PacedLine, Refusal, Settings};
    ///
    /// let direction = Direction::Send;
    /// let settings = Settings { key: &[1; 16], iv: &[2; 16], pattern: 0x80, l: 1, direction };
    /// assert!(PacedLine::open(&settings, 64).is_ok());
    /// assert_eq!(PacedLine::open(&settings, 65), Err(Refusal::D));
    /// ```
    pub fn open(settings: &Settings, d: u64) -> Result<PacedLine, Refusal> {
        let mut record = [0; PACED_RECORD_BYTES];
        // Each pointer is good for its length, and the record is ours alone.
        result(unsafe {
            c::tq_paced_open(
                record.as_mut_ptr(),
                record.len(),
                settings.key.as_ptr(),
                settings.key.len(),
                settings.iv.as_ptr(),
                settings.iv.len(),
                settings.pattern,
                settings.l,
                settings.direction.number(),
                d,
            )
        })?;
        Ok(PacedLine { record })
    }

    /// Takes D bits of the input and writes the bits that leave the line: none
    /// while it still has places without bits, then up to D. Both buffers need
    /// bytes for D bits. Tries refusals 8, 6, 7.
    ///
    /// ```
    /// use tisarqluk::{Direction, PacedLine, Refusal, Settings};
    ///
    /// let direction = Direction::Send;
    /// let settings = Settings { key: &[1; 16], iv: &[2; 16], pattern: 0x80, l: 1, direction };
    /// let mut line = PacedLine::open(&settings, 64)?;
    /// let mut output = [0; 8];
    /// for bits in [0, 0, 0, 0, 2, 64] {
    ///     let moved = line.tick(b"64 bits.", &mut output)?;
    ///     assert_eq!(moved.bits, bits);
    /// }
    /// # Ok::<(), Refusal>(())
    /// ```
    pub fn tick(&mut self, input: &[u8], output: &mut [u8]) -> Result<Moved, Refusal> {
        // Each pointer is good for its length; record and output are borrowed alone.
        moved(unsafe {
            c::tq_paced_tick(
                self.record.as_mut_ptr(),
                self.record.len(),
                input.as_ptr(),
                input.len(),
                output.as_mut_ptr(),
                output.len(),
            )
        })
    }

    /// Writes all the bits that are still in the line, and closes it: later
    /// ticks and closings are refused 8. Tries refusals 8, 7.
    ///
    /// ```
    /// use tisarqluk::{Direction, PacedLine, Refusal, Settings, CLOSE_BYTES};
    ///
    /// let direction = Direction::Send;
    /// let settings = Settings { key: &[1; 16], iv: &[2; 16], pattern: 0x80, l: 1, direction };
    /// let mut line = PacedLine::open(&settings, 64)?;
    /// let mut output = [0; CLOSE_BYTES];
    /// line.tick(b"64 bits.", &mut output)?;
    /// assert_eq!(line.close(&mut output)?.bits, 64);
    /// assert_eq!(line.tick(b"64 bits.", &mut output), Err(Refusal::Closed));
    /// # Ok::<(), Refusal>(())
    /// ```
    pub fn close(&mut self, output: &mut [u8]) -> Result<Moved, Refusal> {
        // As for a tick.
        moved(unsafe {
            c::tq_paced_close(
                self.record.as_mut_ptr(),
                self.record.len(),
                output.as_mut_ptr(),
                output.len(),
            )
        })
    }

    /// The line as bytes, to be kept or handed on; they hold the key.
    pub fn record(&self) -> &[u8; PACED_RECORD_BYTES] {
        &self.record
    }

    /// The line that [`record`](PacedLine::record) gave, open or closed, whose
    /// bytes come first here. Refused 9 if they are no paced line's record.
    ///
    /// ```
    /// use tisarqluk::{Direction, PacedLine, Refusal, Settings};
    ///
    /// let direction = Direction::Receive;
    /// let settings = Settings { key: &[1; 16], iv: &[2; 16], pattern: 0x80, l: 1, direction };
    /// let line = PacedLine::open(&settings, 64)?;
    /// assert_eq!(PacedLine::from_record(line.record())?, line);
    /// assert_eq!(PacedLine::from_record(&[0; 126]), Err(Refusal::Record));
    /// # Ok::<(), Refusal>(())
    /// ```
    pub fn from_record(bytes: &[u8]) -> Result<PacedLine, Refusal> {
        let record = *bytes.first_chunk().ok_or(Refusal::Record)?;
        let mut line = PacedLine { record };
        // A tick without input changes nothing: it is refused with 9 first, with
        // 8 if the line is closed, and else with 6.
        match line.tick(&[], &mut []) {
            Err(Refusal::Record) => Err(Refusal::Record),
            _ => Ok(line),
        }
    }
}

fn moved(answer: c::Answer) -> Result<Moved, Refusal> {
    result(answer.refusal)?;
    Ok(Moved { bits: answer.bits as usize, waiting: answer.waiting as usize })
}

/// Leaves the record out, since it holds the key.
impl fmt::Debug for PacedLine {
    fn fmt(&self, f: &mut fmt::Formatter<'_>) -> fmt::Result {
        f.debug_struct("PacedLine").finish_non_exhaustive()
    }
}
