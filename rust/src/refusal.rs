//! Why a call was refused.

use core::fmt;

/// The reason that a call was not done, with the number that the library gives.
///
/// ```
/// use tisarqluk::Refusal;
///
/// assert_eq!(Refusal::Closed.number(), 8);
/// assert_eq!(Refusal::Closed.to_string(), "refused 8: the paced line is already closed");
/// ```
#[derive(Clone, Copy, Debug, PartialEq, Eq, Hash)]
#[repr(u32)]
pub enum Refusal {
    /// The key is not 16 bytes.
    Key = 1,
    /// The IV is not 16 bytes.
    Iv = 2,
    /// L is 0 or above 11.
    L = 3,
    /// D is 0, or D(L + 1) > 128 L.
    D = 4,
    /// A run of more than [`RUN_BITS`](crate::RUN_BITS) bits.
    Run = 5,
    /// The input has fewer bytes than the bits need.
    Input = 6,
    /// The output has fewer bytes than needed.
    Output = 7,
    /// The paced line is already closed.
    Closed = 8,
    /// The bytes are no record of this kind, or are too few.
    Record = 9,
    /// A line file is malformed; the programs `linerun` and `syncs` give it.
    File = 10,
}

const ALL: [Refusal; 10] = [
    Refusal::Key,
    Refusal::Iv,
    Refusal::L,
    Refusal::D,
    Refusal::Run,
    Refusal::Input,
    Refusal::Output,
    Refusal::Closed,
    Refusal::Record,
    Refusal::File,
];

impl Refusal {
    /// The library's number, 1 to 10.
    pub fn number(self) -> u32 {
        self as u32
    }
}

/// What the library's number stands for; 0 is done.
pub(crate) fn result(number: u32) -> Result<(), Refusal> {
    if number == 0 {
        return Ok(());
    }
    match ALL.into_iter().find(|refusal| refusal.number() == number) {
        Some(refusal) => Err(refusal),
        None => panic!("libtisarqluk.a refuses with {number}, which this crate does not know"),
    }
}

impl fmt::Display for Refusal {
    fn fmt(&self, f: &mut fmt::Formatter<'_>) -> fmt::Result {
        let reason = match self {
            Refusal::Key => "the key is not 16 bytes",
            Refusal::Iv => "the IV is not 16 bytes",
            Refusal::L => "L is 0 or above 11",
            Refusal::D => "D is 0, or D(L + 1) > 128 L",
            Refusal::Run => "a run of more than 524,288 bits",
            Refusal::Input => "the input has fewer bytes than the bits need",
            Refusal::Output => "the output has fewer bytes than needed",
            Refusal::Closed => "the paced line is already closed",
            Refusal::Record => "the bytes are no record of this kind",
            Refusal::File => "the line file is malformed",
        };
        write!(f, "refused {}: {reason}", self.number())
    }
}

impl core::error::Error for Refusal {}
