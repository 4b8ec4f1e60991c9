//! The numbers given instead of bits (01, "Numbers given instead of bits").

#[derive(Clone, Copy, Debug, PartialEq, Eq)]
pub enum Refusal {
    KeyNot16Bytes = 1,
    IvNot16Bytes = 2,
    LOutOfRange = 3,
    DOutOfRange = 4,
    RunTooLong = 5,
    InputTooShort = 6,
    OutputTooShort = 7,
    AlreadyClosed = 8,
    NoSuchState = 9,
    FileMalformed = 10,
}

impl Refusal {
    pub fn number(self) -> u32 {
        self as u32
    }
}

/// Gives the refusal where the thing it stands for is so.
pub fn refuse_if(so: bool, refusal: Refusal) -> Result<(), Refusal> {
    if so {
        Err(refusal)
    } else {
        Ok(())
    }
}
