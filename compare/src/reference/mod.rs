//! The second program, written for reading: each file is a section of the
//! documents in their own words and order, and nothing is done for speed.

pub mod aes;
pub mod bits;
pub mod counter;
pub mod free;
pub mod keystream;
pub mod linefile;
pub mod mode;
pub mod paced;
pub mod refusal;
