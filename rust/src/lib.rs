//! Tisarqluk: bit streams enciphered on lines that may lose or gain bits.
//!
//! A line enciphers with AES-128 in pipelined statistical cipher feedback. Both
//! ends look for an 8-bit pattern in the bits on the line. After each pattern a
//! blackout of 128 L line bits begins, whose first 128 are the IV of a new
//! counter that takes over where the blackout ends. So an end that missed or
//! made up a bit falls back into step with the other by itself.
//!
//! A [`FreeLine`] answers each bit at once. A [`PacedLine`] takes D bits and gives
//! D places at each tick, at a fixed rate, whatever the pattern does.
//!
//! Bits are packed into bytes, the first in the top bit of byte 0. Unused low bits
//! of a last byte are ignored on reading and written as 0; an output longer than
//! needed keeps its later bytes. A call that is refused changes nothing.
//!
//! ```
//! use tisarqluk::{Direction, FreeLine, Settings};
//!
//! let settings = Settings {
//!     key: &[7; 16],
//!     iv: &[9; 16],
//!     pattern: 0x80,
//!     l: 11,
//!     direction: Direction::Send,
//! };
//! let mut here = FreeLine::open(&settings)?;
//! let mut there = FreeLine::open(&Settings { direction: Direction::Receive, ..settings })?;
//!
//! let (mut line, mut recovered) = ([0; 5], [0; 5]);
//! here.run(40, b"hello", &mut line)?;
//! there.run(40, &line, &mut recovered)?;
//! assert_eq!(&recovered, b"hello");
//! # Ok::<(), tisarqluk::Refusal>(())
//! ```

#![no_std]
#![warn(missing_docs)]

mod block;
mod c;
mod free;
mod paced;
mod refusal;
mod settings;

pub use block::aes128;
pub use free::{FreeLine, FREE_RECORD_BYTES, RUN_BITS};
pub use paced::{Moved, PacedLine, CLOSE_BYTES, PACED_RECORD_BYTES, TICK_BYTES};
pub use refusal::Refusal;
pub use settings::{Direction, Settings};
