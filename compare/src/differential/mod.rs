//! The differential tests: the library's entry points and programs against the
//! second program's, on random and adversarial cases.
//!
//! Each check gives the library and the second program the same calls, and holds
//! the answer, the record and the output of each call against each other. They
//! stand here and not in `tests/`, so that they can be run on any entry points:
//! on the library, on the second program itself, and on lines that are wrong on
//! purpose, which the checks have to notice.

pub mod blocks;
pub mod case;
pub mod damage;
pub mod files;
pub mod free_lines;
pub mod paced_lines;
pub mod random;
pub mod refusals;
pub mod states;
pub mod streams;

use crate::entry::EntryPoints;
use case::Difference;

/// A check on entry points, from a seed.
pub type Check = fn(&dyn EntryPoints, u64) -> Result<(), Difference>;

/// Runs checks until one of them finds a difference.
pub fn run(checks: &[Check], library: &dyn EntryPoints, seed: u64) -> Result<(), Difference> {
    checks.iter().try_for_each(|check| check(library, seed))
}
