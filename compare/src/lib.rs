//! The independent second program of Tisarqluk, and the library compared with it.

#[cfg(feature = "library")]
pub mod boundary;
pub mod differential;
pub mod entry;
pub mod layout;
pub mod reference;
