//! One AES block.

use crate::c;
use crate::refusal::{result, Refusal};

/// Enciphers the first 16 bytes of the input with AES-128 into the first 16 of
/// the output. Tries refusals 1, 6, 7.
///
/// ```
/// use tisarqluk::{aes128, Refusal};
///
/// // FIPS 197, appendix C.1.
/// let key: [u8; 16] = core::array::from_fn(|i| i as u8);
/// let input: [u8; 16] = core::array::from_fn(|i| 0x11 * i as u8);
/// let mut output = [0; 16];
/// aes128(&key, &input, &mut output)?;
/// assert_eq!(u128::from_be_bytes(output), 0x69c4e0d86a7b0430d8cdb78070b4c55a);
///
/// assert_eq!(aes128(&key[1..], &input, &mut output), Err(Refusal::Key));
/// # Ok::<(), Refusal>(())
/// ```
pub fn aes128(key: &[u8], input: &[u8], output: &mut [u8]) -> Result<(), Refusal> {
    // Each pointer is good for its length, and the output is borrowed alone.
    result(unsafe {
        c::tq_aes128(
            key.as_ptr(),
            key.len(),
            input.as_ptr(),
            input.len(),
            output.as_mut_ptr(),
            output.len(),
        )
    })
}
