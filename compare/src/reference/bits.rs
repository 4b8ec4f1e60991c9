//! Bits packed into bytes, the first bit in the top bit of byte 0
//! (01, "Bits and settings"). Unpacked, a bit is the number 0 or 1.

/// How many bytes so many bits need.
pub fn bytes_for(bits: u64) -> u64 {
    bits.div_ceil(8)
}

/// The first `count` bits; unused low bits of the last byte are ignored.
pub fn unpack(bytes: &[u8], count: usize) -> Vec<u8> {
    let mut bits = Vec::new();
    for i in 0..count {
        bits.push((bytes[i / 8] >> (7 - i % 8)) & 1);
    }
    bits
}

/// The bits packed; unused low bits of the last byte are 0.
pub fn pack(bits: &[u8]) -> Vec<u8> {
    let mut bytes = vec![0; bits.len().div_ceil(8)];
    for (i, bit) in bits.iter().enumerate() {
        bytes[i / 8] |= bit << (7 - i % 8);
    }
    bytes
}

/// Writes the bits from the output's first bit on; later bytes stay.
pub fn write(bits: &[u8], output: &mut [u8]) {
    let bytes = pack(bits);
    output[..bytes.len()].copy_from_slice(&bytes);
}

#[cfg(test)]
mod tests {
    use super::*;

    #[test]
    fn the_first_bit_is_the_top_bit_of_byte_0() {
        assert_eq!(unpack(&[0x80, 0x01], 16)[0], 1);
        assert_eq!(unpack(&[0x80, 0x01], 16)[15], 1);
        assert_eq!(pack(&[1, 0, 0, 0, 0, 0, 0, 0, 1]), [0x80, 0x80]);
    }

    #[test]
    fn unused_low_bits_are_ignored_and_written_as_0() {
        assert_eq!(unpack(&[0xFF], 3), [1, 1, 1]);
        let mut output = [0xFF, 0xFF];
        write(&[0, 1, 0], &mut output);
        assert_eq!(output, [0x40, 0xFF]);
    }
}
