//! AES-128 enciphering of one block, in the order of FIPS 197.

use super::refusal::{refuse_if, Refusal};

/// FIPS 197, 3.4: `state[row][column]`.
type State = [[u8; 4]; 4];

const ROUNDS: usize = 10;

/// FIPS 197, 4.2: x times the polynomial, modulo x^8 + x^4 + x^3 + x + 1.
fn xtime(a: u8) -> u8 {
    let doubled = a << 1;
    if a & 0x80 == 0 {
        doubled
    } else {
        doubled ^ 0x1B
    }
}

/// FIPS 197, 4.2: the product in the field of 256 elements.
pub fn multiply(a: u8, b: u8) -> u8 {
    let mut product = 0;
    let mut power = a;
    for i in 0..8 {
        if (b >> i) & 1 == 1 {
            product ^= power;
        }
        power = xtime(power);
    }
    product
}

/// The b with a times b equal to 1; 0 stands for its own inverse.
fn inverse(a: u8) -> u8 {
    (1..=255).find(|&b| multiply(a, b) == 1).unwrap_or(0)
}

/// FIPS 197, 5.1.1: the affine map, bit i from bits i, i + 4, i + 5, i + 6 and
/// i + 7 modulo 8, and bit i of 63.
fn affine(b: u8) -> u8 {
    let bit = |i: usize| (b >> (i % 8)) & 1;
    let mut result = 0;
    for i in 0..8 {
        let sum = bit(i) ^ bit(i + 4) ^ bit(i + 5) ^ bit(i + 6) ^ bit(i + 7);
        result |= (sum ^ ((0x63 >> i) & 1)) << i;
    }
    result
}

/// The S-box by its rule, worked out once for all 256 bytes.
pub fn sbox(byte: u8) -> u8 {
    static TABLE: std::sync::OnceLock<Vec<u8>> = std::sync::OnceLock::new();
    TABLE.get_or_init(|| (0..=255).map(|a| affine(inverse(a))).collect())[byte as usize]
}

/// FIPS 197, 5.1.1.
fn sub_bytes(state: State) -> State {
    state.map(|row| row.map(sbox))
}

/// FIPS 197, 5.1.2: row r moves r places to the left.
fn shift_rows(state: State) -> State {
    let mut shifted = [[0; 4]; 4];
    for r in 0..4 {
        for c in 0..4 {
            shifted[r][c] = state[r][(c + r) % 4];
        }
    }
    shifted
}

/// FIPS 197, 5.1.3: each column times the fixed matrix.
fn mix_columns(state: State) -> State {
    const MATRIX: [[u8; 4]; 4] = [[2, 3, 1, 1], [1, 2, 3, 1], [1, 1, 2, 3], [3, 1, 1, 2]];
    let mut mixed = [[0; 4]; 4];
    for r in 0..4 {
        for c in 0..4 {
            for k in 0..4 {
                mixed[r][c] ^= multiply(MATRIX[r][k], state[k][c]);
            }
        }
    }
    mixed
}

/// FIPS 197, 5.1.4: word c of the round key is added to column c.
fn add_round_key(state: State, round_key: &[[u8; 4]]) -> State {
    let mut sum = [[0; 4]; 4];
    for r in 0..4 {
        for c in 0..4 {
            sum[r][c] = state[r][c] ^ round_key[c][r];
        }
    }
    sum
}

/// FIPS 197, 5.2: 44 words of four bytes, four for each round key.
fn expand_key(key: [u8; 16]) -> Vec<[u8; 4]> {
    let mut words: Vec<[u8; 4]> = Vec::new();
    for i in 0..4 {
        words.push([key[4 * i], key[4 * i + 1], key[4 * i + 2], key[4 * i + 3]]);
    }
    let mut round_constant = 1;
    for i in 4..4 * (ROUNDS + 1) {
        let mut word = words[i - 1];
        if i % 4 == 0 {
            word.rotate_left(1);
            word = word.map(sbox);
            word[0] ^= round_constant;
            round_constant = xtime(round_constant);
        }
        for (byte, earlier) in word.iter_mut().zip(words[i - 4]) {
            *byte ^= earlier;
        }
        words.push(word);
    }
    words
}

/// FIPS 197, 5.1: the cipher.
pub fn encipher(key: [u8; 16], input: [u8; 16]) -> [u8; 16] {
    let words = expand_key(key);
    let round_key = |round: usize| &words[4 * round..4 * round + 4];

    let mut state = [[0; 4]; 4];
    for (i, byte) in input.iter().enumerate() {
        state[i % 4][i / 4] = *byte;
    }
    state = add_round_key(state, round_key(0));
    for round in 1..ROUNDS {
        state = add_round_key(mix_columns(shift_rows(sub_bytes(state))), round_key(round));
    }
    state = add_round_key(shift_rows(sub_bytes(state)), round_key(ROUNDS));

    let mut output = [0; 16];
    for (i, byte) in output.iter_mut().enumerate() {
        *byte = state[i % 4][i / 4];
    }
    output
}

/// One block from byte slices: tries 1, 6, 7, with 16 bytes needed on each side.
pub fn encipher_slices(key: &[u8], input: &[u8], output: &mut [u8]) -> Result<(), Refusal> {
    let key = key.try_into().map_err(|_| Refusal::KeyNot16Bytes)?;
    refuse_if(input.len() < 16, Refusal::InputTooShort)?;
    refuse_if(output.len() < 16, Refusal::OutputTooShort)?;
    let mut block = [0; 16];
    block.copy_from_slice(&input[..16]);
    output[..16].copy_from_slice(&encipher(key, block));
    Ok(())
}

#[cfg(test)]
mod tests {
    use super::*;

    #[test]
    fn fips_197_appendix_a_1() {
        let key = 0x2b7e151628aed2a6abf7158809cf4f3c_u128.to_be_bytes();
        let words = expand_key(key);
        assert_eq!(words[4], [0xa0, 0xfa, 0xfe, 0x17]);
        assert_eq!(words[43], [0xb6, 0x63, 0x0c, 0xa6]);
    }

    #[test]
    fn fips_197_appendix_b() {
        let key = 0x2b7e151628aed2a6abf7158809cf4f3c_u128.to_be_bytes();
        let input = 0x3243f6a8885a308d313198a2e0370734_u128.to_be_bytes();
        let output = 0x3925841d02dc09fbdc118597196a0b32_u128.to_be_bytes();
        assert_eq!(encipher(key, input), output);
    }

    #[test]
    fn fips_197_appendix_c_1() {
        let key = 0x000102030405060708090a0b0c0d0e0f_u128.to_be_bytes();
        let input = 0x00112233445566778899aabbccddeeff_u128.to_be_bytes();
        let output = 0x69c4e0d86a7b0430d8cdb78070b4c55a_u128.to_be_bytes();
        assert_eq!(encipher(key, input), output);
    }

    #[test]
    fn fips_197_4_2_multiplies_57_by_13() {
        assert_eq!(multiply(0x57, 0x13), 0xFE);
    }

    #[test]
    fn one_block_tries_1_then_6_then_7() {
        let mut output = [0xEE; 17];
        let mut answer = |key, input, output_bytes: usize| {
            let key = vec![0; key];
            encipher_slices(&key, &vec![0; input], &mut output[..output_bytes])
        };
        assert_eq!(answer(15, 15, 15), Err(Refusal::KeyNot16Bytes));
        assert_eq!(answer(17, 16, 16), Err(Refusal::KeyNot16Bytes));
        assert_eq!(answer(16, 15, 15), Err(Refusal::InputTooShort));
        assert_eq!(answer(16, 16, 15), Err(Refusal::OutputTooShort));
        assert_eq!(answer(16, 17, 17), Ok(()));
        assert_eq!(output[16], 0xEE);
    }
}
