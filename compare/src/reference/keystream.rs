//! The keystream: AES of the counter, block after block (01, "The counter").

use super::aes;
use super::bits::unpack;
use super::counter;

/// A place in the keystream. `block` holds the bits of AES of the counter, and
/// follows from the key and the counter.
#[derive(Clone, Debug, PartialEq, Eq)]
pub struct Keystream {
    key: [u8; 16],
    counter: [u8; 16],
    place: usize,
    block: Vec<u8>,
}

impl Keystream {
    pub fn at(key: [u8; 16], counter: [u8; 16], place: usize) -> Keystream {
        let block = unpack(&aes::encipher(key, counter), 128);
        Keystream { key, counter, place, block }
    }

    pub fn key(&self) -> [u8; 16] {
        self.key
    }

    pub fn counter(&self) -> [u8; 16] {
        self.counter
    }

    /// How many bits of the counter's block are used.
    pub fn place(&self) -> usize {
        self.place
    }

    /// The next keystream bit. After a block's last bit the counter steps.
    pub fn next_bit(&mut self) -> u8 {
        let bit = self.block[self.place];
        if self.place < 127 {
            self.place += 1;
        } else {
            *self = Keystream::at(self.key, counter::step(self.counter), 0);
        }
        bit
    }
}

#[cfg(test)]
mod tests {
    use super::*;
    use crate::reference::bits::pack;

    #[test]
    fn the_first_block_is_aes_of_the_iv_itself_and_the_second_of_the_iv_stepped_once() {
        let (key, iv) = ([7; 16], [9; 16]);
        let stepped = counter::step(iv);
        let mut keystream = Keystream::at(key, iv, 0);
        let bits: Vec<u8> = (0..256).map(|_| keystream.next_bit()).collect();
        assert_eq!(pack(&bits), [aes::encipher(key, iv), aes::encipher(key, stepped)].concat());
        assert_eq!(keystream, Keystream::at(key, counter::step(stepped), 0));
    }
}
