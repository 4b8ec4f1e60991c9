//! Repeatable random choices (splitmix64), and the seed that they come from.

pub struct Random {
    state: u64,
}

impl Random {
    /// The choices of one case of one check.
    pub fn new(seed: u64, check: &str, case: u64) -> Random {
        let mut random = Random { state: seed };
        for number in check.bytes().map(u64::from).chain([case]) {
            random.state = random.next_number() ^ number;
        }
        random
    }

    fn next_number(&mut self) -> u64 {
        self.state = self.state.wrapping_add(0x9E37_79B9_7F4A_7C15);
        let mut z = self.state;
        z = (z ^ (z >> 30)).wrapping_mul(0xBF58_476D_1CE4_E5B9);
        z = (z ^ (z >> 27)).wrapping_mul(0x94D0_49BB_1331_11EB);
        z ^ (z >> 31)
    }

    /// A number from 0 to `limit` - 1.
    pub fn below(&mut self, limit: usize) -> usize {
        (self.next_number() % limit as u64) as usize
    }

    /// Yes, once in `times`.
    pub fn once_in(&mut self, times: usize) -> bool {
        self.below(times) == 0
    }

    pub fn one_of<T: Copy>(&mut self, choices: &[T]) -> T {
        choices[self.below(choices.len())]
    }

    pub fn byte(&mut self) -> u8 {
        self.below(256) as u8
    }

    pub fn bytes(&mut self, count: usize) -> Vec<u8> {
        (0..count).map(|_| self.byte()).collect()
    }

    pub fn bits(&mut self, count: usize) -> Vec<u8> {
        (0..count).map(|_| self.below(2) as u8).collect()
    }

    /// Sixteen bytes, now and then all equal.
    pub fn sixteen(&mut self) -> [u8; 16] {
        if self.once_in(8) {
            [self.one_of(&[0x00, 0xFF]); 16]
        } else {
            std::array::from_fn(|_| self.byte())
        }
    }
}

/// 1, or the number in the environment variable TISARQLUK_SEED.
pub fn seed() -> u64 {
    match std::env::var("TISARQLUK_SEED") {
        Ok(text) => text.parse().expect("TISARQLUK_SEED is a decimal number below 2^64"),
        Err(_) => 1,
    }
}
