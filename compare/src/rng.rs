//! Random numbers (splitmix64): the same seed gives the same cases.

pub struct Rng {
    state: u64,
}

impl Rng {
    pub fn new(seed: u64) -> Self {
        Self { state: seed }
    }

    pub fn next(&mut self) -> u64 {
        self.state = self.state.wrapping_add(0x9e37_79b9_7f4a_7c15);
        let mut z = self.state;
        z = (z ^ (z >> 30)).wrapping_mul(0xbf58_476d_1ce4_e5b9);
        z = (z ^ (z >> 27)).wrapping_mul(0x94d0_49bb_1331_11eb);
        z ^ (z >> 31)
    }

    /// A number below `bound`, which is not 0.
    pub fn below(&mut self, bound: usize) -> usize {
        (self.next() % bound as u64) as usize
    }

    /// A number from `low` to `high`, each end more often than by chance.
    pub fn between(&mut self, low: u64, high: u64) -> u64 {
        match self.below(8) {
            0 => low,
            1 => high,
            _ => {
                let random = self.next();
                (high - low).checked_add(1).map_or(random, |count| low + random % count)
            }
        }
    }

    pub fn one_in(&mut self, n: usize) -> bool {
        self.below(n) == 0
    }

    pub fn pick<T: Copy>(&mut self, choices: &[T]) -> T {
        choices[self.below(choices.len())]
    }

    /// Any number, the smallest and the largest more often than by chance.
    pub fn any(&mut self) -> u64 {
        if self.one_in(8) {
            self.pick(&[0, 1, u64::MAX, u64::MAX - 1])
        } else {
            self.next()
        }
    }

    pub fn fill(&mut self, bytes: &mut [u8]) {
        for chunk in bytes.chunks_mut(8) {
            let word = self.next().to_le_bytes();
            chunk.copy_from_slice(&word[..chunk.len()]);
        }
    }

    /// Any order of these items.
    pub fn shuffle<T>(&mut self, items: &mut [T]) {
        for i in 1..items.len() {
            items.swap(i, self.below(i + 1));
        }
    }

    /// Random bytes; now and then only zeros or only ones.
    pub fn bytes(&mut self, len: usize) -> Vec<u8> {
        let mut bytes = match self.below(16) {
            0 => return vec![0; len],
            1 => return vec![0xff; len],
            _ => vec![0; len],
        };
        self.fill(&mut bytes);
        bytes
    }
}
