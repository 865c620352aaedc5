//! The source of all chance in a run: splitmix64, seeded by the run's seed and the case's number,
//! so that any case can be made again alone.

pub struct Rng(u64);

impl Rng {
    /// `stream` keeps apart what makes a case (0), what the comparison draws for it (1), what a file of cases draws (2), and what is
    /// drawn for the block writer (3).
    pub fn new(seed: u64, case: u64, stream: u64) -> Rng {
        let mut rng = Rng(seed ^ 0x5269_6770_6f6c_6c65);
        for part in [case, stream] {
            rng.0 = rng.next() ^ part.wrapping_mul(0xd6e8_feb8_6659_fd93);
        }
        rng.next();
        rng
    }

    pub fn next(&mut self) -> u64 {
        self.0 = self.0.wrapping_add(0x9e37_79b9_7f4a_7c15);
        let mut z = self.0;
        z = (z ^ (z >> 30)).wrapping_mul(0xbf58_476d_1ce4_e5b9);
        z = (z ^ (z >> 27)).wrapping_mul(0x94d0_49bb_1331_11eb);
        z ^ (z >> 31)
    }

    pub fn word(&mut self) -> u32 {
        (self.next() >> 32) as u32
    }

    /// A number below `n`; 0 if `n` is 0.
    pub fn below(&mut self, n: u64) -> u64 {
        ((self.next() as u128 * n as u128) >> 64) as u64
    }

    /// A number from `low` to `high`, both included.
    pub fn between(&mut self, low: u64, high: u64) -> u64 {
        low + self.below(high.saturating_sub(low) + 1)
    }

    /// An index into a list of `n` things.
    pub fn index(&mut self, n: usize) -> usize {
        self.below(n as u64) as usize
    }

    pub fn chance(&mut self, percent: u64) -> bool {
        self.below(100) < percent
    }

    pub fn pick<T: Copy>(&mut self, list: &[T]) -> T {
        list[self.index(list.len())]
    }

    pub fn fill(&mut self, bytes: &mut [u8]) {
        let mut parts = bytes.chunks_exact_mut(8);
        for part in &mut parts {
            part.copy_from_slice(&self.next().to_le_bytes());
        }
        let last = self.next().to_le_bytes();
        for (byte, value) in parts.into_remainder().iter_mut().zip(last) {
            *byte = value;
        }
    }

    pub fn bytes(&mut self, len: u64) -> Vec<u8> {
        let mut bytes = vec![0; len as usize];
        self.fill(&mut bytes);
        bytes
    }
}
