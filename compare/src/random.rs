//! Numbers that look random and are the same in every run: xorshift64* (Vigna, "An experimental exploration of
//! Marsaglia's xorshift generators, scrambled", 2016).

pub(crate) struct Random(u64);

impl Random {
    /// `seed` must not be 0, where the generator would stay.
    pub(crate) fn new(seed: u64) -> Self {
        assert_ne!(seed, 0);
        Random(seed)
    }

    pub(crate) fn next(&mut self) -> u64 {
        self.0 ^= self.0 >> 12;
        self.0 ^= self.0 << 25;
        self.0 ^= self.0 >> 27;
        self.0.wrapping_mul(0x2545_f491_4f6c_dd1d)
    }

    /// A number below `end`. It goes by the high bits, which are this generator's better ones.
    pub(crate) fn below(&mut self, end: usize) -> usize {
        ((self.next() as u128 * end as u128) >> 64) as usize
    }

    /// A number below `end`, which is halved fewer than `times` times before, so that low ones are more common. `end` must
    /// stay above 0.
    pub(crate) fn low(&mut self, end: usize, times: usize) -> usize {
        let halved = end >> self.below(times);
        self.below(halved)
    }

    /// A number of `bits` bits, 1 to 64, the highest of them 1.
    pub(crate) fn of_bits(&mut self, bits: usize) -> u64 {
        (self.next() | 1 << 63) >> (64 - bits)
    }

    /// A number whose bit length is drawn first, so that short ones are as common as long ones.
    pub(crate) fn value(&mut self) -> u64 {
        let bits = 1 + self.below(64);
        self.of_bits(bits)
    }

    pub(crate) fn bytes(&mut self, length: usize) -> Vec<u8> {
        (0..length).map(|_| (self.next() >> 56) as u8).collect()
    }

    /// The same, other bytes, eight from each number: for long buffers.
    pub(crate) fn fill(&mut self, bytes: &mut [u8]) {
        for eight in bytes.chunks_mut(8) {
            eight.copy_from_slice(&self.next().to_le_bytes()[..eight.len()]);
        }
    }

    pub(crate) fn shuffle<T>(&mut self, items: &mut [T]) {
        for last in (1..items.len()).rev() {
            items.swap(last, self.below(last + 1));
        }
    }
}
