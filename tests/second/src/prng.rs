//! A small generator of test numbers from a fixed seed: xorshift64*.

/// The generator's state.
#[derive(Clone, Debug)]
pub struct Prng(u64);

impl Prng {
    /// A generator from a seed; any seed will do.
    pub fn new(seed: u64) -> Prng {
        // Seeds are spread, so that 0 and small ones do as well as others.
        let spread = seed
            .wrapping_add(0x9E37_79B9_7F4A_7C15)
            .wrapping_mul(0xBF58_476D_1CE4_E5B9);
        let mut prng = Prng(if spread == 0 { 1 } else { spread });
        for _ in 0..8 {
            prng.next_bits();
        }
        prng
    }

    /// The next 64 bits.
    pub fn next_bits(&mut self) -> u64 {
        self.0 ^= self.0 >> 12;
        self.0 ^= self.0 << 25;
        self.0 ^= self.0 >> 27;
        self.0.wrapping_mul(0x2545_F491_4F6C_DD1D)
    }

    /// A number below `end` (not 0).
    pub fn below(&mut self, end: u64) -> u64 {
        ((self.next_bits() as u128 * end as u128) >> 64) as u64
    }

    /// A number from `first` to `last`, both included.
    pub fn between(&mut self, first: i64, last: i64) -> i64 {
        let span = (last as i128 - first as i128 + 1) as u64;
        (first as i128 + self.below(span) as i128) as i64
    }

    /// One of a list.
    pub fn pick<T: Copy>(&mut self, list: &[T]) -> T {
        list[self.below(list.len() as u64) as usize]
    }
}
