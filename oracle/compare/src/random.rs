//! SplitMix64: small, and the same on every machine for the same seed.

pub struct Random(u64);

impl Random {
    pub fn new(seed: u64) -> Self {
        Random(seed)
    }

    pub fn next(&mut self) -> u64 {
        self.0 = self.0.wrapping_add(0x9E37_79B9_7F4A_7C15);
        let z = (self.0 ^ (self.0 >> 30)).wrapping_mul(0xBF58_476D_1CE4_E5B9);
        let z = (z ^ (z >> 27)).wrapping_mul(0x94D0_49BB_1331_11EB);
        z ^ (z >> 31)
    }

    pub fn number(&mut self) -> u32 {
        (self.next() >> 32) as u32
    }

    /// A number below a bound that is not 0; the slight bias does not matter here.
    pub fn below(&mut self, bound: u64) -> u64 {
        self.next() % bound
    }

    /// True once in so many times.
    pub fn once_in(&mut self, times: u64) -> bool {
        self.below(times) == 0
    }

    pub fn pick<T: Copy>(&mut self, choices: &[T]) -> T {
        choices[self.below(choices.len() as u64) as usize]
    }

    /// A number up to the limit, often at one of its ends.
    pub fn up_to(&mut self, limit: u32) -> u32 {
        match self.below(6) {
            0 => 0,
            1 => limit,
            2 => limit - limit.min(1),
            _ => self.below(u64::from(limit) + 1) as u32,
        }
    }

    /// A number up to the limit, or now and then one above it, if there is any.
    pub fn about(&mut self, limit: u32) -> u32 {
        let above = u32::MAX - limit;
        if above > 0 && self.once_in(8) {
            limit + 1 + self.up_to(above - 1)
        } else {
            self.up_to(limit)
        }
    }

    /// The numbers below a bound, in any order.
    pub fn shuffled(&mut self, bound: usize) -> Vec<usize> {
        let mut numbers: Vec<usize> = (0..bound).collect();
        for place in (1..bound).rev() {
            numbers.swap(place, self.below(place as u64 + 1) as usize);
        }
        numbers
    }

    pub fn bytes(&mut self, length: usize) -> Vec<u8> {
        (0..length).map(|_| self.next() as u8).collect()
    }
}
