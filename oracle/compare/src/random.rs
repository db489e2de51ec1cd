//! A small generator of pseudo-random numbers (xorshift), so that a seed gives the same run everywhere.

pub struct Random(u64);

impl Random {
    pub fn new(seed: u64) -> Self {
        let mut r = Random(seed.wrapping_mul(0x9e3779b97f4a7c15) | 1);
        for _ in 0..8 {
            r.next();
        }
        r
    }
    pub fn next(&mut self) -> u64 {
        self.0 ^= self.0 << 13;
        self.0 ^= self.0 >> 7;
        self.0 ^= self.0 << 17;
        self.0
    }
    pub fn word(&mut self) -> u32 {
        (self.next() >> 16) as u32
    }
    pub fn byte(&mut self) -> u8 {
        (self.next() >> 24) as u8
    }
    /// A number from 0 to n - 1.
    pub fn below(&mut self, n: usize) -> usize {
        ((self.next() >> 11) % n as u64) as usize
    }
    pub fn between(&mut self, low: usize, high: usize) -> usize {
        low + self.below(high - low + 1)
    }
    /// True one time in n.
    pub fn one_in(&mut self, n: usize) -> bool {
        self.below(n) == 0
    }
    pub fn pick<T: Copy>(&mut self, from: &[T]) -> T {
        from[self.below(from.len())]
    }
    /// From -1 to 1.
    pub fn unit(&mut self) -> f32 {
        (self.next() >> 40) as f32 / 8388608.0 - 1.0
    }
    /// Any pattern: numbers of every size, zeros, denormals, infinities, NaN.
    pub fn bits(&mut self) -> u32 {
        let word = self.word();
        match self.below(8) {
            0 => word,
            1 => 0x7f800000 | word & 0x80ffffff,
            2 => word & 0x80000000,
            3 => word & 0x807fffff,
            4 => 0x7f800000 | word & 0x80000000,
            _ => self.unit().to_bits(),
        }
    }
    /// A finite float: mostly moderate, now and then huge, tiny, denormal or a zero of either sign.
    pub fn finite(&mut self) -> f32 {
        let unit = self.unit();
        match self.below(24) {
            0 => unit * 3.4e38,
            1 => unit * 1e20,
            2 => unit * 1e-20,
            3 => f32::from_bits(self.word() & 0x807fffff),
            4 => f32::from_bits(self.word() & 0x80000000),
            5 => self.pick(&[1.0, -1.0, 0.5, 2.0, f32::MAX, f32::MIN, f32::MIN_POSITIVE]),
            6 => f32::from_bits(self.word() & 0xbf7fffff),
            _ => unit,
        }
    }
    pub fn shuffle<T>(&mut self, items: &mut [T]) {
        for i in (1..items.len()).rev() {
            items.swap(i, self.below(i + 1));
        }
    }
}
