//! Random numbers that a seed fixes on every machine (splitmix64), and f64s made from them by exact operations.

pub struct Random(u64);

impl Random {
    pub fn new(seed: u64) -> Self {
        Self(seed)
    }

    pub fn next(&mut self) -> u64 {
        self.0 = self.0.wrapping_add(0x9e37_79b9_7f4a_7c15);
        let mut z = self.0;
        z = (z ^ (z >> 30)).wrapping_mul(0xbf58_476d_1ce4_e5b9);
        z = (z ^ (z >> 27)).wrapping_mul(0x94d0_49bb_1331_11eb);
        z ^ (z >> 31)
    }

    /// A whole number under n.
    pub fn below(&mut self, n: usize) -> usize {
        ((u128::from(self.next()) * n as u128) >> 64) as usize
    }

    /// A whole number from a to b.
    pub fn range(&mut self, a: i64, b: i64) -> i64 {
        a + self.below((b - a + 1) as usize) as i64
    }

    /// True once in n times.
    pub fn once_in(&mut self, n: usize) -> bool {
        self.below(n) == 0
    }

    pub fn pick<T: Copy>(&mut self, list: &[T]) -> T {
        list[self.below(list.len())]
    }

    /// From 0 up to 1, a multiple of 2^-53.
    pub fn unit(&mut self) -> f64 {
        (self.next() >> 11) as f64 / 9007199254740992.0
    }

    pub fn between(&mut self, a: f64, b: f64) -> f64 {
        a + (b - a) * self.unit()
    }

    pub fn sign(&mut self, x: f64) -> f64 {
        if self.once_in(2) { -x } else { x }
    }

    /// Any bit pattern.
    pub fn bits(&mut self) -> f64 {
        f64::from_bits(self.next())
    }

    /// 2^low up to 2^(high+1), every exponent as likely; now and then with few binary places.
    pub fn scaled(&mut self, low: i64, high: i64) -> f64 {
        let mut mantissa = self.next() >> 12;
        match self.below(6) {
            0 => mantissa = 0,
            1 => mantissa &= 0xfff0_0000_0000_0000 >> 12,
            2 => mantissa |= (1 << 40) - 1,
            _ => {}
        }
        power_of_two(self.range(low, high)) * (1.0 + mantissa as f64 / 4503599627370496.0)
    }

    /// A NaN with any sign and payload, or an infinity.
    pub fn not_finite(&mut self) -> f64 {
        match self.below(4) {
            0 => f64::INFINITY,
            1 => f64::NEG_INFINITY,
            2 => f64::from_bits(0x7ff8_0000_0000_0000),
            _ => f64::from_bits(0x7ff0_0000_0000_0001 | self.next()),
        }
    }

    /// x or one of its neighbours up to n last bits away.
    pub fn near(&mut self, x: f64, n: i64) -> f64 {
        let steps = self.range(-n, n);
        moved(x, steps)
    }
}

/// 2^k for a normal or subnormal power.
pub fn power_of_two(k: i64) -> f64 {
    if k >= -1022 {
        f64::from_bits(((k + 1023) as u64) << 52)
    } else {
        f64::from_bits(1 << (k + 1074))
    }
}

/// The f64 that many last bits up or down.
pub fn moved(x: f64, steps: i64) -> f64 {
    let step = if steps < 0 { f64::next_down } else { f64::next_up };
    (0..steps.abs()).fold(x, |x, _| step(x))
}
