//! Random numbers from a fixed seed (splitmix64).

/// A stream of random numbers. The same seed, kind and case number give the same stream.
#[derive(Clone, Debug)]
pub struct Random {
    state: u64,
}

/// One round of splitmix64's mixing.
fn mix(value: u64) -> u64 {
    let a = (value ^ (value >> 30)).wrapping_mul(0xBF58_476D_1CE4_E5B9);
    let b = (a ^ (a >> 27)).wrapping_mul(0x94D0_49BB_1331_11EB);
    b ^ (b >> 31)
}

impl Random {
    /// The stream of one case: a seed, what kind of case, and the case's number.
    pub fn new(seed: u64, kind: u64, number: u64) -> Random {
        let first = mix(seed ^ 0x9E37_79B9_7F4A_7C15);
        let second = mix(first.wrapping_add(kind.wrapping_mul(0xD1B5_4A32_D192_ED03)));
        Random { state: mix(second.wrapping_add(number.wrapping_mul(0x9E6C_63D0_876A_3F35))) }
    }

    /// The next 64 random bits.
    pub fn bits(&mut self) -> u64 {
        self.state = self.state.wrapping_add(0x9E37_79B9_7F4A_7C15);
        mix(self.state)
    }

    /// A number below `count`; 0 when `count` is 0.
    pub fn below(&mut self, count: usize) -> usize {
        ((u128::from(self.bits()) * count as u128) >> 64) as usize
    }

    /// A number from `low` to `high`, both included (`low` when the range is empty).
    pub fn between(&mut self, low: i64, high: i64) -> i64 {
        if high <= low {
            return low;
        }
        low + self.below((high - low) as usize + 1) as i64
    }

    /// True once in `count` times on average.
    pub fn one_in(&mut self, count: usize) -> bool {
        self.below(count) == 0
    }

    /// True in `share` of 100 times on average.
    pub fn percent(&mut self, share: usize) -> bool {
        self.below(100) < share
    }

    /// Heads or tails.
    pub fn coin(&mut self) -> bool {
        self.bits() >> 63 == 1
    }

    /// Any byte.
    pub fn byte(&mut self) -> u8 {
        (self.bits() >> 56) as u8
    }

    /// One of the things given, which must not be empty.
    pub fn pick<'a, T>(&mut self, things: &'a [T]) -> &'a T {
        &things[self.below(things.len())]
    }

    /// A copy of one of the things given, which must not be empty.
    pub fn one_of<T: Copy>(&mut self, things: &[T]) -> T {
        things[self.below(things.len())]
    }

    /// Puts the things in a random order.
    pub fn shuffle<T>(&mut self, things: &mut [T]) {
        for i in (1..things.len()).rev() {
            let j = self.below(i + 1);
            things.swap(i, j);
        }
    }
}
