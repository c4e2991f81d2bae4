//! A small generator of pseudo-random numbers, so that the generated cases are
//! the same on every run.

/// The seed of all generated cases.
pub const SEED: u64 = 1_720_090_107;

/// The state of the generator (the method known as splitmix64).
pub struct Random {
    state: u64,
}

impl Random {
    /// A generator for one use of the fixed seed, told apart from the others by
    /// its number.
    pub fn for_use(number: u64) -> Random {
        let mut seeded = Random {
            state: SEED.wrapping_add(number),
        };
        let state = seeded.number();
        Random { state }
    }

    /// A generator for one use of any seed.
    pub fn seeded(seed: u64, number: u64) -> Random {
        let mut first = Random { state: seed };
        let mut second = Random {
            state: first.number().wrapping_add(number),
        };
        let state = second.number();
        Random { state }
    }

    /// The next number.
    pub fn number(&mut self) -> u64 {
        self.state = self.state.wrapping_add(0x9E37_79B9_7F4A_7C15);
        let mut mixed = self.state;
        mixed = (mixed ^ (mixed >> 30)).wrapping_mul(0xBF58_476D_1CE4_E5B9);
        mixed = (mixed ^ (mixed >> 27)).wrapping_mul(0x94D0_49BB_1331_11EB);
        mixed ^ (mixed >> 31)
    }

    /// A number from 0 to `limit` - 1.
    pub fn below(&mut self, limit: usize) -> usize {
        (self.number() % limit as u64) as usize
    }

    /// True once in `times` times.
    pub fn once_in(&mut self, times: usize) -> bool {
        self.below(times) == 0
    }

    /// One of the items.
    pub fn pick<T: Copy>(&mut self, items: &[T]) -> T {
        items[self.below(items.len())]
    }

    /// Any byte.
    pub fn byte(&mut self) -> u8 {
        self.below(256) as u8
    }
}
