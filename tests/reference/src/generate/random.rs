//! A small deterministic generator of random numbers (SplitMix64).

pub struct Random(u64);

impl Random {
    pub fn new(seed: u64) -> Random {
        Random(seed)
    }

    pub fn number64(&mut self) -> u64 {
        self.0 = self.0.wrapping_add(0x9E37_79B9_7F4A_7C15);
        let mut mixed = self.0;
        mixed = (mixed ^ (mixed >> 30)).wrapping_mul(0xBF58_476D_1CE4_E5B9);
        mixed = (mixed ^ (mixed >> 27)).wrapping_mul(0x94D0_49BB_1331_11EB);
        mixed ^ (mixed >> 31)
    }

    /// A number below the bound, which is not 0. The bounds are small, so the remainder is even
    /// enough.
    pub fn below(&mut self, bound: usize) -> usize {
        (self.number64() % bound as u64) as usize
    }

    /// True in the given number of cases out of 16.
    pub fn sixteenths(&mut self, part: usize) -> bool {
        self.below(16) < part
    }

    /// One of the choices, which are not empty.
    pub fn pick<T: Copy>(&mut self, choices: &[T]) -> T {
        choices[self.below(choices.len())]
    }

    /// One of the choices, or the other value where there are none.
    pub fn pick_or<T: Copy>(&mut self, choices: &[T], other: T) -> T {
        if choices.is_empty() {
            return other;
        }
        self.pick(choices)
    }

    /// The flags, each set in the given number of cases out of 16.
    pub fn flags(&mut self, odds: &[(u8, usize)]) -> u8 {
        let mut flags = 0;
        for &(flag, part) in odds {
            if self.sixteenths(part) {
                flags |= flag;
            }
        }
        flags
    }

    pub fn shuffle<T>(&mut self, items: &mut [T]) {
        for last in (1..items.len()).rev() {
            items.swap(last, self.below(last + 1));
        }
    }

    pub fn number16(&mut self) -> u16 {
        self.number64() as u16
    }

    pub fn number32(&mut self) -> u32 {
        self.number64() as u32
    }

    pub fn byte(&mut self) -> u8 {
        self.number64() as u8
    }
}
