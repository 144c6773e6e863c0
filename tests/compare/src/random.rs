//! A seeded xorshift generator.

use std::time::{SystemTime, UNIX_EPOCH};

/// The generator's state, never 0.
pub struct Random(u64);

impl Random {
    /// The generator of input `index` under `seed`. Each input has its own, so
    /// that one input can be made again alone.
    pub fn of_input(seed: u64, index: u64) -> Random {
        let mixed = mix(seed ^ mix(index.wrapping_add(1)));
        Random(if mixed == 0 { 1 } else { mixed })
    }

    pub fn new(seed: u64) -> Random {
        Random::of_input(seed, 0)
    }

    /// The next 64 bits (xorshift64*).
    fn step(&mut self) -> u64 {
        self.0 ^= self.0 >> 12;
        self.0 ^= self.0 << 25;
        self.0 ^= self.0 >> 27;
        self.0.wrapping_mul(0x2545_F491_4F6C_DD1D)
    }

    /// Any word.
    pub fn word(&mut self) -> u32 {
        (self.step() >> 32) as u32
    }

    /// A number from `least` to `greatest`, both included.
    pub fn between(&mut self, least: u32, greatest: u32) -> u32 {
        let span = u64::from(greatest) - u64::from(least) + 1;
        least + ((u64::from(self.word()) * span) >> 32) as u32
    }

    /// An index below `length`, which is not 0.
    pub fn below(&mut self, length: usize) -> usize {
        self.between(0, length as u32 - 1) as usize
    }

    /// True in `percent` of 100 cases.
    pub fn chance(&mut self, percent: u32) -> bool {
        self.between(1, 100) <= percent
    }

    /// One of the given.
    pub fn pick<T: Copy>(&mut self, from: &[T]) -> T {
        from[self.below(from.len())]
    }

    pub fn shuffle<T>(&mut self, items: &mut [T]) {
        for last in (1..items.len()).rev() {
            let other = self.below(last + 1);
            items.swap(last, other);
        }
    }

    /// A number from 1 to `greatest`, often an end of that range.
    pub fn number(&mut self, greatest: u32) -> u32 {
        match self.between(0, 4) {
            0 => 1,
            1 => greatest,
            2 => self.between(1, greatest.min(9)),
            3 => self.between(1, greatest.min(100)),
            _ => self.between(1, greatest),
        }
    }
}

/// A seed from the clock.
pub fn clock_seed() -> u64 {
    let since = SystemTime::now().duration_since(UNIX_EPOCH);
    since.map_or(1, |since| since.as_nanos() as u64)
}

/// The finalizer of splitmix64.
fn mix(value: u64) -> u64 {
    let mut z = value.wrapping_add(0x9E37_79B9_7F4A_7C15);
    z = (z ^ (z >> 30)).wrapping_mul(0xBF58_476D_1CE4_E5B9);
    z = (z ^ (z >> 27)).wrapping_mul(0x94D0_49BB_1331_11EB);
    z ^ (z >> 31)
}

#[cfg(test)]
mod tests {
    use super::*;

    #[test]
    fn the_same_seed_gives_the_same_numbers() {
        let (mut a, mut b) = (Random::of_input(3, 5), Random::of_input(3, 5));
        let mut other = Random::of_input(3, 6);
        let numbers: Vec<u32> = (0..8).map(|_| a.word()).collect();
        assert_eq!(numbers, (0..8).map(|_| b.word()).collect::<Vec<_>>());
        assert_ne!(numbers, (0..8).map(|_| other.word()).collect::<Vec<_>>());
    }

    #[test]
    fn numbers_lie_between_their_ends() {
        let mut random = Random::new(1);
        for _ in 0..1000 {
            assert!((3..=5).contains(&random.between(3, 5)));
            assert!((1..=u32::MAX).contains(&random.number(u32::MAX)));
        }
        assert_eq!(random.between(7, 7), 7);
        random.between(0, u32::MAX);
    }
}
