//! The generator of every case: splitmix64, whose state is one number, so that a case follows from
//! the seed and its own number alone.

use std::fmt::Display;

/// A cell of a lent buffer.
pub trait Number: Copy + Eq + Display {
    fn from_bits(bits: u64) -> Self;
}

macro_rules! numbers {
    ($($number:ty)*) => { $(impl Number for $number {
        fn from_bits(bits: u64) -> Self {
            bits as $number
        }
    })* };
}

numbers!(u8 i16 i32 u32 u64);

pub struct Random(u64);

impl Random {
    pub fn of_case(seed: u64, case: u64) -> Random {
        Random(Random(Random(seed).bits() ^ case).bits())
    }

    pub fn bits(&mut self) -> u64 {
        self.0 = self.0.wrapping_add(0x9E37_79B9_7F4A_7C15);
        let first = (self.0 ^ (self.0 >> 30)).wrapping_mul(0xBF58_476D_1CE4_E5B9);
        let second = (first ^ (first >> 27)).wrapping_mul(0x94D0_49BB_1331_11EB);
        second ^ (second >> 31)
    }

    pub fn number<T: Number>(&mut self) -> T {
        T::from_bits(self.bits())
    }

    pub fn below(&mut self, bound: usize) -> usize {
        ((u128::from(self.bits()) * bound as u128) >> 64) as usize
    }

    pub fn one_in(&mut self, chances: usize) -> bool {
        self.below(chances) == 0
    }

    pub fn pick<T: Copy>(&mut self, choices: &[T]) -> T {
        choices[self.below(choices.len())]
    }

    pub fn many<T: Number>(&mut self, count: usize) -> Vec<T> {
        (0..count).map(|_| self.number()).collect()
    }

    pub fn bytes(&mut self, count: usize) -> Vec<u8> {
        let mut bytes = vec![0; count];
        for chunk in bytes.chunks_mut(8) {
            chunk.copy_from_slice(&self.bits().to_le_bytes()[..chunk.len()]);
        }
        bytes
    }
}
