//! Random numbers that are the same in every run of a seed.

use crate::classes::{class_of, least_of};

pub struct Draw(model::Draw);

impl Draw {
    pub fn new(seed: u64) -> Self {
        // Neighbouring seeds shall not begin alike, and the state is never 0.
        let mut mixed = seed.wrapping_add(0x9E37_79B9_7F4A_7C15);
        mixed = (mixed ^ mixed >> 30).wrapping_mul(0xBF58_476D_1CE4_E5B9);
        mixed = (mixed ^ mixed >> 27).wrapping_mul(0x94D0_49BB_1331_11EB);
        Draw(model::Draw((mixed ^ mixed >> 31).max(1)))
    }

    #[allow(clippy::should_implement_trait)]
    pub fn next(&mut self) -> u64 {
        self.0.next()
    }

    pub fn below(&mut self, n: u64) -> u64 {
        (self.next() >> 11) % n
    }

    pub fn size(&mut self, n: usize) -> usize {
        self.below(n as u64) as usize
    }

    /// True once in n.
    pub fn once_in(&mut self, n: u64) -> bool {
        self.below(n) == 0
    }

    pub fn pick<T: Copy>(&mut self, of: &[T]) -> T {
        of[self.size(of.len())]
    }

    /// A number from 0 to the largest, log-uniformly: every class is as likely as another. Now and then the largest, or the one before it.
    pub fn upto(&mut self, most: u64) -> u64 {
        if self.once_in(40) {
            return most.saturating_sub(self.below(2));
        }
        let class = self.size(class_of(most) + 1);
        self.of_class(class, most)
    }

    /// A number of a class; at most the largest, which is of this class or a later one.
    pub fn of_class(&mut self, class: usize, most: u64) -> u64 {
        let least = least_of(class);
        let more = (most - least).min(least.saturating_sub(1));
        least + self.next() % (more + 1)
    }

    /// The same as `upto`, of lengths.
    pub fn length(&mut self, most: usize) -> usize {
        self.upto(most as u64) as usize
    }

    pub fn bytes(&mut self, n: usize) -> Vec<u8> {
        let mut bytes = Vec::with_capacity(n + 8);
        while bytes.len() < n {
            bytes.extend_from_slice(&self.next().to_be_bytes());
        }
        bytes.truncate(n);
        bytes
    }
}
