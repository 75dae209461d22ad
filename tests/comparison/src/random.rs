//! Random numbers that a seed repeats.

/// Steele's splitmix generator of 64 bits: every seed will do, also those that are close together.
pub struct Random(u64);

impl Random {
    /// The numbers of one film of a run: a disagreement is repeated without the films before it.
    pub fn new(seed: u64, film: u64) -> Random {
        let mut start = Random(seed);
        let mixed = start.next() ^ film.wrapping_mul(0x9e37_79b9_7f4a_7c15);
        Random(Random(mixed).next())
    }

    fn next(&mut self) -> u64 {
        self.0 = self.0.wrapping_add(0x9e37_79b9_7f4a_7c15);
        let mut z = self.0;
        z = (z ^ (z >> 30)).wrapping_mul(0xbf58_476d_1ce4_e5b9);
        z = (z ^ (z >> 27)).wrapping_mul(0x94d0_49bb_1331_11eb);
        z ^ (z >> 31)
    }

    /// 0 to `count` − 1.
    pub fn below(&mut self, count: usize) -> usize {
        (self.next() % count as u64) as usize
    }

    /// `low` to `high`, both among them.
    pub fn within(&mut self, low: i64, high: i64) -> i64 {
        let count = high.wrapping_sub(low).wrapping_add(1) as u64;
        if count == 0 {
            return self.next() as i64;
        }
        low.wrapping_add((self.next() % count) as i64)
    }

    /// Whether one of a hundred such chances has come.
    pub fn chance(&mut self, of_hundred: usize) -> bool {
        self.below(100) < of_hundred
    }

    /// 0 to `most`, every length of number as likely as another.
    pub fn spread(&mut self, most: i64) -> i64 {
        let lengths = 64 - most.leading_zeros() as usize;
        let length = self.below(lengths + 1);
        let mask = (1_u64 << length) - 1;
        ((self.next() & mask) as i64).min(most)
    }

    /// The same either way.
    pub fn signed(&mut self, most: i64) -> i64 {
        let number = self.spread(most);
        if self.chance(50) {
            -number
        } else {
            number
        }
    }

    pub fn pick<T: Copy>(&mut self, list: &[T]) -> T {
        list[self.below(list.len())]
    }

    pub fn byte(&mut self) -> u8 {
        self.next() as u8
    }

    /// Any number of 32 bits: an edge, one beside it, or any at all.
    pub fn any_u32(&mut self) -> u32 {
        let edge = self.pick(&[0, 1 << 15, 1 << 16, 1 << 24, 1 << 26, 1 << 28, 1 << 31]);
        match self.below(4) {
            0 => edge,
            1 => edge.wrapping_add(1),
            2 => edge.wrapping_sub(1),
            _ => self.next() as u32,
        }
    }
}
