//! Small numbers from a seed.

/// Marsaglia's xorshift of 64 bits, with the shifts 13, 7 and 17.
#[derive(Clone)]
pub struct Numbers(pub u64);

impl Numbers {
    /// The numbers of a seed; seeds that follow one another give numbers that
    /// have nothing in common.
    pub fn new(seed: u64) -> Self {
        let state = seed.wrapping_add(1).wrapping_mul(0x9E37_79B9_7F4A_7C15);
        Self(if state == 0 { 1 } else { state })
    }

    /// Any word.
    pub fn word(&mut self) -> u32 {
        self.0 ^= self.0 << 13;
        self.0 ^= self.0 >> 7;
        self.0 ^= self.0 << 17;
        (self.0 >> 32) as u32
    }

    /// A number below `bound`, which is not 0.
    pub fn below(&mut self, bound: u32) -> u32 {
        self.word() % bound
    }

    /// True once in `many`.
    pub fn once_in(&mut self, many: u32) -> bool {
        self.below(many) == 0
    }

    /// The kind of an inline that is the next child of `parent`, after `before`.
    pub fn inline_kind(&mut self, parent: u32, before: u32) -> u32 {
        match self.below(10) {
            // Beside a break or a strikethrough often another.
            0 | 1 if before == 36 || before == 46 || before == 47 => before,
            0 | 1 => self.one(&[46, 47, 36]),
            // In emphasis often emphasis, in strong too.
            2 if (34..=37).contains(&parent) => self.one(&[34, 34, parent]),
            3 => self.one(&[40, 41, 43, 51]),
            4 | 5 => 31,
            6 => self.one(&[34, 35, 36, 37, 52]),
            7 => self.one(&[32, 39, 42, 44, 48, 49, 50]),
            _ => 31 + self.below(23),
        }
    }

    /// One of a list.
    pub fn one<T: Copy>(&mut self, list: &[T]) -> T {
        list[self.index(list.len())]
    }

    /// An index below `length`, which is not 0.
    pub fn index(&mut self, length: usize) -> usize {
        self.below(length as u32) as usize
    }
}

#[cfg(test)]
mod tests {
    use super::*;

    #[test]
    fn seeds_differ() {
        let words = |seed| {
            let mut numbers = Numbers::new(seed);
            [(); 8].map(|()| numbers.word())
        };
        assert_eq!(words(7), words(7));
        assert_ne!(words(7), words(8));
        assert_ne!(words(u64::MAX), [0; 8]);
    }

    #[test]
    fn all_below() {
        let mut numbers = Numbers::new(0);
        let mut seen = [0; 5];
        (0..1000).for_each(|_| seen[numbers.index(5)] += 1);
        assert!(seen.iter().all(|&count| count > 100), "{seen:?}");
    }
}
