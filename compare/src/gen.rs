//! What the inputs are made of: random numbers, and all short strings over an alphabet.

/// A small generator (splitmix64): the same seed gives the same inputs on every machine.
pub struct Rng(u64);

impl Rng {
    pub fn new(seed: u64) -> Self {
        Self(seed)
    }

    pub fn next(&mut self) -> u64 {
        self.0 = self.0.wrapping_add(0x9e37_79b9_7f4a_7c15);
        let mut x = self.0;
        x = (x ^ (x >> 30)).wrapping_mul(0xbf58_476d_1ce4_e5b9);
        x = (x ^ (x >> 27)).wrapping_mul(0x94d0_49bb_1331_11eb);
        x ^ (x >> 31)
    }

    /// A number less than `bound`, which is at least 1.
    pub fn below(&mut self, bound: usize) -> usize {
        (self.next() % bound as u64) as usize
    }

    pub fn byte(&mut self) -> u8 {
        self.next() as u8
    }

    pub fn one_in(&mut self, n: usize) -> bool {
        self.below(n) == 0
    }

    pub fn pick<T: Copy>(&mut self, from: &[T]) -> T {
        from[self.below(from.len())]
    }
}

/// All rows of at most `longest` pieces, each an element of `pieces`, joined; the empty row first.
pub fn all_rows(pieces: &[&[u8]], longest: usize, each: &mut dyn FnMut(&[u8])) {
    fn extend(row: &mut Vec<u8>, pieces: &[&[u8]], more: usize, each: &mut dyn FnMut(&[u8])) {
        if more == 0 {
            return each(row);
        }
        for piece in pieces {
            row.extend_from_slice(piece);
            extend(row, pieces, more - 1, each);
            row.truncate(row.len() - piece.len());
        }
    }
    for length in 0..=longest {
        extend(&mut Vec::new(), pieces, length, each);
    }
}
