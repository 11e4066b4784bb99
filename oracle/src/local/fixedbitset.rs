//! A local `fixedbitset::FixedBitSet`: the calls that hora makes, with the same meaning and the same panics.

#[derive(Debug, Clone, Default, PartialEq, Eq)]
pub struct FixedBitSet {
    data: Vec<u32>,
    length: usize,
}

impl FixedBitSet {
    pub fn with_capacity(bits: usize) -> Self {
        FixedBitSet {
            data: vec![0; (bits + 31) / 32],
            length: bits,
        }
    }

    /// A bit beyond the length is not contained; fixedbitset says so too.
    pub fn contains(&self, bit: usize) -> bool {
        bit < self.length && self.data[bit / 32] >> (bit % 32) & 1 == 1
    }

    pub fn insert(&mut self, bit: usize) {
        self.set(bit, true);
    }

    pub fn set(&mut self, bit: usize, enabled: bool) {
        assert!(bit < self.length, "set at index {} exceeds length", bit);
        if enabled {
            self.data[bit / 32] |= 1 << (bit % 32);
        } else {
            self.data[bit / 32] &= !(1 << (bit % 32));
        }
    }

    pub fn union_with(&mut self, other: &FixedBitSet) {
        assert!(
            other.length <= self.length,
            "hora unites equal lengths only"
        );
        for (word, more) in self.data.iter_mut().zip(&other.data) {
            *word |= more;
        }
    }

    /// The words, bit b of word w being place 32w + b; the cases write visited pairs so.
    pub fn words(&self) -> &[u32] {
        &self.data
    }

    pub fn from_words(words: &[u32], bits: usize) -> Self {
        assert_eq!(words.len(), (bits + 31) / 32);
        FixedBitSet {
            data: words.to_vec(),
            length: bits,
        }
    }
}
