//! Words and floats that ours is lent together: scratch, or a descent's state.

use spoonmeadow::lent::Both;

#[derive(Clone, PartialEq)]
pub struct Buffers {
    pub words: Vec<u32>,
    pub floats: Vec<f32>,
}

impl Buffers {
    pub fn new(words: usize, floats: usize) -> Self {
        Buffers {
            words: vec![0; words],
            floats: vec![0.0; floats],
        }
    }

    pub fn lent(&mut self) -> Both<'_> {
        (&mut self.words, &mut self.floats)
    }

    /// What the entries do to scratch at their end.
    pub fn zero(&mut self) {
        std::hint::black_box(&mut self.words).fill(0);
        std::hint::black_box(&mut self.floats).fill(0.0);
        std::hint::black_box(self);
    }
}
