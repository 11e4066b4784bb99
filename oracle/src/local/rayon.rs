//! rayon's calls on one thread, nodes rising: the names and shapes that hora uses, over plain iterators.

pub mod prelude {
    pub use super::{IntoParallelIterator, IntoParallelRefIterator, Serial};
}

/// An iterator that offers rayon's methods; `reduce` and `map_with` differ from std's.
pub struct Serial<I>(I);

pub trait IntoParallelIterator {
    type Iter: Iterator;
    fn into_par_iter(self) -> Serial<Self::Iter>;
}

impl IntoParallelIterator for core::ops::Range<usize> {
    type Iter = core::ops::Range<usize>;
    fn into_par_iter(self) -> Serial<Self::Iter> {
        Serial(self)
    }
}

pub trait IntoParallelRefIterator<'a> {
    type Iter: Iterator;
    fn par_iter(&'a self) -> Serial<Self::Iter>;
}

impl<'a, T: 'a> IntoParallelRefIterator<'a> for [T] {
    type Iter = core::slice::Iter<'a, T>;
    fn par_iter(&'a self) -> Serial<Self::Iter> {
        Serial(self.iter())
    }
}

impl<I: Iterator> Serial<I> {
    pub fn zip<J: IntoIterator>(self, other: J) -> Serial<core::iter::Zip<I, J::IntoIter>> {
        Serial(self.0.zip(other))
    }

    pub fn map<B, F: FnMut(I::Item) -> B>(self, f: F) -> Serial<core::iter::Map<I, F>> {
        Serial(self.0.map(f))
    }

    /// The value lives as long as the iterator, so a sender is dropped once the items are done.
    pub fn map_with<S, B, F: FnMut(&mut S, I::Item) -> B>(
        self,
        mut init: S,
        mut f: F,
    ) -> Serial<impl Iterator<Item = B>> {
        Serial(self.0.map(move |item| f(&mut init, item)))
    }

    pub fn for_each<F: FnMut(I::Item)>(self, f: F) {
        self.0.for_each(f)
    }

    pub fn collect<C: core::iter::FromIterator<I::Item>>(self) -> C {
        self.0.collect()
    }

    pub fn sum<S: core::iter::Sum<I::Item>>(self) -> S {
        self.0.sum()
    }

    pub fn reduce<ID: Fn() -> I::Item, OP: Fn(I::Item, I::Item) -> I::Item>(
        self,
        identity: ID,
        op: OP,
    ) -> I::Item {
        self.0.fold(identity(), op)
    }
}

/// hora's `vec_iter!`, which picks `par_iter` or `iter` by a feature.
#[macro_export]
macro_rules! vec_iter {
    ( $x:expr, $y:ident ) => {
        let $y = $x.par_iter();
    };
}
