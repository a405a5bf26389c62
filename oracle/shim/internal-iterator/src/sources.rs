//! Where items come from: ordinary iterators, options, arrays and slices.

use crate::{InternalIterator, IntoInternalIterator};
use std::ops::ControlFlow;

/// An ordinary iterator, run from the inside.
pub struct Internal<I>(pub(crate) I);

impl<I: Iterator> InternalIterator for Internal<I> {
    type Item = I::Item;

    fn try_for_each<T, F>(self, mut f: F) -> ControlFlow<T>
    where
        F: FnMut(Self::Item) -> ControlFlow<T>,
    {
        for item in self.0 {
            f(item)?;
        }
        ControlFlow::Continue(())
    }
}

impl<I: InternalIterator> IntoInternalIterator for I {
    type Item = I::Item;
    type IntoIter = I;

    fn into_internal_iter(self) -> I {
        self
    }
}

impl<A> IntoInternalIterator for Option<A> {
    type Item = A;
    type IntoIter = Internal<std::option::IntoIter<A>>;

    fn into_internal_iter(self) -> Self::IntoIter {
        Internal(self.into_iter())
    }
}

impl<A, const N: usize> IntoInternalIterator for [A; N] {
    type Item = A;
    type IntoIter = Internal<std::array::IntoIter<A, N>>;

    fn into_internal_iter(self) -> Self::IntoIter {
        Internal(self.into_iter())
    }
}

impl<'a, A> IntoInternalIterator for &'a [A] {
    type Item = &'a A;
    type IntoIter = Internal<std::slice::Iter<'a, A>>;

    fn into_internal_iter(self) -> Self::IntoIter {
        Internal(self.iter())
    }
}
