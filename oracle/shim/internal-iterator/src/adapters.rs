//! The three iterators that are made from others.

use crate::{InternalIterator, IntoInternalIterator};
use std::ops::ControlFlow;

/// The items of one, then those of the other.
pub struct Chain<A, B> {
    pub(crate) first: A,
    pub(crate) second: B,
}

impl<A, B> InternalIterator for Chain<A, B>
where
    A: InternalIterator,
    B: InternalIterator<Item = A::Item>,
{
    type Item = A::Item;

    fn try_for_each<T, F>(self, mut f: F) -> ControlFlow<T>
    where
        F: FnMut(Self::Item) -> ControlFlow<T>,
    {
        self.first.try_for_each(&mut f)?;
        self.second.try_for_each(f)
    }
}

/// The items that `keep` answers with something.
pub struct FilterMap<I, F> {
    pub(crate) items: I,
    pub(crate) keep: F,
}

impl<I, B, K> InternalIterator for FilterMap<I, K>
where
    I: InternalIterator,
    K: FnMut(I::Item) -> Option<B>,
{
    type Item = B;

    fn try_for_each<T, F>(self, mut f: F) -> ControlFlow<T>
    where
        F: FnMut(Self::Item) -> ControlFlow<T>,
    {
        let mut keep = self.keep;
        self.items.try_for_each(|item| match keep(item) {
            Some(kept) => f(kept),
            None => ControlFlow::Continue(()),
        })
    }
}

/// The items of what `open` makes of each item.
pub struct FlatMap<I, F> {
    pub(crate) items: I,
    pub(crate) open: F,
}

impl<I, U, O> InternalIterator for FlatMap<I, O>
where
    I: InternalIterator,
    O: FnMut(I::Item) -> U,
    U: IntoInternalIterator,
{
    type Item = U::Item;

    fn try_for_each<T, F>(self, mut f: F) -> ControlFlow<T>
    where
        F: FnMut(Self::Item) -> ControlFlow<T>,
    {
        let mut open = self.open;
        self.items
            .try_for_each(|item| open(item).into_internal_iter().try_for_each(&mut f))
    }
}
