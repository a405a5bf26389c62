//! Iterators that run their own loop: the few names of `internal-iterator` that the original uses.

mod adapters;
mod sources;

pub use adapters::{Chain, FilterMap, FlatMap};
pub use sources::Internal;
use std::ops::ControlFlow;

/// Hands its items one by one to a closure, until that breaks off.
pub trait InternalIterator: Sized {
    type Item;

    fn try_for_each<T, F>(self, f: F) -> ControlFlow<T>
    where
        F: FnMut(Self::Item) -> ControlFlow<T>;

    fn for_each<F>(self, mut f: F)
    where
        F: FnMut(Self::Item),
    {
        let whole: ControlFlow<()> = self.try_for_each(|item| {
            f(item);
            ControlFlow::Continue(())
        });
        debug_assert!(whole.is_continue());
    }

    fn chain<U>(self, second: U) -> Chain<Self, U::IntoIter>
    where
        U: IntoInternalIterator<Item = Self::Item>,
    {
        Chain {
            first: self,
            second: second.into_internal_iter(),
        }
    }

    fn filter_map<B, F>(self, keep: F) -> FilterMap<Self, F>
    where
        F: FnMut(Self::Item) -> Option<B>,
    {
        FilterMap { items: self, keep }
    }

    fn flat_map<U, F>(self, open: F) -> FlatMap<Self, F>
    where
        F: FnMut(Self::Item) -> U,
        U: IntoInternalIterator,
    {
        FlatMap { items: self, open }
    }

    fn collect<B>(self) -> B
    where
        B: FromInternalIterator<Self::Item>,
    {
        B::from_iter(self)
    }
}

/// What can be turned into an [`InternalIterator`].
pub trait IntoInternalIterator {
    type Item;
    type IntoIter: InternalIterator<Item = Self::Item>;

    fn into_internal_iter(self) -> Self::IntoIter;
}

/// What can be gathered from an [`InternalIterator`].
pub trait FromInternalIterator<A> {
    fn from_iter<T>(items: T) -> Self
    where
        T: IntoInternalIterator<Item = A>;
}

/// The way from an ordinary iterator.
pub trait IteratorExt: Iterator + Sized {
    fn into_internal(self) -> Internal<Self> {
        Internal(self)
    }
}

impl<I: Iterator> IteratorExt for I {}
