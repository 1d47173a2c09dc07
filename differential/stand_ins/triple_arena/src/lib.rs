//! A stand-in for the arena that the layout sources lean on: it only grows,
//! and pointer n is the n-th entry put in. It also remembers which entry was
//! looked at last, so that a caller can tell whose text is being read.

use std::{
    cell::Cell,
    marker::PhantomData,
    ops::{Index, IndexMut},
};

thread_local! {
    static LAST_INDEXED: Cell<usize> = const { Cell::new(0) };
}

/// Number of the entry that was indexed last on this thread, counted from 1.
pub fn last_indexed() -> usize {
    LAST_INDEXED.get()
}

/// A pointer type made by [`ptr_struct`]. The default pointer names no entry.
pub trait Ptr: Copy + Eq {
    /// Pointer to entry `number`, counted from 1.
    fn from_number(number: usize) -> Self;
    /// The entry's number; 0 where there is none.
    fn number(self) -> usize;
}

/// Makes pointer types that cannot be mistaken for each other.
#[macro_export]
macro_rules! ptr_struct {
    ($($name:ident[$index:ty]());* $(;)?) => {$(
        #[derive(Debug, Default, Clone, Copy, PartialEq, Eq, PartialOrd, Ord, Hash)]
        pub struct $name(Option<$index>);

        impl $crate::Ptr for $name {
            fn from_number(number: usize) -> Self {
                Self(number.try_into().ok().and_then(<$index>::new))
            }

            fn number(self) -> usize {
                self.0.map_or(0, |number| number.get() as usize)
            }
        }
    )*};
}

#[derive(Debug, Clone)]
pub struct Arena<P, T> {
    entries: Vec<T>,
    pointer: PhantomData<P>,
}

impl<P, T> Default for Arena<P, T> {
    fn default() -> Self {
        Self { entries: vec![], pointer: PhantomData }
    }
}

impl<P: Ptr, T> Arena<P, T> {
    /// How many entries were put in.
    pub fn len(&self) -> usize {
        self.entries.len()
    }

    pub fn is_empty(&self) -> bool {
        self.entries.is_empty()
    }
}

impl<P: Ptr, T> Index<P> for Arena<P, T> {
    type Output = T;

    fn index(&self, p: P) -> &T {
        LAST_INDEXED.set(p.number());
        &self.entries[p.number() - 1]
    }
}

impl<P: Ptr, T> IndexMut<P> for Arena<P, T> {
    fn index_mut(&mut self, p: P) -> &mut T {
        LAST_INDEXED.set(p.number());
        &mut self.entries[p.number() - 1]
    }
}

/// What the sources import by a glob.
pub mod traits {
    use crate::{Arena, Ptr};

    pub trait ArenaTrait<P, T> {
        fn insert(&mut self, entry: T) -> P;
    }

    impl<P: Ptr, T> ArenaTrait<P, T> for Arena<P, T> {
        fn insert(&mut self, entry: T) -> P {
            self.entries.push(entry);
            P::from_number(self.entries.len())
        }
    }
}
