//! Stand-in for `oxc_allocator`: the standard library's boxes and vectors under the arena's names.

use std::{
    marker::PhantomData,
    ops::{Deref, DerefMut},
};

pub struct ArenaBox<'a, T>(Box<T>, PhantomData<&'a ()>);

impl<T> ArenaBox<'_, T> {
    pub fn new(node: T) -> Self {
        ArenaBox(Box::new(node), PhantomData)
    }

    pub fn unbox(self) -> T {
        *self.0
    }
}

impl<T> AsMut<T> for ArenaBox<'_, T> {
    fn as_mut(&mut self) -> &mut T {
        &mut self.0
    }
}

impl<T> Deref for ArenaBox<'_, T> {
    type Target = T;

    fn deref(&self) -> &T {
        &self.0
    }
}

impl<T> DerefMut for ArenaBox<'_, T> {
    fn deref_mut(&mut self) -> &mut T {
        &mut self.0
    }
}

pub struct ArenaVec<'a, T>(Vec<T>, PhantomData<&'a ()>);

impl<T> ArenaVec<'_, T> {
    pub fn new_in<A>(_: &A) -> Self {
        Vec::new().into()
    }

    pub fn with_capacity_in<A>(capacity: usize, _: &A) -> Self {
        Vec::with_capacity(capacity).into()
    }

    pub fn from_iter_in<A>(items: impl IntoIterator<Item = T>, _: &A) -> Self {
        Vec::from_iter(items).into()
    }

    pub fn from_array_in<A, const N: usize>(items: [T; N], _: &A) -> Self {
        items.into()
    }
}

impl<T> From<Vec<T>> for ArenaVec<'_, T> {
    fn from(items: Vec<T>) -> Self {
        ArenaVec(items, PhantomData)
    }
}

impl<T, const N: usize> From<[T; N]> for ArenaVec<'_, T> {
    fn from(items: [T; N]) -> Self {
        Vec::from(items).into()
    }
}

impl<T> Deref for ArenaVec<'_, T> {
    type Target = Vec<T>;

    fn deref(&self) -> &Vec<T> {
        &self.0
    }
}

impl<T> DerefMut for ArenaVec<'_, T> {
    fn deref_mut(&mut self) -> &mut Vec<T> {
        &mut self.0
    }
}

impl<T> IntoIterator for ArenaVec<'_, T> {
    type Item = T;
    type IntoIter = std::vec::IntoIter<T>;

    fn into_iter(self) -> Self::IntoIter {
        self.0.into_iter()
    }
}

impl<'s, T> IntoIterator for &'s ArenaVec<'_, T> {
    type Item = &'s T;
    type IntoIter = std::slice::Iter<'s, T>;

    fn into_iter(self) -> Self::IntoIter {
        self.0.iter()
    }
}

impl<'s, T> IntoIterator for &'s mut ArenaVec<'_, T> {
    type Item = &'s mut T;
    type IntoIter = std::slice::IterMut<'s, T>;

    fn into_iter(self) -> Self::IntoIter {
        self.0.iter_mut()
    }
}

/// Moves a node out of its slot.
pub trait TakeIn: Sized {
    /// What is left in the slot. No handler may look at it.
    fn taken() -> Self;

    fn take_in<A>(&mut self, _: &A) -> Self {
        std::mem::replace(self, Self::taken())
    }
}
