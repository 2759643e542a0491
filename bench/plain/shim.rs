//! What stands for the kit's memory and lists where a crate's text is compiled as plain Rust.

use std::ops::{Deref, DerefMut};

#[derive(Clone, Copy, Debug, PartialEq, Eq)]
pub struct AllocError;

/// A push that was refused, with what was to be pushed.
pub struct AllocFailed<T>(pub T);

impl<T> From<AllocFailed<T>> for AllocError {
    fn from(_: AllocFailed<T>) -> AllocError {
        AllocError
    }
}

#[derive(Clone, Copy)]
pub struct Global;

pub struct Vec<T>(std::vec::Vec<T>);

impl<T> Vec<T> {
    #[inline(always)]
    pub fn new(_: Global) -> Self {
        Vec(std::vec::Vec::new())
    }

    #[inline(always)]
    pub fn push(&mut self, x: T) -> Result<(), AllocError> {
        self.0.push(x);
        Ok(())
    }

    #[inline(always)]
    pub fn reserve(&mut self, more: usize) -> Result<(), AllocError> {
        self.0.reserve(more);
        Ok(())
    }

    #[inline(always)]
    pub fn pop(&mut self) -> Option<T> {
        self.0.pop()
    }

    #[inline(always)]
    pub fn clear(&mut self) {
        self.0.clear()
    }

    #[inline(always)]
    pub fn as_slice(&self) -> &[T] {
        &self.0
    }

    #[inline(always)]
    pub fn resize(&mut self, length: usize, x: T) -> Result<(), AllocError>
    where
        T: Clone,
    {
        self.0.resize(length, x);
        Ok(())
    }

    #[inline(always)]
    pub fn extend_from_slice(&mut self, xs: &[T]) -> Result<(), AllocError>
    where
        T: Clone,
    {
        self.0.extend_from_slice(xs);
        Ok(())
    }
}

impl<T> Deref for Vec<T> {
    type Target = [T];

    #[inline(always)]
    fn deref(&self) -> &[T] {
        &self.0
    }
}

impl<T> DerefMut for Vec<T> {
    #[inline(always)]
    fn deref_mut(&mut self) -> &mut [T] {
        &mut self.0
    }
}

impl<T> IntoIterator for Vec<T> {
    type Item = T;
    type IntoIter = std::vec::IntoIter<T>;

    fn into_iter(self) -> Self::IntoIter {
        self.0.into_iter()
    }
}

impl<'a, T> IntoIterator for &'a Vec<T> {
    type Item = &'a T;
    type IntoIter = std::slice::Iter<'a, T>;

    fn into_iter(self) -> Self::IntoIter {
        self.0.iter()
    }
}
