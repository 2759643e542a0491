//! What stands in the place of `arrayvec` in plain Rust: a list with room for a fixed number. No time hangs on it, since the verifier has
//! none.

#[derive(Clone, Debug)]
pub struct ArrayVec<T, const ROOM: usize>(Vec<T>);

impl<T, const ROOM: usize> ArrayVec<T, ROOM> {
    pub fn new() -> Self {
        ArrayVec(Vec::with_capacity(ROOM))
    }

    pub fn push(&mut self, item: T) {
        self.0.push(item);
    }

    pub fn len(&self) -> usize {
        self.0.len()
    }

    pub fn as_slice(&self) -> &[T] {
        &self.0
    }
}
