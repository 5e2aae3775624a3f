//! Of the kit's `arrayvec` what `text` uses.

use std::ops::Deref;

pub struct ArrayVec<T, const N: usize> {
    items: [T; N],
    length: usize,
}

#[derive(Debug)]
pub struct CapacityError;

impl<T: Copy + Default, const N: usize> Default for ArrayVec<T, N> {
    fn default() -> Self {
        let items = [T::default(); N];
        ArrayVec { items, length: 0 }
    }
}

impl<T: Copy, const N: usize> ArrayVec<T, N> {
    pub fn try_extend_from_slice(&mut self, more: &[T]) -> Result<(), CapacityError> {
        let end = self.length + more.len();
        let room = self.items.get_mut(self.length..end).ok_or(CapacityError)?;
        room.copy_from_slice(more);
        self.length = end;
        Ok(())
    }
}

impl<T, const N: usize> Deref for ArrayVec<T, N> {
    type Target = [T];

    fn deref(&self) -> &[T] {
        &self.items[..self.length]
    }
}
