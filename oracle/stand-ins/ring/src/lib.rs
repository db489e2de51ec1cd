//! Stands in for the crate dasp_ring_buffer, as far as the nodes use it: a ring of fixed length whose index 0 is the
//! oldest value. Document 01, "Memory": a push replaces the oldest and moves on, wrapping.
use std::ops::Index;

#[derive(Debug, Clone)]
pub struct Fixed<S> {
    first: usize,
    data: S,
}

impl From<Vec<f32>> for Fixed<Vec<f32>> {
    fn from(data: Vec<f32>) -> Self {
        assert!(!data.is_empty(), "a ring has at least one value");
        Fixed { first: 0, data }
    }
}

impl Fixed<Vec<f32>> {
    #[inline]
    pub fn len(&self) -> usize {
        self.data.len()
    }

    /// The value at an index counted from the oldest; indexes wrap.
    #[inline]
    pub fn get(&self, index: usize) -> &f32 {
        &self.data[(self.first + index) % self.data.len()]
    }

    #[inline]
    pub fn set_first(&mut self, index: usize) {
        self.first = index % self.data.len();
    }

    /// Puts a value in place of the oldest, which is given back.
    #[inline]
    pub fn push(&mut self, value: f32) -> f32 {
        let oldest = std::mem::replace(&mut self.data[self.first], value);
        self.first += 1;
        if self.first == self.data.len() {
            self.first = 0;
        }
        oldest
    }
}

impl Index<usize> for Fixed<Vec<f32>> {
    type Output = f32;
    #[inline]
    fn index(&self, index: usize) -> &f32 {
        self.get(index)
    }
}
