//! A list of truth values that grows.

use crate::buffer::BooleanBuffer;

#[derive(Debug)]
pub struct BooleanBufferBuilder {
    bits: Vec<bool>,
}

impl BooleanBufferBuilder {
    /// An empty list; the room asked for changes nothing that is read.
    pub fn new(capacity: usize) -> Self {
        BooleanBufferBuilder {
            bits: Vec::with_capacity(capacity),
        }
    }

    pub fn len(&self) -> usize {
        self.bits.len()
    }

    pub fn is_empty(&self) -> bool {
        self.bits.is_empty()
    }

    pub fn capacity(&self) -> usize {
        self.bits.capacity()
    }

    pub fn get_bit(&self, index: usize) -> bool {
        self.bits[index]
    }

    pub fn set_bit(&mut self, index: usize, bit: bool) {
        self.bits[index] = bit;
    }

    /// Cuts the list to a length, or lengthens it by false.
    pub fn resize(&mut self, length: usize) {
        self.bits.resize(length, false);
    }

    /// Cuts the list to a length; a list that is no longer stays.
    pub fn truncate(&mut self, length: usize) {
        self.bits.truncate(length);
    }

    pub fn append_n(&mut self, count: usize, bit: bool) {
        self.bits.resize(self.bits.len() + count, bit);
    }

    pub fn append_buffer(&mut self, buffer: &BooleanBuffer) {
        self.bits.extend_from_slice(&buffer.bits);
    }

    /// Gives the list out and starts again with none.
    pub fn finish(&mut self) -> BooleanBuffer {
        BooleanBuffer::from(std::mem::take(&mut self.bits))
    }
}
