//! Buffers: lists of truth values, of validity, of numbers.

/// A list of truth values that is not changed any more.
#[derive(Debug, Clone, PartialEq, Eq)]
pub struct BooleanBuffer {
    pub(crate) bits: Vec<bool>,
}

impl BooleanBuffer {
    pub fn len(&self) -> usize {
        self.bits.len()
    }

    pub fn is_empty(&self) -> bool {
        self.bits.is_empty()
    }

    pub fn value(&self, index: usize) -> bool {
        self.bits[index]
    }

    /// The part of so many values from a place on; asking past the end is a panic.
    pub fn slice(&self, offset: usize, length: usize) -> BooleanBuffer {
        BooleanBuffer {
            bits: self.bits[offset..offset + length].to_vec(),
        }
    }
}

impl From<Vec<bool>> for BooleanBuffer {
    fn from(bits: Vec<bool>) -> Self {
        BooleanBuffer { bits }
    }
}

/// Which rows are not null: true says that a row is there.
#[derive(Debug, Clone, PartialEq, Eq)]
pub struct NullBuffer {
    valid: BooleanBuffer,
}

impl NullBuffer {
    pub fn new(valid: BooleanBuffer) -> Self {
        NullBuffer { valid }
    }

    pub fn len(&self) -> usize {
        self.valid.len()
    }

    pub fn is_empty(&self) -> bool {
        self.valid.is_empty()
    }

    pub fn is_null(&self, index: usize) -> bool {
        !self.valid.value(index)
    }

    pub fn null_count(&self) -> usize {
        self.valid.bits.iter().filter(|bit| !**bit).count()
    }
}

/// A list of numbers.
#[derive(Debug, Clone)]
pub struct ScalarBuffer<T> {
    pub(crate) values: Vec<T>,
}

impl<T> From<Vec<T>> for ScalarBuffer<T> {
    fn from(values: Vec<T>) -> Self {
        ScalarBuffer { values }
    }
}
