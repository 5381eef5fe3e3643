//! Arrays of byte strings and of texts, and how they are built: each is a list of cells, a cell none or some bytes.

use std::any::Any;
use std::marker::PhantomData;

use crate::array::Array;
use crate::datatypes::DataType;

/// How wide an array's offsets are; the lists of cells here have none.
pub trait OffsetSizeTrait: std::fmt::Debug + Send + Sync + 'static {
    const BINARY: &'static DataType;
    const TEXT: &'static DataType;
}

impl OffsetSizeTrait for i32 {
    const BINARY: &'static DataType = &DataType::Binary;
    const TEXT: &'static DataType = &DataType::Utf8;
}

impl OffsetSizeTrait for i64 {
    const BINARY: &'static DataType = &DataType::LargeBinary;
    const TEXT: &'static DataType = &DataType::LargeUtf8;
}

/// The offsets of arrays whose cells are views.
#[derive(Debug)]
pub struct View;

impl OffsetSizeTrait for View {
    const BINARY: &'static DataType = &DataType::BinaryView;
    const TEXT: &'static DataType = &DataType::Utf8View;
}

/// Byte strings.
#[derive(Debug)]
pub struct GenericBinaryArray<O: OffsetSizeTrait> {
    pub(crate) cells: Vec<Option<Vec<u8>>>,
    pub(crate) offsets: PhantomData<O>,
}

/// Texts.
#[derive(Debug)]
pub struct GenericStringArray<O: OffsetSizeTrait> {
    pub(crate) cells: Vec<Option<String>>,
    pub(crate) offsets: PhantomData<O>,
}

pub type BinaryArray = GenericBinaryArray<i32>;
pub type BinaryViewArray = GenericBinaryArray<View>;
pub type StringViewArray = GenericStringArray<View>;

impl<O: OffsetSizeTrait> GenericBinaryArray<O> {
    /// An array of these cells.
    pub fn of_cells(cells: Vec<Option<Vec<u8>>>) -> Self {
        GenericBinaryArray {
            cells,
            offsets: PhantomData,
        }
    }

    /// A row's bytes; a null's are empty.
    pub fn value(&self, index: usize) -> &[u8] {
        self.cells[index].as_deref().unwrap_or_default()
    }
}

impl<O: OffsetSizeTrait> GenericStringArray<O> {
    /// A row's text; a null's is empty.
    pub fn value(&self, index: usize) -> &str {
        self.cells[index].as_deref().unwrap_or_default()
    }
}

impl<O: OffsetSizeTrait> Array for GenericBinaryArray<O> {
    fn as_any(&self) -> &dyn Any {
        self
    }

    fn data_type(&self) -> &DataType {
        O::BINARY
    }

    fn len(&self) -> usize {
        self.cells.len()
    }

    fn is_null(&self, index: usize) -> bool {
        self.cells[index].is_none()
    }
}

impl<O: OffsetSizeTrait> Array for GenericStringArray<O> {
    fn as_any(&self) -> &dyn Any {
        self
    }

    fn data_type(&self) -> &DataType {
        O::TEXT
    }

    fn len(&self) -> usize {
        self.cells.len()
    }

    fn is_null(&self, index: usize) -> bool {
        self.cells[index].is_none()
    }
}

/// Puts an array of byte strings together, cell by cell.
#[derive(Debug)]
pub struct GenericBinaryBuilder<O: OffsetSizeTrait> {
    cells: Vec<Option<Vec<u8>>>,
    offsets: PhantomData<O>,
}

impl<O: OffsetSizeTrait> GenericBinaryBuilder<O> {
    pub fn append_value(&mut self, value: impl AsRef<[u8]>) {
        self.cells.push(Some(value.as_ref().to_vec()));
    }

    pub fn append_null(&mut self) {
        self.cells.push(None);
    }

    pub fn finish(&mut self) -> GenericBinaryArray<O> {
        GenericBinaryArray::of_cells(std::mem::take(&mut self.cells))
    }
}

/// Puts an array of texts together, cell by cell.
#[derive(Debug)]
pub struct GenericStringBuilder<O: OffsetSizeTrait> {
    cells: Vec<Option<String>>,
    offsets: PhantomData<O>,
}

impl<O: OffsetSizeTrait> GenericStringBuilder<O> {
    pub fn append_value(&mut self, value: impl AsRef<str>) {
        self.cells.push(Some(value.as_ref().to_string()));
    }

    pub fn append_null(&mut self) {
        self.cells.push(None);
    }

    pub fn finish(&mut self) -> GenericStringArray<O> {
        GenericStringArray {
            cells: std::mem::take(&mut self.cells),
            offsets: PhantomData,
        }
    }
}

// With offsets, room is asked for cells and for bytes; views ask for cells alone. Neither changes what is built.
macro_rules! with_capacity {
    ($($builder:ident, $offsets:ty, $($room:ident),*;)*) => { $(
        impl $builder<$offsets> {
            pub fn with_capacity($($room: usize),*) -> Self {
                $( let _ = $room; )*
                $builder {
                    cells: Vec::new(),
                    offsets: PhantomData,
                }
            }
        }
    )* };
}

with_capacity! {
    GenericBinaryBuilder, i32, cells, bytes;
    GenericBinaryBuilder, i64, cells, bytes;
    GenericBinaryBuilder, View, cells;
    GenericStringBuilder, i32, cells, bytes;
    GenericStringBuilder, i64, cells, bytes;
    GenericStringBuilder, View, cells;
}
