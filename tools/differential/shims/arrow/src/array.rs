//! Arrays: lists of cells behind one interface.

use std::any::Any;
use std::fmt::Debug;
use std::sync::Arc;

use crate::buffer::{BooleanBuffer, NullBuffer, ScalarBuffer};
use crate::bytes::View;
use crate::datatypes::{DataType, Int64Type};

pub use crate::builder::BooleanBufferBuilder;
pub use crate::bytes::{
    BinaryArray, BinaryViewArray, GenericBinaryArray, GenericStringArray, OffsetSizeTrait,
    StringViewArray,
};
pub use crate::datatypes::ArrowPrimitiveType;

pub type BinaryBuilder = crate::bytes::GenericBinaryBuilder<i32>;
pub type LargeBinaryBuilder = crate::bytes::GenericBinaryBuilder<i64>;
pub type BinaryViewBuilder = crate::bytes::GenericBinaryBuilder<View>;
pub type StringBuilder = crate::bytes::GenericStringBuilder<i32>;
pub type LargeStringBuilder = crate::bytes::GenericStringBuilder<i64>;
pub type StringViewBuilder = crate::bytes::GenericStringBuilder<View>;

/// A list of cells of one type; a cell may be null. Asking past the end is a panic.
pub trait Array: Debug + Send + Sync {
    fn as_any(&self) -> &dyn Any;
    fn data_type(&self) -> &DataType;
    fn len(&self) -> usize;
    fn is_null(&self, index: usize) -> bool;

    fn is_empty(&self) -> bool {
        self.len() == 0
    }

    fn is_valid(&self, index: usize) -> bool {
        !self.is_null(index)
    }

    fn null_count(&self) -> usize {
        (0..self.len()).filter(|index| self.is_null(*index)).count()
    }
}

pub type ArrayRef = Arc<dyn Array>;

impl Array for ArrayRef {
    fn as_any(&self) -> &dyn Any {
        self.as_ref().as_any()
    }

    fn data_type(&self) -> &DataType {
        self.as_ref().data_type()
    }

    fn len(&self) -> usize {
        self.as_ref().len()
    }

    fn is_null(&self, index: usize) -> bool {
        self.as_ref().is_null(index)
    }
}

/// Numbers, and which of them are there: a number stands under a null too.
#[derive(Debug)]
pub struct PrimitiveArray<T: ArrowPrimitiveType> {
    values: Vec<T::Native>,
    nulls: Option<NullBuffer>,
    data_type: DataType,
}

pub type Int64Array = PrimitiveArray<Int64Type>;

impl<T: ArrowPrimitiveType> PrimitiveArray<T> {
    /// An array of these numbers; as many must be marked as there are numbers.
    pub fn new(values: ScalarBuffer<T::Native>, nulls: Option<NullBuffer>) -> Self {
        if let Some(nulls) = &nulls {
            assert_eq!(values.values.len(), nulls.len());
        }
        PrimitiveArray {
            values: values.values,
            nulls,
            data_type: T::DATA_TYPE,
        }
    }

    pub fn with_data_type(self, data_type: DataType) -> Self {
        PrimitiveArray { data_type, ..self }
    }

    /// A row's number, under a null too.
    pub fn value(&self, index: usize) -> T::Native {
        self.values[index]
    }
}

impl<T: ArrowPrimitiveType> Array for PrimitiveArray<T> {
    fn as_any(&self) -> &dyn Any {
        self
    }

    fn data_type(&self) -> &DataType {
        &self.data_type
    }

    fn len(&self) -> usize {
        self.values.len()
    }

    fn is_null(&self, index: usize) -> bool {
        self.nulls
            .as_ref()
            .is_some_and(|nulls| nulls.is_null(index))
    }
}

/// Truth values, and which of them are there.
#[derive(Debug, Clone)]
pub struct BooleanArray {
    values: BooleanBuffer,
    nulls: Option<NullBuffer>,
}

impl BooleanArray {
    /// An array of these truth values; as many must be marked as there are values.
    pub fn new(values: BooleanBuffer, nulls: Option<NullBuffer>) -> Self {
        if let Some(nulls) = &nulls {
            assert_eq!(values.len(), nulls.len());
        }
        BooleanArray { values, nulls }
    }

    /// A row's truth value, under a null too.
    pub fn value(&self, index: usize) -> bool {
        self.values.value(index)
    }
}

impl From<Vec<bool>> for BooleanArray {
    fn from(values: Vec<bool>) -> Self {
        BooleanArray::new(values.into(), None)
    }
}

impl Array for BooleanArray {
    fn as_any(&self) -> &dyn Any {
        self
    }

    fn data_type(&self) -> &DataType {
        &DataType::Boolean
    }

    fn len(&self) -> usize {
        self.values.len()
    }

    fn is_null(&self, index: usize) -> bool {
        self.nulls
            .as_ref()
            .is_some_and(|nulls| nulls.is_null(index))
    }
}

/// A record: three numbers, each there or absent.
pub type Record = [Option<i64>; 3];

/// Records; a null is none.
#[derive(Debug)]
pub struct StructArray {
    pub cells: Vec<Option<Record>>,
    pub data_type: DataType,
}

impl Array for StructArray {
    fn as_any(&self) -> &dyn Any {
        self
    }

    fn data_type(&self) -> &DataType {
        &self.data_type
    }

    fn len(&self) -> usize {
        self.cells.len()
    }

    fn is_null(&self, index: usize) -> bool {
        self.cells[index].is_none()
    }
}

/// An array without rows: of records, the one kind that is asked for.
pub fn new_empty_array(data_type: &DataType) -> ArrayRef {
    assert!(matches!(data_type, DataType::Struct(_)));
    Arc::new(StructArray {
        cells: Vec::new(),
        data_type: data_type.clone(),
    })
}

/// An array as one of a certain kind; another kind is a panic.
pub trait AsArray {
    fn any(&self) -> &dyn Any;

    fn as_primitive<T: ArrowPrimitiveType>(&self) -> &PrimitiveArray<T> {
        self.any().downcast_ref().expect("primitive array")
    }

    fn as_boolean(&self) -> &BooleanArray {
        self.any().downcast_ref().expect("boolean array")
    }

    fn as_binary<O: OffsetSizeTrait>(&self) -> &GenericBinaryArray<O> {
        self.any().downcast_ref().expect("binary array")
    }

    fn as_binary_view(&self) -> &BinaryViewArray {
        self.any().downcast_ref().expect("binary view array")
    }

    fn as_string<O: OffsetSizeTrait>(&self) -> &GenericStringArray<O> {
        self.any().downcast_ref().expect("string array")
    }

    fn as_string_view(&self) -> &StringViewArray {
        self.any().downcast_ref().expect("string view array")
    }

    fn as_struct(&self) -> &StructArray {
        self.any().downcast_ref().expect("struct array")
    }
}

impl AsArray for ArrayRef {
    fn any(&self) -> &dyn Any {
        self.as_any()
    }
}

impl AsArray for dyn Array + '_ {
    fn any(&self) -> &dyn Any {
        self.as_any()
    }
}
