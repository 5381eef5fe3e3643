//! Types of columns, and fields.

use std::collections::HashMap;
use std::fmt::Debug;
use std::sync::Arc;

#[derive(Debug, Clone, Copy, PartialEq, Eq, Hash)]
pub enum TimeUnit {
    Second,
    Millisecond,
    Microsecond,
    Nanosecond,
}

/// The type of a column. The kinds that the comparison uses are `Int64`, `Binary`, `Struct` (a record) and `Boolean`.
#[derive(Debug, Clone, PartialEq, Eq, Hash)]
pub enum DataType {
    Null,
    Boolean,
    Int8,
    Int16,
    Int32,
    Int64,
    UInt8,
    UInt16,
    UInt32,
    UInt64,
    Float16,
    Float32,
    Float64,
    Decimal32(u8, i8),
    Decimal64(u8, i8),
    Decimal128(u8, i8),
    Decimal256(u8, i8),
    Timestamp(TimeUnit, Option<Arc<str>>),
    Date32,
    Date64,
    Time32(TimeUnit),
    Time64(TimeUnit),
    Utf8,
    LargeUtf8,
    Utf8View,
    Binary,
    LargeBinary,
    BinaryView,
    List(FieldRef),
    LargeList(FieldRef),
    ListView(FieldRef),
    LargeListView(FieldRef),
    FixedSizeList(FieldRef, i32),
    /// A record: its fields are all numbers of 64 bits that may be absent.
    Struct(Vec<FieldRef>),
    Map(FieldRef, bool),
}

impl std::fmt::Display for DataType {
    fn fmt(&self, f: &mut std::fmt::Formatter) -> std::fmt::Result {
        write!(f, "{self:?}")
    }
}

pub type FieldRef = Arc<Field>;

/// A column's name and type.
#[derive(Debug, Clone, PartialEq, Eq)]
pub struct Field {
    name: String,
    data_type: DataType,
    nullable: bool,
    metadata: HashMap<String, String>,
}

impl std::hash::Hash for Field {
    fn hash<H: std::hash::Hasher>(&self, state: &mut H) {
        self.name.hash(state);
        self.data_type.hash(state);
        self.nullable.hash(state);
    }
}

impl Field {
    pub fn new(name: impl Into<String>, data_type: DataType, nullable: bool) -> Self {
        Field {
            name: name.into(),
            data_type,
            nullable,
            metadata: HashMap::new(),
        }
    }

    pub fn with_metadata(self, metadata: HashMap<String, String>) -> Self {
        Field { metadata, ..self }
    }

    pub fn metadata(&self) -> &HashMap<String, String> {
        &self.metadata
    }

    pub fn data_type(&self) -> &DataType {
        &self.data_type
    }
}

/// The columns of a table; the types of order columns are carried by the order's own expressions here.
#[derive(Debug, Clone, Default)]
pub struct Schema;

/// A type whose cells are numbers.
pub trait ArrowPrimitiveType: Send + Sync + Debug + 'static {
    type Native: Copy + Default + Debug + Send + Sync + 'static;
    const DATA_TYPE: DataType;

    fn default_value() -> Self::Native {
        Self::Native::default()
    }
}

// Each line: the name, what a cell is in memory, and the type of a column of such cells.
macro_rules! primitive_types {
    ($($name:ident, $native:ty, $data_type:expr;)*) => { $(
        #[derive(Debug)]
        pub struct $name;

        impl ArrowPrimitiveType for $name {
            type Native = $native;
            const DATA_TYPE: DataType = $data_type;
        }
    )* };
}

primitive_types! {
    Int8Type, i8, DataType::Int8;
    Int16Type, i16, DataType::Int16;
    Int32Type, i32, DataType::Int32;
    Int64Type, i64, DataType::Int64;
    UInt8Type, u8, DataType::UInt8;
    UInt16Type, u16, DataType::UInt16;
    UInt32Type, u32, DataType::UInt32;
    UInt64Type, u64, DataType::UInt64;
    Float16Type, u16, DataType::Float16;
    Float32Type, f32, DataType::Float32;
    Float64Type, f64, DataType::Float64;
    Decimal32Type, i32, DataType::Decimal32(9, 0);
    Decimal64Type, i64, DataType::Decimal64(18, 0);
    Decimal128Type, i128, DataType::Decimal128(38, 0);
    Decimal256Type, [i128; 2], DataType::Decimal256(76, 0);
    Date32Type, i32, DataType::Date32;
    Date64Type, i64, DataType::Date64;
    Time32SecondType, i32, DataType::Time32(TimeUnit::Second);
    Time32MillisecondType, i32, DataType::Time32(TimeUnit::Millisecond);
    Time64MicrosecondType, i64, DataType::Time64(TimeUnit::Microsecond);
    Time64NanosecondType, i64, DataType::Time64(TimeUnit::Nanosecond);
    TimestampSecondType, i64, DataType::Timestamp(TimeUnit::Second, None);
    TimestampMillisecondType, i64, DataType::Timestamp(TimeUnit::Millisecond, None);
    TimestampMicrosecondType, i64, DataType::Timestamp(TimeUnit::Microsecond, None);
    TimestampNanosecondType, i64, DataType::Timestamp(TimeUnit::Nanosecond, None);
}
