//! Columns: their parts, whether they can be made, their cells, and the original's arrays of them.

use std::sync::Arc;

use arrow::array::{
    Array, ArrayRef, AsArray, BinaryArray, BooleanArray, Int64Array, Record, StructArray,
};
use arrow::buffer::{BooleanBuffer, NullBuffer};
use arrow::datatypes::{DataType, Field, Int64Type};

/// What cells a column has.
#[derive(Debug, Clone, Copy, PartialEq, Eq)]
pub enum Kind {
    Number,
    Bytes,
    Record,
}

impl Kind {
    /// The kind of a number, if it names one.
    pub fn of(number: u32) -> Option<Kind> {
        match number {
            1 => Some(Kind::Number),
            2 => Some(Kind::Bytes),
            3 => Some(Kind::Record),
            _ => None,
        }
    }

    /// The kind's number.
    pub fn number(self) -> u32 {
        match self {
            Kind::Number => 1,
            Kind::Bytes => 2,
            Kind::Record => 3,
        }
    }

    /// The type that stands for the kind on the original's side.
    pub fn data_type(self) -> DataType {
        match self {
            Kind::Number => DataType::Int64,
            Kind::Bytes => DataType::Binary,
            Kind::Record => {
                let field = |name| Arc::new(Field::new(name, DataType::Int64, true));
                DataType::Struct(vec![field("a"), field("b"), field("c")])
            }
        }
    }
}

/// A value of one of the kinds.
#[derive(Debug, Clone, PartialEq, Eq)]
pub enum Value {
    Number(i64),
    Bytes(Vec<u8>),
    Record(Record),
}

/// A cell: null, or a value.
pub type Cell = Option<Value>;

/// A column as it is handed over: a kind's number, rows, and three lists.
#[derive(Debug, Clone, Default)]
pub struct Parts {
    pub kind: u32,
    pub rows: usize,
    pub validity: Vec<u8>,
    pub offsets: Vec<u32>,
    pub data: Vec<u8>,
}

/// A column that could be made.
#[derive(Debug, Clone)]
pub struct Column {
    pub kind: Kind,
    pub cells: Vec<Cell>,
    /// What stands in the buffer, under nulls too, where the cells are numbers.
    numbers: Vec<i64>,
}

/// A boolean column as it is handed over.
#[derive(Debug, Clone, Default)]
pub struct BoolParts {
    pub rows: usize,
    pub bits: Vec<u8>,
    pub validity: Vec<u8>,
}

/// A boolean column that could be made: what the value bits say, under nulls too, and which rows are null.
#[derive(Debug, Clone)]
pub struct Flags {
    pub bits: Vec<bool>,
    pub valid: Vec<bool>,
}

/// The refusals of a column.
pub const KIND: u32 = 1;
pub const SHAPE: u32 = 2;

/// Most rows of a column.
const ROWS: usize = 1024;

/// A row's bit: the lowest bit of a byte comes first.
fn bit(bytes: &[u8], row: usize) -> bool {
    bytes[row / 8] >> (row % 8) & 1 == 1
}

/// Bits as bytes, the spare ones zero.
pub fn pack(bits: &[bool]) -> Vec<u8> {
    let byte = |bits: &[bool]| {
        (0..bits.len())
            .map(|place| u8::from(bits[place]) << place)
            .sum()
    };
    bits.chunks(8).map(byte).collect()
}

/// Which rows are not null: all of them where there are no validity bytes.
fn valid_rows(validity: &[u8], rows: usize) -> Vec<bool> {
    let valid = |row| validity.is_empty() || bit(validity, row);
    (0..rows).map(valid).collect()
}

/// Whether there are no validity bytes, or as many as the rows need.
fn validity_fits(validity: &[u8], rows: usize) -> bool {
    validity.is_empty() || validity.len() == rows.div_ceil(8)
}

/// Eight bytes as a number.
fn number_at(bytes: &[u8]) -> i64 {
    i64::from_le_bytes(bytes.try_into().expect("eight bytes"))
}

/// The record of 25 bytes, or none where its form is broken.
fn record_at(bytes: &[u8]) -> Option<Record> {
    let presence = bytes[0];
    let mut record = [None; 3];
    for (field, place) in record.iter_mut().zip(0..3) {
        let number = number_at(&bytes[1 + 8 * place..9 + 8 * place]);
        let there = presence >> place & 1 == 1;
        *field = there.then_some(number);
        if !there && number != 0 {
            return None;
        }
    }
    (presence < 8).then_some(record)
}

impl Parts {
    /// The column of these parts, or the number of its refusal.
    pub fn column(&self) -> Result<Column, u32> {
        let kind = Kind::of(self.kind).ok_or(KIND)?;
        let fits = self.rows <= ROWS && validity_fits(&self.validity, self.rows);
        let values = if fits { self.values(kind) } else { None };
        let values = values.ok_or(SHAPE)?;
        let numbers = values.iter().filter_map(|value| match value {
            Value::Number(number) => Some(*number),
            _ => None,
        });
        let numbers = numbers.collect();
        let valid = valid_rows(&self.validity, self.rows);
        let cell = |(value, valid): (Value, bool)| valid.then_some(value);
        Ok(Column {
            kind,
            cells: values.into_iter().zip(valid).map(cell).collect(),
            numbers,
        })
    }

    /// What stands in each row, null or not; none where the parts do not fit.
    fn values(&self, kind: Kind) -> Option<Vec<Value>> {
        let size = match kind {
            Kind::Number => 8,
            Kind::Bytes => return self.strings(),
            Kind::Record => 25,
        };
        if !self.offsets.is_empty() || self.data.len() != size * self.rows {
            return None;
        }
        let value = |bytes| match kind {
            Kind::Record => record_at(bytes).map(Value::Record),
            _ => Some(Value::Number(number_at(bytes))),
        };
        self.data.chunks_exact(size).map(value).collect()
    }

    /// The same for byte strings.
    fn strings(&self) -> Option<Vec<Value>> {
        if self.offsets.len() != self.rows + 1 {
            return None;
        }
        let string = |ends: &[u32]| {
            let string = self.data.get(ends[0] as usize..ends[1] as usize)?;
            Some(Value::Bytes(string.to_vec()))
        };
        if *self.offsets.last()? as usize > self.data.len() {
            return None;
        }
        self.offsets.windows(2).map(string).collect()
    }

    /// The parts of a column of these cells; what stands under a null is zero, or an empty string.
    pub fn of_cells(kind: Kind, cells: &[Cell]) -> Parts {
        let valid: Vec<bool> = cells.iter().map(Option::is_some).collect();
        let mut parts = Parts {
            kind: kind.number(),
            rows: cells.len(),
            validity: pack(&valid),
            ..Parts::default()
        };
        if kind == Kind::Bytes {
            parts.offsets.push(0);
        }
        for cell in cells {
            match (kind, cell) {
                (_, Some(Value::Number(number))) => parts.data.extend(number.to_le_bytes()),
                (_, Some(Value::Bytes(bytes))) => parts.data.extend(bytes),
                (_, Some(Value::Record(record))) => parts.data.extend(record_bytes(record)),
                (Kind::Number, None) => parts.data.extend([0; 8]),
                (Kind::Record, None) => parts.data.extend([0; 25]),
                (Kind::Bytes, None) => {}
            }
            if kind == Kind::Bytes {
                parts.offsets.push(parts.data.len() as u32);
            }
        }
        parts
    }
}

/// A record's 25 bytes.
fn record_bytes(record: &Record) -> Vec<u8> {
    let mut bytes = pack(&record.map(|field| field.is_some()));
    for field in record {
        bytes.extend(field.unwrap_or(0).to_le_bytes());
    }
    bytes
}

impl Column {
    /// The original's array of these cells.
    pub fn array(&self) -> ArrayRef {
        match self.kind {
            Kind::Number => {
                let valid: Vec<bool> = self.cells.iter().map(Option::is_some).collect();
                let nulls = NullBuffer::new(BooleanBuffer::from(valid));
                Arc::new(Int64Array::new(self.numbers.clone().into(), Some(nulls)))
            }
            Kind::Bytes => {
                let cell = |cell: &Cell| match cell {
                    Some(Value::Bytes(bytes)) => Some(bytes.clone()),
                    _ => None,
                };
                Arc::new(BinaryArray::of_cells(self.cells.iter().map(cell).collect()))
            }
            Kind::Record => {
                let cell = |cell: &Cell| match cell {
                    Some(Value::Record(record)) => Some(*record),
                    _ => None,
                };
                Arc::new(StructArray {
                    cells: self.cells.iter().map(cell).collect(),
                    data_type: self.kind.data_type(),
                })
            }
        }
    }
}

/// The cells of one of the original's arrays; what stands under its nulls is left out.
pub fn cells_of(array: &ArrayRef) -> Vec<Cell> {
    let value = |row| match array.data_type() {
        DataType::Int64 => Value::Number(array.as_primitive::<Int64Type>().value(row)),
        DataType::Binary => Value::Bytes(array.as_binary::<i32>().value(row).to_vec()),
        _ => Value::Record(array.as_struct().cells[row].expect("a record that is not null")),
    };
    (0..array.len())
        .map(|row| array.is_valid(row).then(|| value(row)))
        .collect()
}

impl BoolParts {
    /// The boolean column of these parts, or the number of its refusal.
    pub fn flags(&self) -> Result<Flags, u32> {
        let fits = self.rows <= ROWS
            && self.bits.len() == self.rows.div_ceil(8)
            && validity_fits(&self.validity, self.rows);
        if !fits {
            return Err(SHAPE);
        }
        Ok(Flags {
            bits: (0..self.rows).map(|row| bit(&self.bits, row)).collect(),
            valid: valid_rows(&self.validity, self.rows),
        })
    }
}

impl Flags {
    /// How many rows there are.
    pub fn len(&self) -> usize {
        self.bits.len()
    }

    /// Whether a row is true and not null.
    pub fn is_true(&self, row: usize) -> bool {
        self.valid[row] && self.bits[row]
    }

    /// The original's array of these truth values.
    pub fn array(&self) -> BooleanArray {
        let nulls = NullBuffer::new(BooleanBuffer::from(self.valid.clone()));
        BooleanArray::new(BooleanBuffer::from(self.bits.clone()), Some(nulls))
    }

    /// The truth values of one of the original's arrays; those under nulls count as false.
    pub fn of_array(array: &BooleanArray) -> Flags {
        let rows = 0..array.len();
        Flags {
            bits: rows
                .clone()
                .map(|row| array.is_valid(row) && array.value(row))
                .collect(),
            valid: rows.map(|row| array.is_valid(row)).collect(),
        }
    }
}
