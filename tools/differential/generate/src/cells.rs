//! Cells and columns as the scenario format writes them.

use crate::chance::Chance;

/// What cells a column has.
#[derive(Debug, Clone, Copy, PartialEq, Eq)]
pub enum Kind {
    Number,
    Bytes,
    Record,
}

pub const KINDS: [Kind; 3] = [Kind::Number, Kind::Bytes, Kind::Record];

/// A cell that is not null.
#[derive(Debug, Clone)]
pub enum Value {
    Number(i64),
    Bytes(Vec<u8>),
    Record([Option<i64>; 3]),
}

pub type Cell = Option<Value>;

impl Kind {
    pub fn name(self) -> &'static str {
        match self {
            Kind::Number => "number",
            Kind::Bytes => "bytes",
            Kind::Record => "record",
        }
    }

    fn number(self) -> u32 {
        match self {
            Kind::Number => 1,
            Kind::Bytes => 2,
            Kind::Record => 3,
        }
    }
}

/// `x` and two hexadecimal digits for each byte.
pub fn hex(bytes: &[u8]) -> String {
    let digits: Vec<String> = bytes.iter().map(|byte| format!("{byte:02x}")).collect();
    format!("x{}", digits.concat())
}

/// Items in brackets.
pub fn list<T: ToString>(items: &[T]) -> String {
    let words: Vec<String> = items.iter().map(T::to_string).collect();
    format!("[{}]", words.join(" "))
}

/// A cell as a word.
fn word(cell: &Cell) -> String {
    let field = |field: &Option<i64>| field.map_or("_".to_string(), |number| number.to_string());
    match cell {
        None => "null".to_string(),
        Some(Value::Number(number)) => number.to_string(),
        Some(Value::Bytes(bytes)) => hex(bytes),
        Some(Value::Record(record)) => record.each_ref().map(field).join("/"),
    }
}

/// A column by its cells.
pub fn by_cells(cells: &[Cell]) -> String {
    let words: Vec<String> = cells.iter().map(word).collect();
    list(&words)
}

/// Bits as bytes, the lowest bit first; the spare ones are as said.
fn pack(bits: &[bool], spare: bool) -> Vec<u8> {
    let mut bits = bits.to_vec();
    bits.resize(bits.len().div_ceil(8) * 8, spare);
    let byte = |bits: &[bool]| (0..8).map(|place| u8::from(bits[place]) << place).sum();
    bits.chunks(8).map(byte).collect()
}

/// A value's bytes in a column's data.
fn data_of(value: &Value) -> Vec<u8> {
    match value {
        Value::Number(number) => number.to_le_bytes().to_vec(),
        Value::Bytes(bytes) => bytes.clone(),
        Value::Record(record) => {
            let mut data = pack(&record.map(|field| field.is_some()), false);
            for field in record {
                data.extend(field.unwrap_or(0).to_le_bytes());
            }
            data
        }
    }
}

/// A column's parts: what the format writes of them.
pub struct Parts {
    pub kind: u32,
    pub rows: usize,
    pub validity: Option<Vec<u8>>,
    pub offsets: Option<Vec<u32>>,
    pub data: Vec<u8>,
}

impl Parts {
    pub fn text(&self) -> String {
        let none = || "none".to_string();
        format!(
            "{{kind={} rows={} validity={} offsets={} data={}}}",
            self.kind,
            self.rows,
            self.validity.as_deref().map_or_else(none, hex),
            self.offsets.as_deref().map_or_else(none, list),
            hex(&self.data)
        )
    }
}

/// A column by its parts, with what cells cannot show: validity though nothing is null, spare bits, an offset that begins
/// above 0, data behind the last string, and values under nulls, strings of 40 bytes among them.
pub fn parts_of(kind: Kind, cells: &[Cell], chance: &mut Chance) -> Parts {
    let valid: Vec<bool> = cells.iter().map(Option::is_some).collect();
    let spare = chance.percent(50);
    let needed = valid.contains(&false) || chance.percent(50);
    let mut data = if kind == Kind::Bytes {
        vec![0x55; chance.below(3)]
    } else {
        Vec::new()
    };
    let mut offsets = vec![data.len() as u32];
    for cell in cells {
        let under = match kind {
            Kind::Number => Value::Number(chance.number()),
            Kind::Bytes => Value::Bytes(vec![0x66; *chance.of(&[0, 1, 40])]),
            Kind::Record => Value::Record([Some(chance.number()), None, Some(7)]),
        };
        data.extend(data_of(cell.as_ref().unwrap_or(&under)));
        offsets.push(data.len() as u32);
    }
    if kind == Kind::Bytes {
        data.extend(vec![0x77; chance.below(3)]);
    }
    Parts {
        kind: kind.number(),
        rows: cells.len(),
        validity: needed.then(|| pack(&valid, spare)),
        offsets: (kind == Kind::Bytes).then_some(offsets),
        data,
    }
}

/// A boolean column: true, false, null over false, null over true.
pub fn flags(cells: &[char]) -> String {
    list(cells)
}

/// The same by its parts, with spare bits.
pub fn flag_parts(cells: &[char], chance: &mut Chance) -> String {
    let spare = chance.percent(50);
    let bits: Vec<bool> = cells.iter().map(|cell| matches!(cell, '1' | 'n')).collect();
    let valid: Vec<bool> = cells.iter().map(|cell| matches!(cell, '0' | '1')).collect();
    let needed = valid.contains(&false) || chance.percent(50);
    let validity = if needed {
        hex(&pack(&valid, spare))
    } else {
        "none".to_string()
    };
    let bits = hex(&pack(&bits, spare));
    format!("{{rows={} bits={bits} validity={validity}}}", cells.len())
}

/// Keys and numbers at which comparisons turn.
const NUMBERS: [i64; 9] = [
    i64::MIN,
    i64::MIN + 1,
    -256,
    -1,
    0,
    1,
    256,
    i64::MAX - 1,
    i64::MAX,
];

/// Bytes at which comparisons turn.
const BYTES: [u8; 6] = [0x00, 0x01, 0x61, 0x7f, 0x80, 0xff];

/// How a column's cells are drawn.
#[derive(Debug, Clone, Copy)]
pub enum Draw {
    /// Few different ones, so that many tie.
    Few,
    /// All the same.
    Same,
    /// Those at which comparisons turn.
    Turning,
    /// Anything.
    Any,
}

pub const DRAWS: [Draw; 4] = [Draw::Few, Draw::Same, Draw::Turning, Draw::Any];

/// A number.
fn number(draw: Draw, chance: &mut Chance) -> i64 {
    match draw {
        Draw::Few => chance.below(3) as i64 - 1,
        Draw::Same => 5,
        Draw::Turning => *chance.of(&NUMBERS),
        Draw::Any => chance.number(),
    }
}

/// A byte string of at most 32 bytes.
fn string(draw: Draw, chance: &mut Chance) -> Vec<u8> {
    match draw {
        Draw::Few => [&b""[..], b"a", b"ab", b"\xff"][chance.below(4)].to_vec(),
        Draw::Same => b"same".to_vec(),
        Draw::Turning => {
            // One long prefix, so that the last byte or the length decides.
            let mut string = vec![0x61; *chance.of(&[0, 1, 30, 31])];
            string.extend((chance.percent(60)).then(|| *chance.of(&BYTES)));
            string
        }
        Draw::Any => {
            let length = chance.below(33);
            (0..length).map(|_| *chance.of(&BYTES)).collect()
        }
    }
}

/// A cell of a kind.
pub fn cell(kind: Kind, draw: Draw, nulls: usize, chance: &mut Chance) -> Cell {
    let null = chance.percent(nulls);
    let value = match kind {
        Kind::Number => Value::Number(number(draw, chance)),
        Kind::Bytes => Value::Bytes(string(draw, chance)),
        Kind::Record => Value::Record([(); 3].map(|()| {
            let field = number(draw, chance);
            chance.percent(70).then_some(field)
        })),
    };
    (!null).then_some(value)
}

/// Cells of a kind.
pub fn cells(kind: Kind, rows: usize, chance: &mut Chance) -> Vec<Cell> {
    let draw = *chance.of(&DRAWS);
    let nulls = *chance.of(&[0, 20, 20, 60]);
    (0..rows).map(|_| cell(kind, draw, nulls, chance)).collect()
}
