//! Output parts: the layout of what is written, and the buffers that the scenario gives it.

use crate::checks::{Refusal, short};
use crate::columns::{Cell, Flags, Kind, Parts, pack};
use crate::scenario::Room;

/// What a buffer holds before a call.
const BYTE: u8 = 0xaa;
const OFFSET: u32 = 0xaaaa_aaaa;

/// What is written into one buffer.
enum Piece {
    Bytes(Vec<u8>),
    Offsets(Vec<u32>),
}

/// One buffer's name and what is written into it.
pub struct Part {
    name: String,
    piece: Piece,
}

/// The parts of a column: validity, offsets for byte strings, data; a null's bytes and the spare bits are zero.
pub fn column_parts(column: &str, kind: Kind, cells: &[Cell]) -> Vec<Part> {
    let written = Parts::of_cells(kind, cells);
    let part = |name: &str, piece| Part {
        name: format!("{column}.{name}"),
        piece,
    };
    let mut parts = vec![part("validity", Piece::Bytes(written.validity))];
    if kind == Kind::Bytes {
        parts.push(part("offsets", Piece::Offsets(written.offsets)));
    }
    parts.push(part("data", Piece::Bytes(written.data)));
    parts
}

/// The parts of the flags: value bits and validity.
pub fn flag_parts(flags: &Flags) -> Vec<Part> {
    let part = |name: &str, bits: &[bool]| Part {
        name: format!("flags.{name}"),
        piece: Piece::Bytes(pack(bits)),
    };
    let true_bits: Vec<bool> = (0..flags.len()).map(|row| flags.is_true(row)).collect();
    vec![part("bits", &true_bits), part("validity", &flags.valid)]
}

/// The parts as they read after the call, whole, or SPACE where one of them was too short.
pub fn fill(parts: Vec<Part>, room: &Room) -> Result<String, Refusal> {
    let mut words = Vec::new();
    for Part { name, piece } in parts {
        if matches!(room, Room::Less(short_one) if *short_one == name) && !piece.is_empty() {
            return Err(short(&name));
        }
        let more = match room {
            Room::More(more) => *more,
            _ => 0,
        };
        words.push(format!("{name}={}", piece.with_room(more)));
    }
    Ok(words.join(" "))
}

impl Piece {
    /// Whether nothing is written.
    fn is_empty(&self) -> bool {
        match self {
            Piece::Bytes(bytes) => bytes.is_empty(),
            Piece::Offsets(offsets) => offsets.is_empty(),
        }
    }

    /// What is written, and behind it so much of what the buffer held.
    fn with_room(self, more: usize) -> String {
        match self {
            Piece::Bytes(mut bytes) => {
                bytes.resize(bytes.len() + more, BYTE);
                hex(&bytes)
            }
            Piece::Offsets(mut offsets) => {
                offsets.resize(offsets.len() + more, OFFSET);
                let offsets: Vec<String> = offsets.iter().map(u32::to_string).collect();
                format!("[{}]", offsets.join(" "))
            }
        }
    }
}

/// `x` and two hexadecimal digits for each byte.
fn hex(bytes: &[u8]) -> String {
    let digits = bytes.iter().map(|byte| format!("{byte:02x}"));
    std::iter::once("x".to_string()).chain(digits).collect()
}
