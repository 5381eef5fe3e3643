//! What is declined, written from the stage's rules and from nothing of either program: the first check that holds decides.

use crate::columns::{Column, Flags, Value};
use crate::scenario::Making;

/// Why a call is declined.
#[derive(Debug, Clone, Copy)]
pub struct Refusal {
    pub number: u32,
    pub layer: u32,
    pub column: usize,
    pub row: usize,
}

impl std::fmt::Display for Refusal {
    fn fmt(&self, f: &mut std::fmt::Formatter) -> std::fmt::Result {
        let Refusal {
            number,
            layer,
            column,
            row,
        } = self;
        write!(
            f,
            "declined {number} layer={layer} column={column} row={row}"
        )
    }
}

/// The layers of a refusal.
const COLUMN: u32 = 1;
const STATE: u32 = 2;
const ORDER: u32 = 3;
const ACCUMULATOR: u32 = 4;

/// The places of a refusal that are not values or order columns.
pub const MASK: usize = 4;
const CALL: usize = 9;

/// The columns of a call that could all be made.
#[derive(Debug)]
pub struct Given {
    pub values: Column,
    pub keys: Vec<Column>,
    /// The filter, or the set flags of a merge.
    pub mask: Option<Flags>,
}

/// A refusal of the accumulator, without a row.
fn by_accumulator(number: u32, column: usize) -> Refusal {
    Refusal {
        number,
        layer: ACCUMULATOR,
        column,
        row: 0,
    }
}

/// A refusal where a condition holds.
fn when(condition: bool, refusal: Refusal) -> Option<Refusal> {
    condition.then_some(refusal)
}

/// A column that cannot be made: 0 is the value column, 1 to 3 are order columns, and 4 is the filter or the flags.
pub fn unmade(number: u32, column: usize) -> Refusal {
    Refusal {
        number,
        layer: COLUMN,
        column,
        row: 0,
    }
}

/// COLS: as many order columns as the order reads, and one to three.
fn check_count(making: &Making, given: &Given) -> Option<Refusal> {
    when(
        given.keys.len() != making.options.len(),
        by_accumulator(4, CALL),
    )
}

/// KIND: the first column that is not of the kind that is read.
fn check_kinds(making: &Making, given: &Given) -> Option<Refusal> {
    let refusal = |layer, column| Refusal {
        number: 1,
        layer,
        column,
        row: 0,
    };
    let wrong = |key: &Column| key.kind != making.key;
    when(given.values.kind != making.value, refusal(STATE, 0)).or_else(|| {
        let key = given.keys.iter().position(wrong)?;
        Some(refusal(ORDER, 1 + key))
    })
}

/// ROWS: order columns, the filter or flags, then the indices against the value column.
fn check_rows(given: &Given, indices: Option<&[usize]>) -> Option<Refusal> {
    let rows = given.values.cells.len();
    let other = |key: &Column| key.cells.len() != rows;
    let key = given.keys.iter().position(other).map(|key| 1 + key);
    let mask = given.mask.as_ref().is_some_and(|mask| mask.len() != rows);
    let indices = indices.is_some_and(|indices| indices.len() != rows);
    let column = key.or(mask.then_some(MASK)).or(indices.then_some(CALL));
    column.map(|column| by_accumulator(3, column))
}

/// LONG: column by column, the lowest row with a string of more than 32 bytes.
fn check_lengths(given: &Given) -> Option<Refusal> {
    let long = |column: &Column| {
        column
            .cells
            .iter()
            .position(|cell| matches!(cell, Some(Value::Bytes(bytes)) if bytes.len() > 32))
    };
    let columns = std::iter::once(&given.values).chain(&given.keys);
    let mut found = columns.enumerate().filter_map(|(column, cells)| {
        Some(Refusal {
            number: 5,
            layer: if column == 0 { STATE } else { ORDER },
            column,
            row: long(cells)?,
        })
    });
    found.next()
}

/// TOTAL, SHRUNK, GROUP: the groups of a batch.
fn check_groups(indices: &[usize], total: usize, held: usize) -> Option<Refusal> {
    when(total > 256, by_accumulator(6, CALL))
        .or_else(|| when(total < held, by_accumulator(10, CALL)))
        .or_else(|| {
            let row = indices.iter().position(|index| *index >= total)?;
            Some(Refusal {
                row,
                ..by_accumulator(7, CALL)
            })
        })
}

/// A batch of a grouped accumulator.
pub fn check_grouped(
    making: &Making,
    given: &Given,
    indices: &[usize],
    total: usize,
    held: usize,
) -> Option<Refusal> {
    check_count(making, given)
        .or_else(|| check_kinds(making, given))
        .or_else(|| check_rows(given, Some(indices)))
        .or_else(|| check_groups(indices, total, held))
        .or_else(|| check_lengths(given))
}

/// A batch of an accumulator without groups; the flags of a merge may not be null.
pub fn check_single(making: &Making, given: &Given) -> Option<Refusal> {
    let null_flag = || {
        let row = given.mask.as_ref()?.valid.iter().position(|valid| !valid)?;
        Some(Refusal {
            row,
            ..by_accumulator(9, MASK)
        })
    };
    check_count(making, given)
        .or_else(|| check_kinds(making, given))
        .or_else(|| check_rows(given, None))
        .or_else(null_flag)
        .or_else(|| check_lengths(given))
}

/// A conversion: neither kinds nor lengths are looked at.
pub fn check_conversion(making: &Making, given: &Given) -> Option<Refusal> {
    check_count(making, given).or_else(|| check_rows(given, None))
}

/// FEWER, and EMPTY where states are asked: so many groups leave.
pub fn check_emission(leaving: usize, held: usize, states: bool) -> Option<Refusal> {
    when(leaving > held, by_accumulator(11, CALL))
        .or_else(|| when(states && leaving == 0, by_accumulator(12, CALL)))
}

/// SPACE, for the output part of this name.
pub fn short(part: &str) -> Refusal {
    let column = match part.as_bytes() {
        [b'k', b'e', b'y', digit, ..] => usize::from(digit - b'0'),
        [b'f', ..] => MASK,
        _ => 0,
    };
    Refusal {
        number: 8,
        layer: match column {
            0 => STATE,
            MASK => ACCUMULATOR,
            _ => ORDER,
        },
        column,
        row: 0,
    }
}
