//! What the rules ask of an accumulator without groups, told beside the original: where the original is known to err, both
//! answers are shown. Nothing here is taken from either program; a held row is followed twice, as the rules ask and as the
//! original is known to go, so that a difference has a name only where it is the one that the name says.

use std::cmp::Ordering;

use crate::checks::Given;
use crate::columns::{Cell, Value};
use crate::scenario::Making;

/// A pre-ordered LAST takes a batch of no rows: the original computes the last row's number before it looks.
const NO_ROWS: &str = "pre-ordered-last-without-rows";
/// A pre-ordered LAST merges a row that the held one beats: the original replaces it even then.
const OLDER_MERGED: &str = "pre-ordered-last-merges-older";
/// A pre-ordered accumulator whose row came by a merge takes rows: the original does not compare.
const NOT_COMPARED: &str = "pre-ordered-update-after-merge";

/// A row: its value and its key.
#[derive(Debug, Clone, PartialEq)]
pub struct Row {
    pub value: Cell,
    pub key: Vec<Cell>,
}

/// The row that is held, and whether it came by a merge.
#[derive(Debug, Clone, PartialEq, Default)]
struct Lane {
    held: Option<(Row, bool)>,
}

/// What is held as the rules ask, and as the original is known to go.
pub struct Asked {
    making: Making,
    rules: Lane,
    known: Lane,
    names: Vec<&'static str>,
}

/// Which of two cells comes first, by one column's options.
fn compare_cells(left: &Cell, right: &Cell, descending: bool, nulls_first: bool) -> Ordering {
    let by_value = match (left, right) {
        (Some(Value::Number(left)), Some(Value::Number(right))) => left.cmp(right),
        (Some(Value::Bytes(left)), Some(Value::Bytes(right))) => left.cmp(right),
        _ => Ordering::Equal,
    };
    let by_null = right.is_none().cmp(&left.is_none());
    let by_null = if nulls_first {
        by_null
    } else {
        by_null.reverse()
    };
    by_null.then(if descending {
        by_value.reverse()
    } else {
        by_value
    })
}

impl Making {
    /// Whether a key beats another: smaller for FIRST, larger for LAST.
    fn beats(&self, left: &[Cell], right: &[Cell]) -> bool {
        let mut columns = left.iter().zip(right).zip(&self.options);
        let verdict = columns
            .find_map(|((left, right), options)| {
                let verdict = compare_cells(left, right, options.descending, options.nulls_first);
                verdict.is_ne().then_some(verdict)
            })
            .unwrap_or(Ordering::Equal);
        if self.first {
            verdict.is_lt()
        } else {
            verdict.is_gt()
        }
    }

    /// The row that a batch brings: in order of arrival where rows come ordered, else the earliest for FIRST and the latest
    /// for LAST of those that no other beats.
    fn picked(&self, rows: &[Row], in_order: bool) -> Option<Row> {
        let top =
            |row: &&Row| in_order || !rows.iter().any(|other| self.beats(&other.key, &row.key));
        let mut tops = rows.iter().filter(top);
        if self.first {
            tops.next()
        } else {
            tops.next_back()
        }
        .cloned()
    }
}

impl Lane {
    /// Whether a picked row is stored.
    fn stores(&self, making: &Making, row: &Row, merges: bool, errs: bool) -> bool {
        let Some((held, came_merged)) = &self.held else {
            return true;
        };
        let beats = making.beats(&row.key, &held.key);
        let beaten = making.beats(&held.key, &row.key);
        match (making.pre_ordered, making.first) {
            (true, true) if !merges => !errs && *came_merged && beats,
            (true, false) if !merges => errs || !came_merged || !beaten,
            (true, false) => errs || !beaten,
            _ => beats,
        }
    }
}

impl Asked {
    /// Nothing is held.
    pub fn new(making: &Making) -> Asked {
        Asked {
            making: making.clone(),
            rules: Lane::default(),
            known: Lane::default(),
            names: Vec::new(),
        }
    }

    /// Takes a batch's rows in, and answers the name of the call's own difference where it has one.
    pub fn batch(&mut self, given: &Given, merges: bool) -> Option<&'static str> {
        let making = &self.making;
        let rows = rows_of(given);
        let eligible = |place: &usize| match &given.mask {
            Some(flags) => flags.is_true(*place),
            None => !making.ignore_nulls || rows[*place].value.is_some(),
        };
        let eligible: Vec<Row> = (0..rows.len())
            .filter(eligible)
            .map(|place| rows[place].clone())
            .collect();
        if let Some(row) = making.picked(&eligible, making.pre_ordered && !merges) {
            let asked = self.rules.stores(making, &row, merges, false);
            let known = self.known.stores(making, &row, merges, true);
            // (whether the original does at this row, over what it holds, what the rules do not ask)
            let errs = known != self.known.stores(making, &row, merges, false);
            if asked {
                self.rules.held = Some((row.clone(), merges));
            }
            if known {
                self.known.held = Some((row, merges));
            }
            let name = if merges { OLDER_MERGED } else { NOT_COMPARED };
            if errs && !self.names.contains(&name) {
                self.names.push(name);
            }
            if self.rules == self.known {
                self.names.clear();
            }
        }
        let panics = making.pre_ordered && !making.first && !making.ignore_nulls && !merges;
        (panics && rows.is_empty()).then_some(NO_ROWS)
    }

    /// The row that is held as the rules ask.
    pub fn row(&self) -> Option<&Row> {
        self.rules.held.as_ref().map(|(row, _)| row)
    }

    /// The row that the original is known to hold.
    pub fn known_row(&self) -> Option<&Row> {
        self.known.held.as_ref().map(|(row, _)| row)
    }

    /// The names of the differences that made the two rows differ.
    pub fn names(&self) -> String {
        self.names.join("+")
    }
}

/// The rows of a batch.
fn rows_of(given: &Given) -> Vec<Row> {
    let row = |place: usize| Row {
        value: given.values.cells[place].clone(),
        key: given
            .keys
            .iter()
            .map(|key| key.cells[place].clone())
            .collect(),
    };
    (0..given.values.cells.len()).map(row).collect()
}
