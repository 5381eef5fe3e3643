//! An accumulator of the original's without groups behind the scenario's calls, and what the rules ask beside it.

use datafusion_common::{Result, ScalarValue};
use datafusion_expr::Accumulator;

use crate::asked::{Asked, Row};
use crate::checks::{Given, check_single};
use crate::columns::{Cell, Flags, cells_of};
use crate::output::{column_parts, fill, flag_parts};
use crate::scenario::{Making, Room};
use crate::theirs::{ask, columns, columns_and_flags, single};

/// The accumulator, and what is asked of it.
pub struct Single {
    pub making: Making,
    inner: Box<dyn Accumulator>,
    asked: Asked,
    checked: bool,
}

/// The original's answer; where the rules ask another one, that too, and the name of the difference.
fn beside(original: String, asked: String, name: &str) -> String {
    if original == asked {
        original
    } else {
        format!("{original} ## {name} ## {asked}")
    }
}

/// A single cell of the original's.
fn cell_of(cell: ScalarValue) -> Result<Cell> {
    let cells = cells_of(&ScalarValue::iter_to_array([cell])?);
    Ok(cells.into_iter().next().flatten())
}

impl Single {
    /// An accumulator that is unset; `checked` says whether calls that the stage declines are kept from the original.
    pub fn new(making: &Making, checked: bool) -> Single {
        Single {
            inner: single(making),
            making: making.clone(),
            asked: Asked::new(making),
            checked,
        }
    }

    /// `update` and `merge`.
    pub fn batch(&mut self, given: &Given, merges: bool) -> String {
        let refusal = check_single(&self.making, given);
        if let Some(refusal) = refusal.filter(|_| self.checked) {
            return refusal.to_string();
        }
        let inner = &mut self.inner;
        let answer = ask(|| match merges {
            true => inner.merge_batch(&columns_and_flags(given)),
            false => inner.update_batch(&columns(given)),
        });
        if refusal.is_some() {
            return answer.map_or_else(|failure| failure, |()| "ok".to_string());
        }
        let name = self.asked.batch(given, merges);
        let answer = answer.map_or_else(|failure| failure, |()| "ok".to_string());
        beside(answer, "ok".to_string(), name.unwrap_or("unnamed"))
    }

    /// `evaluate` and `state`: one row, and nothing is dropped.
    pub fn emit(&mut self, room: &Room, states: bool) -> String {
        let inner = &mut self.inner;
        let cells = ask(|| match states {
            true => inner.state(),
            false => Ok(vec![inner.evaluate()?]),
        });
        let row = cells.and_then(|cells| ask(|| held_row(cells, states)));
        let original = match row {
            Ok((row, set)) => self.shown(&row, set, room, states),
            Err(failure) => return failure,
        };
        let [asked, known] = [self.asked.row(), self.asked.known_row()].map(|row| {
            let unset = Row {
                value: None,
                key: vec![None; self.making.options.len()],
            };
            self.shown(row.unwrap_or(&unset), row.is_some(), room, states)
        });
        let name = if original == known {
            self.asked.names()
        } else {
            "unnamed".to_string()
        };
        beside(original, asked, &name)
    }

    /// The answer that shows a row and its flag.
    fn shown(&self, row: &Row, set: bool, room: &Room, states: bool) -> String {
        let mut parts = column_parts(
            "values",
            self.making.value,
            std::slice::from_ref(&row.value),
        );
        if states {
            for (key, cell) in row.key.iter().enumerate() {
                let name = format!("key{}", key + 1);
                let cells = std::slice::from_ref(cell);
                parts.extend(column_parts(&name, self.making.key, cells));
            }
            parts.extend(flag_parts(&Flags {
                bits: vec![set],
                valid: vec![true],
            }));
        }
        match fill(parts, room) {
            Ok(parts) => format!("ok {parts}"),
            Err(refusal) => refusal.to_string(),
        }
    }
}

/// The row and the flag that the original's cells say; the value alone where no state was asked.
fn held_row(mut cells: Vec<ScalarValue>, states: bool) -> Result<(Row, bool)> {
    let set = states && cells.pop() == Some(ScalarValue::Boolean(Some(true)));
    let mut cells = cells
        .into_iter()
        .map(cell_of)
        .collect::<Result<Vec<Cell>>>()?;
    let value = cells.remove(0);
    Ok((Row { value, key: cells }, set))
}
