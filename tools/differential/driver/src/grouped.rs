//! A grouped accumulator of the original's behind the scenario's calls.

use std::sync::Arc;

use arrow::array::{Array, ArrayRef, AsArray, BooleanArray};
use datafusion_common::Result;
use datafusion_expr::{EmitTo, GroupsAccumulator};

use crate::checks::{Given, Refusal, check_conversion, check_emission, check_grouped};
use crate::columns::{Flags, cells_of};
use crate::output::{Part, column_parts, fill, flag_parts};
use crate::scenario::{Count, Making, Room};
use crate::theirs::{ask, columns, columns_and_flags, grouped};

/// The accumulator, how many groups it holds, and the calls that it took.
pub struct Grouped {
    pub making: Making,
    inner: Box<dyn GroupsAccumulator>,
    held: usize,
    taken: Vec<Step>,
    checked: bool,
}

/// A call that the original takes.
enum Step {
    Update(Vec<ArrayRef>, Vec<usize>, Option<BooleanArray>, usize),
    Merge(Vec<ArrayRef>, Vec<usize>, usize),
    Evaluate(EmitTo),
    State(EmitTo),
}

impl Step {
    /// The original's answer.
    fn ask(&self, inner: &mut dyn GroupsAccumulator) -> Result<Vec<ArrayRef>> {
        match self {
            Step::Update(columns, groups, filter, total) => inner
                .update_batch(columns, groups, filter.as_ref(), *total)
                .map(|()| Vec::new()),
            Step::Merge(columns, groups, total) => inner
                .merge_batch(columns, groups, *total)
                .map(|()| Vec::new()),
            Step::Evaluate(leaving) => Ok(vec![inner.evaluate(*leaving)?]),
            Step::State(leaving) => inner.state(*leaving),
        }
    }
}

impl Grouped {
    /// An accumulator of no group; `checked` says whether calls that the stage declines are kept from the original.
    pub fn new(making: &Making, checked: bool) -> Grouped {
        Grouped {
            inner: grouped(making),
            making: making.clone(),
            held: 0,
            taken: Vec::new(),
            checked,
        }
    }

    /// A refusal, where refusals are looked for.
    fn declined(&self, refusal: Option<Refusal>) -> Option<String> {
        refusal
            .filter(|_| self.checked)
            .map(|refusal| refusal.to_string())
    }

    /// Makes the accumulator again and lets it take the same calls, so that the last answer is undone.
    fn take_back(&mut self) {
        self.inner = grouped(&self.making);
        for step in &self.taken {
            // It took each of these calls before.
            let _ = ask(|| step.ask(self.inner.as_mut()));
        }
    }

    /// `update` and `merge`.
    pub fn batch(
        &mut self,
        given: &Given,
        groups: Vec<usize>,
        total: usize,
        merges: bool,
    ) -> String {
        let refusal = check_grouped(&self.making, given, &groups, total, self.held);
        if let Some(declined) = self.declined(refusal) {
            return declined;
        }
        let step = if merges {
            Step::Merge(columns_and_flags(given), groups, total)
        } else {
            let filter = given.mask.as_ref().map(Flags::array);
            Step::Update(columns(given), groups, filter, total)
        };
        self.held = total;
        match ask(|| step.ask(self.inner.as_mut())) {
            Ok(_) => {
                self.taken.push(step);
                "ok".to_string()
            }
            Err(failure) => failure,
        }
    }

    /// `evaluate` and `state`, with the list of open group numbers.
    pub fn emit(&mut self, count: Count, room: &Room, states: bool, open: &mut [u32]) -> String {
        let (leaving, emit_to) = match count {
            Count::All => (self.held, EmitTo::All),
            Count::First(leaving) => (leaving, EmitTo::First(leaving)),
        };
        if let Some(declined) = self.declined(check_emission(leaving, self.held, states)) {
            return declined;
        }
        let step = if states {
            Step::State(emit_to)
        } else {
            Step::Evaluate(emit_to)
        };
        let arrays = match ask(|| step.ask(self.inner.as_mut())) {
            Ok(arrays) => arrays,
            Err(failure) => return failure,
        };
        if arrays.iter().any(|array| array.len() != leaving) {
            return format!("rust-odd not {leaving} rows");
        }
        match fill(self.parts(&arrays, states), room) {
            Ok(parts) => {
                self.taken.push(step);
                self.held -= leaving;
                renumber(open, leaving);
                format!("ok dropped={leaving} {} {parts}", open_list(open))
            }
            Err(refusal) => {
                self.take_back();
                refusal.to_string()
            }
        }
    }

    /// The output parts of the arrays of an emission.
    fn parts(&self, arrays: &[ArrayRef], states: bool) -> Vec<Part> {
        let mut parts = column_parts("values", self.making.value, &cells_of(&arrays[0]));
        if states {
            let (flags, keys) = arrays[1..].split_last().expect("flags at the end");
            for (key, array) in keys.iter().enumerate() {
                let name = format!("key{}", key + 1);
                parts.extend(column_parts(&name, self.making.key, &cells_of(array)));
            }
            parts.extend(flag_parts(&Flags::of_array(flags.as_boolean())));
        }
        parts
    }

    /// `convert`: the caller's own columns must stand, and the flags are written.
    pub fn convert(&self, given: &Given, room: &Room) -> String {
        if let Some(declined) = self.declined(check_conversion(&self.making, given)) {
            return declined;
        }
        let columns = columns(given);
        let filter = given.mask.as_ref().map(Flags::array);
        let answer = ask(|| self.inner.convert_to_state(&columns, filter.as_ref()));
        let arrays = match answer {
            Ok(arrays) => arrays,
            Err(failure) => return failure,
        };
        let (flags, stand) = arrays.split_last().expect("flags at the end");
        let same = |(one, other)| Arc::ptr_eq(one, other);
        if stand.len() != columns.len() || !stand.iter().zip(&columns).all(same) {
            return "rust-odd other columns".to_string();
        }
        let flags = Flags::of_array(flags.as_boolean());
        fill(flag_parts(&flags), room).map_or_else(
            |refusal: Refusal| refusal.to_string(),
            |parts| format!("ok {parts}"),
        )
    }
}

/// The number of a group that has left.
const FINISHED: u32 = u32::MAX;

/// The open group numbers after so many groups have left.
fn renumber(open: &mut [u32], dropped: usize) {
    for group in open {
        *group = match (*group as usize).checked_sub(dropped) {
            Some(reduced) if *group != FINISHED => reduced as u32,
            _ => FINISHED,
        };
    }
}

/// The list of open group numbers as it is shown.
pub fn open_list(open: &[u32]) -> String {
    let word = |group: &u32| match *group {
        FINISHED => "finished".to_string(),
        group => group.to_string(),
    };
    let words: Vec<String> = open.iter().map(word).collect();
    format!("open=[{}]", words.join(" "))
}
