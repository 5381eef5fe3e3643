//! Reads a scenario and answers each command line as the original does.
//!
//! Calls that the stage declines are declined here by checks written from its rules, since the original panics at them or takes
//! them; every other call goes to the original. Its arrays are shown cell by cell in the stage's own layout, so what stands
//! under a null, spare bits and the form of its buffers are not compared. Where the original fails on a call of the stage, the answer begins
//! with `rust-error` or `rust-panic`; where an answer is not what the rules ask, it is `ANSWER ## NAME ## ASKED`.
//!
//! With the word `unchecked`, calls that the stage declines go to the original too, to see what it does with them.

mod asked;
mod checks;
mod columns;
mod grouped;
mod output;
mod scenario;
mod single;
mod theirs;
mod words;

use std::io::{BufRead, Write};

use checks::{Given, MASK, Refusal, unmade};
use columns::{BoolParts, Flags};
use grouped::{Grouped, open_list};
use scenario::{Call, Command, Making, parse};
use single::Single;

/// One of the two forms of accumulators.
enum Accumulator {
    Grouped(Grouped),
    Single(Single),
}

/// The accumulator that is driven, and the list of open group numbers.
#[derive(Default)]
struct Driver {
    accumulator: Option<Accumulator>,
    open: Vec<u32>,
    unchecked: bool,
}

impl Accumulator {
    /// How it was made.
    fn making(&self) -> &Making {
        match self {
            Accumulator::Grouped(grouped) => &grouped.making,
            Accumulator::Single(single) => &single.making,
        }
    }
}

/// The columns of a call, made in their order, or the first that cannot be made.
fn given(call: &Call) -> Result<Given, Refusal> {
    let values = call.values.clone().unwrap_or_default();
    let values = values.column().map_err(|number| unmade(number, 0))?;
    let mut keys = Vec::new();
    for (key, parts) in call.keys.iter().enumerate() {
        let place = (1 + key).min(3);
        keys.push(parts.column().map_err(|number| unmade(number, place))?);
    }
    let mask: Option<&BoolParts> = call.filter.as_ref().or(call.flags.as_ref());
    let mask: Option<Result<Flags, u32>> = mask.map(BoolParts::flags);
    let mask = mask.transpose().map_err(|number| unmade(number, MASK))?;
    Ok(Given { values, keys, mask })
}

impl Driver {
    /// The answer to a line.
    fn answer(&mut self, line: &str) -> String {
        let making = self.accumulator.as_ref().map(Accumulator::making);
        match parse(line, making) {
            None => "malformed".to_string(),
            Some(Command::Make(making)) => self.make(&making),
            Some(Command::Open(open)) => {
                self.open = open;
                open_list(&self.open)
            }
            Some(command) => self.call(command),
        }
    }

    /// A new accumulator, and no open group numbers.
    fn make(&mut self, making: &Making) -> String {
        self.open.clear();
        self.accumulator = Some(match making.grouped {
            true => Accumulator::Grouped(Grouped::new(making, !self.unchecked)),
            false => Accumulator::Single(Single::new(making, !self.unchecked)),
        });
        "made".to_string()
    }

    /// The answer to a call of the accumulator.
    fn call(&mut self, command: Command) -> String {
        let Some(accumulator) = &mut self.accumulator else {
            return "malformed".to_string();
        };
        match (accumulator, command) {
            (Accumulator::Grouped(grouped), Command::Evaluate(count, room)) => {
                grouped.emit(count, &room, false, &mut self.open)
            }
            (Accumulator::Grouped(grouped), Command::State(count, room)) => {
                grouped.emit(count, &room, true, &mut self.open)
            }
            (Accumulator::Single(single), Command::Evaluate(_, room)) => single.emit(&room, false),
            (Accumulator::Single(single), Command::State(_, room)) => single.emit(&room, true),
            (accumulator, Command::Update(call)) => batch(accumulator, call, false),
            (accumulator, Command::Merge(call)) => batch(accumulator, call, true),
            (Accumulator::Grouped(grouped), Command::Convert(call)) => match given(&call) {
                Ok(given) => grouped.convert(&given, &call.room.unwrap_or_default()),
                Err(refusal) => refusal.to_string(),
            },
            _ => "malformed".to_string(),
        }
    }
}

/// The answer to `update` or `merge`.
fn batch(accumulator: &mut Accumulator, call: Call, merges: bool) -> String {
    let given = match given(&call) {
        Ok(given) => given,
        Err(refusal) => return refusal.to_string(),
    };
    match accumulator {
        Accumulator::Grouped(grouped) => {
            let groups = call.groups.unwrap_or_default();
            grouped.batch(&given, groups, call.total.unwrap_or_default(), merges)
        }
        Accumulator::Single(single) => single.batch(&given, merges),
    }
}

fn main() -> std::io::Result<()> {
    // A panic of the original is an answer, and nothing to print beside it.
    std::panic::set_hook(Box::new(|_| {}));
    let mut driver = Driver {
        unchecked: std::env::args().any(|word| word == "unchecked"),
        ..Driver::default()
    };
    let mut out = std::io::BufWriter::new(std::io::stdout().lock());
    for line in std::io::stdin().lock().lines() {
        let line = line?;
        let blank = line.bytes().all(|letter| letter == b' ');
        if !blank && !line.starts_with('#') {
            writeln!(out, "{}", driver.answer(&line))?;
        }
    }
    out.flush()
}
