//! Scenarios that somebody chose: each limit from both sides, each refusal with its place, each order, each output part too
//! short and too long, what the two forms of columns can say, and the inputs at which the original is known to differ.

mod conversions;
mod layout;
mod limits;
mod lives;
mod orders;
mod refusals;

use crate::cells::list;
use crate::chance::Chance;
use crate::random::scenario;

/// Takes a scenario's lines.
type Each<'a> = &'a mut dyn FnMut(Vec<String>);

/// The same word so many times, in brackets.
fn same(word: &str, count: usize) -> String {
    list(&vec![word; count])
}

/// A cell of a kind.
fn sample(kind: &str) -> &'static str {
    match kind {
        "number" => "7",
        "bytes" => "x6162",
        _ => "1/_/3",
    }
}

/// An order, and a cell of its columns.
const ORDERS: [(&str, &str); 2] = [("number:asc-last", "5"), ("text:desc-first", "x6b")];

const KINDS: [&str; 3] = ["number", "bytes", "record"];
const ENDS: [&str; 2] = ["first", "last"];

/// The lines of a scenario.
fn lines<const N: usize>(lines: [&str; N]) -> Vec<String> {
    lines.map(str::to_string).to_vec()
}

/// All of them.
pub fn all(each: &mut impl FnMut(Vec<String>)) {
    // Before there is an accumulator: this stands first in a run.
    each(lines([
        "evaluate all",
        "state",
        "update values=[1] key=[1]",
        "open [1 2]",
    ]));
    for family in [
        limits::rows,
        limits::groups,
        limits::lengths,
        limits::numbers,
        orders::orders,
        orders::texts,
        refusals::refusals,
        conversions::conversions,
        layout::rooms,
        layout::parts,
        lives::lives,
        lives::without_groups,
        lives::named,
        refusals::malformed,
    ] {
        family(each);
    }
}

/// The scenarios of the fixed list: all of them, and small ones drawn at random.
pub fn fixed(each: &mut impl FnMut(&str, Vec<String>)) {
    all(&mut |lines| each("limits", lines));
    let mut chance = Chance::new(20);
    let mut drawn = 0;
    while drawn < 150 {
        let lines = scenario(&mut chance);
        if lines.iter().all(|line| line.len() < 400) {
            drawn += 1;
            each("random", lines);
        }
    }
}
