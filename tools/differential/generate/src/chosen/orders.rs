//! Every order of one or two columns and some of three, and the order of texts, with ties.

use super::{ENDS, Each, same};
use crate::cells::list;
use crate::random::OPTIONS;

/// Every order of one or two columns and some of three: every key of nulls and two numbers, in one batch and one by one.
pub fn orders(each: Each) {
    for order in options_of_columns() {
        for end in ENDS {
            in_one_batch(&order, end, each);
            one_by_one(&order, end, each);
        }
    }
}

/// The options of each column: of one or two columns all, of three some.
fn options_of_columns() -> Vec<Vec<&'static str>> {
    let mut orders: Vec<Vec<&str>> = OPTIONS.iter().map(|option| vec![*option]).collect();
    for first in OPTIONS {
        orders.extend(OPTIONS.map(|second| vec![first, second]));
    }
    for option in OPTIONS {
        orders.push(vec!["asc-first", "desc-last", option]);
        orders.push(vec![option, option, "desc-first"]);
    }
    orders
}

/// How many keys of nulls and two numbers there are.
fn key_count(columns: usize) -> usize {
    3usize.pow(columns as u32)
}

/// A key's cell in a column; keys are counted in threes.
fn cell(key: usize, column: usize) -> &'static str {
    ["null", "1", "2"][key / key_count(column) % 3]
}

/// Every key twice, so that each ties: in two groups, and without groups.
fn in_one_batch(order: &[&str], end: &str, each: Each) {
    let keys = key_count(order.len());
    let columns: Vec<String> = (0..order.len())
        .map(|column| {
            let cells: Vec<&str> = (0..2 * keys).map(|row| cell(row % keys, column)).collect();
            format!("key={}", list(&cells))
        })
        .collect();
    let columns = columns.join(" ");
    let options = order.join(",");
    let values: Vec<usize> = (0..2 * keys).collect();
    let halves: Vec<usize> = values.iter().map(|row| row % keys % 2).collect();
    let values = list(&values);
    each(vec![
        format!("make grouped {end} number number:{options}"),
        format!(
            "update values={values} {columns} groups={} total=2",
            list(&halves)
        ),
        "state all".to_string(),
    ]);
    each(vec![
        format!("make single {end} number number:{options}"),
        format!("update values={values} {columns}"),
        "state".to_string(),
    ]);
}

/// Every key once, in a batch of its own, without groups.
fn one_by_one(order: &[&str], end: &str, each: Each) {
    let keys = key_count(order.len());
    let mut lines = vec![format!(
        "make single {end} number number:{}",
        order.join(",")
    )];
    for key in 0..keys {
        let columns: Vec<String> = (0..order.len())
            .map(|column| format!("key=[{}]", cell((key * 7) % keys, column)))
            .collect();
        lines.push(format!("update values=[{key}] {}", columns.join(" ")));
    }
    lines.push("state".to_string());
    each(lines);
}

/// The order of texts: every option, prefixes, a zero byte, bytes with the highest bit.
pub fn texts(each: Each) {
    let keys = "x null x61 x6162 x6100 x80 xff x7f x x61 null";
    for option in OPTIONS {
        for end in ENDS {
            each(vec![
                format!("make grouped {end} number text:{option}"),
                format!(
                    "update values=[0 1 2 3 4 5 6 7 8 9 10] key=[{keys}] groups={} total=1",
                    same("0", 11)
                ),
                "state all".to_string(),
            ]);
        }
    }
}
