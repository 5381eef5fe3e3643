//! Conversions: refusals, and filters of every sort that a merge then takes.

use super::{Each, lines, same};
use crate::cells::list;

/// Conversions: refusals, and filters of every sort that a merge then takes.
pub fn conversions(each: Each) {
    each(lines([
        "make grouped first number number:asc-last,asc-last",
        "convert values=[1]",
        "convert values=[1] key=[1]",
        "convert values=[1] key=[1] key=[1 2]",
        "convert values=[1] key=[1] key=[1] filter=[1 1]",
        "convert values=bytes[x61] key=record[1/_/_] key=[1]",
        "convert values=[1] key=[1] key=[1] room=-flags.bits",
        "convert values=[1] key=[1] key=[1] room=-flags.validity",
        "convert values=[1] key=[1] key=[1] room=-values.data",
        "convert values=[] key=[] key=[] room=-flags.bits",
        "convert values=[] key=[] key=[] room=+2",
    ]));
    for rows in [0, 1, 7, 8, 9, 16, 17] {
        let numbers: Vec<usize> = (0..rows).collect();
        let numbers = list(&numbers);
        let marks: Vec<char> = (0..rows).map(|row| ['-', '1', '0', 'n'][row % 4]).collect();
        let marks = list(&marks);
        let groups = same("0", rows);
        each(vec![
            "make grouped first number number:asc-last".to_string(),
            format!("convert values={numbers} key={numbers}"),
            format!("convert values={numbers} key={numbers} filter={marks} room=+1"),
            format!("merge values={numbers} key={numbers} groups={groups} total=1 flags={marks}"),
            "state all".to_string(),
        ]);
    }
    // A set null can come out of a conversion that ignores nulls, and a merge without groups then takes it.
    each(lines([
        "make grouped first number number:asc-last ignore-nulls",
        "convert values=[null 2] key=[1 2]",
        "merge values=[null 2] key=[1 2] groups=[0 0] total=1 flags=[1 1]",
        "state all",
    ]));
    each(lines([
        "make single first number number:asc-last ignore-nulls",
        "merge values=[null 2] key=[1 2] flags=[1 1]",
        "state",
    ]));
}
