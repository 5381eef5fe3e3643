//! Refusals in every place, alone and several at once, and lines that are not in the format.

use super::{Each, lines, same};

/// A refused batch: how many rows its value column has, and its fields. A merge gets so many flags where none are written.
type Call = (usize, &'static str);

/// Not as many order columns as the order reads.
const COLUMN_COUNTS: [Call; 4] = [
    (1, "values=[1] groups=[0] total=1"),
    (1, "values=[1] key=[1] groups=[0] total=1"),
    (1, "values=[1] key=[1] key=[1] key=[1] groups=[0] total=1"),
    (
        1,
        "values=[1] key=[1] key=[1] key=number[1] key=number[1] groups=[0] total=1",
    ),
];

/// Columns of another kind than the one that is read, alone and before later faults.
const OTHER_KINDS: [Call; 5] = [
    (1, "values=bytes[x61] key=[1] key=[1] groups=[0] total=1"),
    (
        1,
        "values=record[1/1/1] key=bytes[x] key=record[_/_/_] groups=[0] total=1",
    ),
    (1, "values=[1] key=bytes[x] key=[1] groups=[0] total=1"),
    (1, "values=[1] key=[1] key=bytes[x] groups=[0] total=1"),
    (1, "values=[1] key=[1] key=bytes[] groups=[] total=257"),
];

/// Unequal row counts, alone and before a later fault.
const ROW_COUNTS: [Call; 5] = [
    (2, "values=[1 2] key=[1] key=[1] groups=[0 0] total=2"),
    (2, "values=[1 2] key=[1 2] key=[1] groups=[0 0] total=2"),
    (
        2,
        "values=[1 2] key=[1 2] key=[1 2] groups=[0 0] total=2 MASK=[1]",
    ),
    (2, "values=[1 2] key=[1 2] key=[1 2] groups=[0] total=2"),
    (
        2,
        "values=[1 2] key=[1] key=[1 2] groups=[0] total=257 MASK=[1]",
    ),
];

/// Totals too large, and indices not below the total, admitted or not.
const GROUP_NUMBERS: [Call; 5] = [
    (1, "values=[1] key=[1] key=[1] groups=[0] total=257"),
    (1, "values=[1] key=[1] key=[1] groups=[300] total=257"),
    (1, "values=[1] key=[1] key=[1] groups=[5] total=1"),
    (
        3,
        "values=[1 2 3] key=[1 2 3] key=[1 2 3] groups=[1 2 9] total=2",
    ),
    (
        3,
        "values=[1 2 3] key=[1 2 3] key=[1 2 3] groups=[1 2 9] total=2 MASK=[1 0 -]",
    ),
];

/// Batches of no rows, which are checked like any other.
const NO_ROWS: [Call; 3] = [
    (0, "values=[] key=[] key=[] groups=[] total=1"),
    (0, "values=[] key=[] groups=[] total=2"),
    (0, "values=bytes[] key=[] key=[] groups=[] total=2"),
];

/// Refusals of batches and of emissions.
pub fn refusals(each: Each) {
    of_batches(each);
    of_the_third_column(each);
    without_groups(each);
    of_emissions(each);
}

/// Refusals of a batch, each in every place, and two at once: the earlier check decides. The last line shows that nothing
/// has changed.
fn of_batches(each: Each) {
    let lists: [&[Call]; 5] = [
        &COLUMN_COUNTS,
        &OTHER_KINDS,
        &ROW_COUNTS,
        &GROUP_NUMBERS,
        &NO_ROWS,
    ];
    for (word, mask) in [("update", "filter"), ("merge", "flags")] {
        for (rows, fields) in lists.concat() {
            let mut call = format!("{word} {}", fields.replace("MASK", mask));
            if word == "merge" && !call.contains("flags") {
                call += &format!(" flags={}", same("1", rows));
            }
            each(vec![
                "make grouped last number number:asc-last,desc-first".to_string(),
                "update values=[8 9] key=[1 2] key=[null 3] groups=[0 1] total=2".to_string(),
                call,
                "state all".to_string(),
            ]);
        }
    }
}

/// Refusals that the third order column brings.
fn of_the_third_column(each: Each) {
    for third in [
        "key=bytes[x]",
        "key=[1 2]",
        "key={kind=1 rows=9 validity=none offsets=none data=x}",
    ] {
        each(vec![
            "make grouped first record number:asc-last,asc-last,asc-last".to_string(),
            format!("update values=[1/_/_] key=[1] key=[1] {third} groups=[0] total=1"),
            format!("merge values=[1/_/_] key=[1] key=[1] {third} groups=[0] total=1 flags=[1]"),
            format!("convert values=[1/_/_] key=[1] key=[1] {third}"),
            "evaluate all".to_string(),
        ]);
        each(vec![
            "make single last record number:asc-last,asc-last,asc-last".to_string(),
            format!("update values=[1/_/_] key=[1] key=[1] {third}"),
            format!("merge values=[1/_/_] key=[1] key=[1] {third} flags=[-]"),
            "state".to_string(),
        ]);
    }
}

/// Refusals of a batch without groups.
fn without_groups(each: Each) {
    let alone = [
        "update values=[1]",
        "update values=[1] key=[1] key=[1]",
        "update values=bytes[x61] key=[1]",
        "update values=[1] key=bytes[x61]",
        "update values=[1 2] key=[1]",
        "merge values=[1 2] key=[1 2] flags=[1]",
        "merge values=[1 2] key=[1 2] flags=[1 -]",
        "merge values=[1 2] key=[1 2] flags=[n -]",
        "merge values=bytes[x61] key=[1] flags=[-]",
        "merge values=[1] key=[1] key=[1] flags=[-]",
    ];
    for call in alone {
        each(vec![
            "make single first number number:desc-last".to_string(),
            "update values=[8] key=[1]".to_string(),
            call.to_string(),
            "state".to_string(),
        ]);
    }
}

/// Refusals of emissions: more groups than are held, and a state of none.
fn of_emissions(each: Each) {
    each(lines([
        "make grouped first bytes text:asc-last",
        "update values=[x] key=[x] groups=[0] total=1 filter=[0]",
        "evaluate 2",
        "state 2",
        "state 0",
        "evaluate 0",
        "state all",
        "state all",
        "state 1",
        "evaluate all",
    ]));
}

/// Makings that are not in the format, and an unknown command.
const MAKINGS: [&str; 8] = [
    "make grouped first numbers number:asc-last",
    "make grouped first number number:up-last",
    "make grouped first number text:asc-last,asc-last",
    "make grouped first number number:asc-last,asc-last,asc-last,asc-last",
    "make grouped first number number:asc-last pre-ordered",
    "make plural first number number:asc-last",
    "make grouped first number",
    "forget",
];

/// Updates with a field missing, foreign or there twice.
const FIELDS: [&str; 8] = [
    "update values=[1] key=[1] groups=[0]",
    "update values=[1] key=[1] total=1",
    "update key=[1] groups=[0] total=1",
    "update values=[1] key=[1] groups=[0] total=1 flags=[1]",
    "update values=[1] key=[1] groups=[0] total=1 room=+1",
    "update values=[1] key=[1] groups=[0] total=1 total=1",
    "update values=[1] key=[1] groups=[0] total=1 values=[1]",
    "update values=[1] key=[1]",
];

/// Updates with a cell, a number or a column that is not in the format.
const CELLS: [&str; 10] = [
    "update values=[9223372036854775808] key=[1] groups=[0] total=1",
    "update values=[-9223372036854775809] key=[1] groups=[0] total=1",
    "update values=[x61] key=[1] groups=[0] total=1",
    "update values=bytes[x6] key=[1] groups=[0] total=1",
    "update values=bytes[xzz] key=[1] groups=[0] total=1",
    "update values=record[1/2] key=[1] groups=[0] total=1",
    "update values=[1] key=[1] groups=[-1] total=1",
    "update values=[1] key=[1] groups=[0] total=18446744073709551616",
    "update values=[1] key=[1] groups=[0] total=1 filter=[2]",
    "update values={kind=1 rows=1 data=x} key=[1] groups=[0] total=1",
];

/// Merges, conversions, emissions and lists of open groups with a word missing, foreign or outside its range.
const OTHER_CALLS: [&str; 11] = [
    "merge values=[1] key=[1] groups=[0] total=1",
    "merge values=[1] key=[1] groups=[0] total=1 flags=[1] filter=[1]",
    "convert values=[1] key=[1] total=1",
    "evaluate",
    "evaluate -1",
    "evaluate all all",
    "state all room=-values",
    "state all room=-key4.data",
    "state all room=1",
    "open [4294967296]",
    "open",
];

/// Lines that are not in the format, and that they change nothing.
pub fn malformed(each: Each) {
    let before = [
        "open [3 4294967295]",
        "make grouped first number number:asc-last",
        "update values=[1] key=[1] groups=[0] total=1",
    ];
    let lists: [&[&str]; 6] = [
        &before,
        &MAKINGS,
        &FIELDS,
        &CELLS,
        &OTHER_CALLS,
        &["state all"],
    ];
    each(lists.concat().into_iter().map(str::to_string).collect());
    each(lines([
        "open [3]",
        "make single first number number:asc-last",
        "update values=[1] key=[1] groups=[0] total=1",
        "update values=[1] key=[1] filter=[1]",
        "merge values=[1] key=[1]",
        "convert values=[1] key=[1]",
        "evaluate all",
        "state 1",
        "state",
    ]));
}
