//! Output parts too short and too long, and columns by their parts.

use super::{Each, KINDS, ORDERS, lines, same, sample};
use crate::cells::list;
use crate::random::PARTS;

/// Output parts: each kind's, with no group, some, and so many that validity needs a second byte; each too short, and larger.
pub fn rooms(each: Each) {
    for value in KINDS {
        for (order, key) in ORDERS {
            for rows in [1, 8, 9] {
                let values = same(sample(value), rows);
                let keys = same(key, rows);
                let groups: Vec<usize> = (0..rows).collect();
                let mut lines = vec![
                    format!("make grouped first {value} {order}"),
                    format!(
                        "update values={values} key={keys} groups={} total={rows}",
                        list(&groups)
                    ),
                ];
                // A part that the call does not have takes nothing away, and the groups leave: they come again each time.
                let update = lines[1].clone();
                for part in PARTS {
                    lines.push(format!("evaluate 0 room=-{part}"));
                    for word in ["evaluate", "state"] {
                        lines.push(format!("{word} {} room=-{part}", rows.min(8)));
                        lines.push(update.clone());
                    }
                }
                lines.push(format!("state {} room=+3", rows / 2));
                lines.push("evaluate all room=+1".to_string());
                each(lines);
            }
            let mut lines = vec![
                format!("make single first {value} {order}"),
                "state room=-values.data".to_string(),
                format!("update values=[{}] key=[{key}]", sample(value)),
                "evaluate room=+2".to_string(),
            ];
            lines.extend(PARTS.map(|part| format!("state room=-{part}")));
            lines.push("state".to_string());
            each(lines);
        }
    }
    // The part named is the one that is short, though others would hold more.
    let mut lines = lines([
        "make grouped last record number:asc-last,asc-first,desc-last",
        "update values=[1/2/3] key=[1] key=[2] key=[3] groups=[0] total=1",
    ]);
    for part in PARTS {
        lines.push(format!("state 1 room=-{part}"));
        lines.push("update values=[1/2/3] key=[1] key=[2] key=[3] groups=[0] total=1".to_string());
    }
    lines.push("state all".to_string());
    each(lines);
}

/// Columns by their parts: what fits, and each way in which parts do not.
pub fn parts(each: Each) {
    parts_of_numbers(each);
    parts_of_strings(each);
    parts_of_records(each);
    parts_of_marks(each);
}

/// Numbers by their parts: the kind's number, validity, offsets that are foreign, and too little and too much data.
fn parts_of_numbers(each: Each) {
    let numbers = [
        "{kind=1 rows=1 validity=none offsets=none data=x0700000000000000}",
        "{kind=1 rows=1 validity=xff offsets=none data=x0700000000000000}",
        "{kind=1 rows=1 validity=xfe offsets=none data=x0700000000000000}",
        "{kind=0 rows=1 validity=none offsets=none data=x0700000000000000}",
        "{kind=4 rows=9 validity=none offsets=none data=x}",
        "{kind=1 rows=1 validity=x0100 offsets=none data=x0700000000000000}",
        "{kind=1 rows=1 validity=none offsets=[0] data=x0700000000000000}",
        "{kind=1 rows=1 validity=none offsets=none data=x07000000000000}",
        "{kind=1 rows=1 validity=none offsets=none data=x070000000000000000}",
        "{kind=1 rows=2 validity=none offsets=none data=x0700000000000000}",
        "{kind=1 rows=1025 validity=none offsets=none data=x}",
        "{kind=1 rows=18446744073709551615 validity=none offsets=none data=x}",
    ];
    for column in numbers {
        each(parts_of_one("number", "1", column));
    }
}

/// Byte strings by their parts: where offsets begin, how many they are, that they fall, and that they point past the data.
fn parts_of_strings(each: Each) {
    let strings = [
        "{kind=2 rows=2 validity=none offsets=[2 3 3] data=x00616200}",
        "{kind=2 rows=2 validity=xfd offsets=[0 1 3] data=x616263}",
        "{kind=2 rows=2 validity=none offsets=[0 1] data=x6162}",
        "{kind=2 rows=2 validity=none offsets=none data=x6162}",
        "{kind=2 rows=2 validity=none offsets=[0 2 1] data=x6162}",
        "{kind=2 rows=2 validity=x00 offsets=[0 2 1] data=x6162}",
        "{kind=2 rows=2 validity=none offsets=[0 1 3] data=x6162}",
        "{kind=2 rows=2 validity=none offsets=[0 1 4294967295] data=x6162}",
        "{kind=2 rows=0 validity=none offsets=none data=x}",
        "{kind=2 rows=2 validity=none offsets=[0 1 2 2] data=x6162}",
    ];
    for column in strings {
        each(parts_of_one("bytes", "2", column));
    }
}

/// Records by their parts, there and null: presence bits, and bytes under absent fields.
fn parts_of_records(each: Each) {
    let record = |presence: &str, first: &str| {
        format!(
            "{{kind=3 rows=1 validity=VALID offsets=none data=x{presence}{first}{}}}",
            "0".repeat(32)
        )
    };
    let records = [
        record("00", "0000000000000000"),
        record("01", "0700000000000000"),
        record("07", "0700000000000000"),
        record("08", "0000000000000000"),
        record("80", "0000000000000000"),
        record("00", "0000000000000001"),
        record("06", "0100000000000000"),
    ];
    for column in records {
        for valid in ["none", "x00"] {
            each(parts_of_one("record", "1", &column.replace("VALID", valid)));
        }
    }
}

/// Columns of truth values by their parts, as a filter and as flags.
fn parts_of_marks(each: Each) {
    let marks = [
        "{rows=1 bits=xff validity=none}",
        "{rows=1 bits=xff validity=xfe}",
        "{rows=1 bits=x validity=none}",
        "{rows=1 bits=x0101 validity=none}",
        "{rows=1 bits=x01 validity=x0101}",
        "{rows=1025 bits=x validity=none}",
        "{rows=9 bits=xffff validity=none}",
    ];
    for mark in marks {
        each(vec![
            "make grouped first number number:asc-last".to_string(),
            format!("update values=[1] key=[1] groups=[0] total=1 filter={mark}"),
            format!("merge values=[1] key=[1] groups=[0] total=1 flags={mark}"),
            format!("convert values=[1] key=[1] filter={mark}"),
            "state all".to_string(),
        ]);
        each(vec![
            "make single first number number:asc-last".to_string(),
            format!("merge values=[1] key=[1] flags={mark}"),
            "state".to_string(),
        ]);
    }
}

/// One column by its parts, as values, as a key, and behind columns that do not fit either.
fn parts_of_one(kind: &str, rows: &str, column: &str) -> Vec<String> {
    let two = rows == "2";
    let values = if two { "[1 2]" } else { "[1]" };
    let groups = if two { "[0 1]" } else { "[0]" };
    let order = if kind == "bytes" {
        "text:asc-first"
    } else {
        "number:asc-first"
    };
    let key = if kind == "bytes" { "[x x]" } else { "[1]" };
    vec![
        format!("make grouped last {kind} {order}"),
        format!("update values={column} key={key} groups={groups} total=2"),
        "state all".to_string(),
        format!("make grouped first number {order}"),
        format!("update values={values} key={column} groups={groups} total=2"),
        format!(
            "merge values={values} key={key} key={key} key={key} key={column} groups={groups} total=2 flags={{rows=3 bits=x validity=none}}"
        ),
        "state all".to_string(),
    ]
}
