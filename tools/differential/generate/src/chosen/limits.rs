//! Each limit from both sides: rows, groups, lengths of strings.

use super::{ENDS, Each, KINDS, ORDERS, same, sample};
use crate::cells::{hex, list};
use crate::random::OPTIONS;

/// Rows: none, one, a full byte of bits, the most, and one too many, in every place.
pub fn rows(each: Each) {
    for value in KINDS {
        let (order, key) = ORDERS[usize::from(value == "bytes")];
        // Numbers at every count; the longer cells at the ends alone.
        let counts: &[usize] = match value {
            "number" => &[0, 1, 7, 8, 9, 1023, 1024, 1025],
            _ => &[0, 1, 1024],
        };
        for rows in counts.iter().copied() {
            let values = same(sample(value), rows);
            let keys = same(key, rows);
            let groups = same("0", rows);
            let marks = same("1", rows);
            each(vec![
                format!("make grouped last {value} {order}"),
                format!("update values={values} key={keys} groups={groups} total=1"),
                format!("merge values={values} key={keys} groups={groups} total=2 flags={marks}"),
                "state all".to_string(),
            ]);
            each(vec![
                format!("make single last {value} {order}"),
                format!("update values={values} key={keys}"),
                format!("merge values={values} key={keys} flags={marks}"),
                "state".to_string(),
            ]);
        }
    }
    // One too many in one place alone: columns are made before the call is looked at.
    let (few, many) = (same("1", 2), same("1", 1025));
    for (values, key, marks) in [
        (&many, &few, &few),
        (&few, &many, &few),
        (&few, &few, &many),
    ] {
        each(vec![
            "make grouped first number number:asc-last".to_string(),
            format!("update values={values} key={key} groups=[0 0] total=300 filter={marks}"),
            format!("convert values={values} key={key} filter={marks}"),
            format!("merge values={values} key={key} groups=[0] total=1 flags={marks}"),
            "state all".to_string(),
        ]);
    }
}

/// Groups: none, one, the most, one too many, and emissions around them.
pub fn groups(each: Each) {
    for total in [0, 1, 2, 8, 9, 255, 256, 257] {
        for value in KINDS {
            each(around_a_total(total, value));
        }
    }
    every_group(each);
}

/// Calls around a number of groups, of which the last alone is set.
fn around_a_total(total: usize, value: &str) -> Vec<String> {
    let (order, key) = ORDERS[usize::from(value == "record")];
    let mut lines = vec![
        format!("make grouped first {value} {order}"),
        "open [0 1 254 255 256 257 4294967294 4294967295]".to_string(),
        format!("update values=[] key=[] groups=[] total={total}"),
        "evaluate 0".to_string(),
        "state 0".to_string(),
        format!("state {}", total + 1),
    ];
    if total > 0 {
        let last = total - 1;
        let cell = sample(value);
        lines.push(format!(
            "update values=[{cell}] key=[{key}] groups=[{last}] total={total}"
        ));
        lines.push(format!(
            "update values=[{cell}] key=[{key}] groups=[{total}] total={total}"
        ));
        lines.push(format!("update values=[] key=[] groups=[] total={last}"));
        lines.push(format!(
            "merge values=[] key=[] groups=[] total={last} flags=[]"
        ));
        lines.push(format!("state {last} room=+1"));
        lines.push("update values=[] key=[] groups=[] total=0".to_string());
    }
    lines.push("state all".to_string());
    lines.push("evaluate all".to_string());
    lines.push("evaluate 1".to_string());
    lines
}

/// Every group set, by as many rows as a batch may have, and strings as long as they may be where they win.
fn every_group(each: Each) {
    for end in ENDS {
        let longest = if end == "first" { 0 } else { 3 };
        let length = |row: usize| if row / 256 == longest { 32 } else { 1 };
        let values: Vec<String> = (0..1024)
            .map(|row| hex(&vec![(row % 251) as u8; length(row)]))
            .collect();
        let keys: Vec<usize> = (0..1024).map(|row| row / 256).collect();
        let groups: Vec<usize> = (0..1024).map(|row| (row * 3) % 256).collect();
        each(vec![
            format!("make grouped {end} bytes number:asc-last"),
            format!(
                "update values={} key={} groups={} total=256",
                list(&values),
                list(&keys),
                list(&groups)
            ),
            "evaluate 255".to_string(),
            "state 1".to_string(),
        ]);
    }
}

/// Lengths of strings: empty, one below the most, the most, and one too long, in every place.
pub fn lengths(each: Each) {
    for length in [0, 1, 31, 32, 33] {
        let long = hex(&vec![0x61; length]);
        for (values, key) in [(long.as_str(), "x62"), ("x62", long.as_str())] {
            each(vec![
                "make grouped first bytes text:asc-last".to_string(),
                format!("update values=[x61 {values}] key=[x63 {key}] groups=[0 0] total=1"),
                format!(
                    "update values=[x61 {values}] key=[x63 {key}] groups=[0 0] total=1 filter=[1 0]"
                ),
                format!(
                    "merge values=[x61 {values}] key=[x63 {key}] groups=[0 0] total=1 flags=[1 -]"
                ),
                format!("convert values=[{values}] key=[{key}]"),
                "state all".to_string(),
            ]);
            each(vec![
                "make single last bytes text:asc-last".to_string(),
                format!("update values=[x61 {values}] key=[x63 {key}]"),
                format!("merge values=[x61 {values}] key=[x63 {key}] flags=[1 0]"),
                "state".to_string(),
            ]);
        }
    }
    // A string of 40 bytes under a null is no string.
    let under = "{kind=2 rows=1 validity=x00 offsets=[0 40] data=x";
    let under = format!("{under}{}}}", "61".repeat(40));
    each(vec![
        "make grouped first bytes text:asc-last".to_string(),
        format!("update values={under} key={under} groups=[0] total=1"),
        "state all".to_string(),
    ]);
}

/// The least and the greatest numbers, as values, as fields of records and as keys.
pub fn numbers(each: Each) {
    let numbers =
        "-9223372036854775808 -9223372036854775807 -1 0 9223372036854775806 9223372036854775807";
    let records = "-9223372036854775808/_/9223372036854775807 _/-1/_";
    for end in ENDS {
        for option in OPTIONS {
            each(vec![
                format!("make grouped {end} number number:{option}"),
                format!("update values=[{numbers}] key=[{numbers}] groups=[0 0 0 1 1 1] total=2"),
                "state 1".to_string(),
                format!("update values=[{numbers}] key=[{numbers}] groups=[0 1 2 3 4 5] total=6"),
                "state all".to_string(),
            ]);
        }
        each(vec![
            format!("make single {end} record number:asc-first"),
            format!("update values=[{records}] key=[9223372036854775807 -9223372036854775808]"),
            "state".to_string(),
        ]);
    }
}
