//! All short scenarios of some forms: every list of a few rows, cut into batches in every way.

use crate::random::OPTIONS;

/// A row: value, key, group, and whether it is admitted, as words.
#[derive(Clone, Copy)]
struct Row {
    value: &'static str,
    key: &'static str,
    group: usize,
    mark: char,
}

/// All lists of so many rows of those that may stand in each place.
fn lists(length: usize, choices: &[Row]) -> Vec<Vec<Row>> {
    (0..length).fold(vec![Vec::new()], |lists, _| {
        let longer = |list: &Vec<Row>| {
            let list = list.clone();
            choices
                .iter()
                .map(move |row| [list.as_slice(), &[*row]].concat())
        };
        lists.iter().flat_map(longer).collect()
    })
}

/// All ways to cut a list into batches that are not empty; the empty list is one batch.
fn cuts(rows: &[Row]) -> Vec<Vec<&[Row]>> {
    let places = rows.len().saturating_sub(1);
    let cut = |ways: usize| {
        let mut batches = Vec::new();
        let mut start = 0;
        for place in 0..places {
            if ways >> place & 1 == 1 {
                batches.push(&rows[start..=place]);
                start = place + 1;
            }
        }
        batches.push(&rows[start..]);
        batches
    };
    (0..1 << places).map(cut).collect()
}

/// One column of a batch.
fn column<T: ToString>(batch: &[Row], cell: impl Fn(&Row) -> T) -> String {
    let words: Vec<String> = batch.iter().map(|row| cell(row).to_string()).collect();
    format!("[{}]", words.join(" "))
}

/// A batch as a line; rows are numbered through the scenario, so that each value says which row it is.
fn line(batch: &[Row], before: usize, merges: bool, total: Option<usize>, masked: bool) -> String {
    let numbered: Vec<String> = batch
        .iter()
        .enumerate()
        .map(|(place, row)| match row.value {
            "null" => "null".to_string(),
            _ => (10 * (1 + before + place)).to_string(),
        })
        .collect();
    let mut line = format!(
        "{} values=[{}] key={}",
        if merges { "merge" } else { "update" },
        numbered.join(" "),
        column(batch, |row| row.key)
    );
    if let Some(total) = total {
        line += &format!(" groups={} total={total}", column(batch, |row| row.group));
    }
    if merges || masked {
        let name = if merges { "flags" } else { "filter" };
        line += &format!(" {name}={}", column(batch, |row| row.mark));
    }
    line
}

/// All rows of these values, keys, groups and marks.
fn rows(
    values: &[&'static str],
    keys: &[&'static str],
    groups: &[usize],
    marks: &[char],
) -> Vec<Row> {
    let mut rows = Vec::new();
    for value in values {
        for key in keys {
            for group in groups {
                for mark in marks {
                    rows.push(Row {
                        value,
                        key,
                        group: *group,
                        mark: *mark,
                    });
                }
            }
        }
    }
    rows
}

/// The policies for nulls.
const POLICIES: [&str; 2] = ["", " ignore-nulls"];

/// One group, no filter, up to three rows.
pub fn one_group(each: &mut impl FnMut(Vec<String>)) {
    let choices = rows(&["", "null"], &["null", "1", "2"], &[0], &['1']);
    for end in ["first", "last"] {
        for policy in POLICIES {
            for option in OPTIONS {
                for length in 0..=3 {
                    for list in lists(length, &choices) {
                        for batches in cuts(&list) {
                            let mut lines =
                                vec![format!("make grouped {end} number number:{option}{policy}")];
                            let mut before = 0;
                            for batch in batches {
                                lines.push(line(batch, before, false, Some(1), false));
                                before += batch.len();
                            }
                            lines.push("state all".to_string());
                            each(lines);
                        }
                    }
                }
            }
        }
    }
}

/// Two groups, filters and flags, updates and merges, up to two rows; the groups leave one by one.
pub fn two_groups(each: &mut impl FnMut(Vec<String>)) {
    let choices = rows(&["", "null"], &["1", "2"], &[0, 1], &['1', '0', '-', 'n']);
    for end in ["first", "last"] {
        for policy in POLICIES {
            for list in lists(2, &choices) {
                for batches in cuts(&list) {
                    for merged in 0..1 << batches.len() {
                        let mut lines =
                            vec![format!("make grouped {end} number number:asc-last{policy}")];
                        let mut before = 0;
                        for (place, batch) in batches.iter().enumerate() {
                            let merges = merged >> place & 1 == 1;
                            lines.push(line(batch, before, merges, Some(2), true));
                            before += batch.len();
                        }
                        lines.push("state 1".to_string());
                        lines.push("state all".to_string());
                        each(lines);
                    }
                }
            }
        }
    }
}

/// Without groups: up to three rows, each batch an update or a merge, pre-ordered or not.
pub fn single(each: &mut impl FnMut(Vec<String>)) {
    let choices = rows(&["", "null"], &["null", "1", "2"], &[0], &['1']);
    for end in ["first", "last"] {
        for policy in POLICIES {
            for ordered in ["", " pre-ordered"] {
                for option in ["asc-last", "desc-first"] {
                    let make = format!("make single {end} number number:{option}{policy}{ordered}");
                    for length in 0..=3 {
                        for list in lists(length, &choices) {
                            single_rows(&make, &list, each);
                        }
                    }
                }
            }
        }
    }
}

/// The same for one list of rows.
fn single_rows(make: &str, list: &[Row], each: &mut impl FnMut(Vec<String>)) {
    for batches in cuts(list) {
        for merged in 0..1 << batches.len() {
            let mut lines = vec![make.to_string()];
            let mut before = 0;
            for (place, batch) in batches.iter().enumerate() {
                lines.push(line(batch, before, merged >> place & 1 == 1, None, false));
                before += batch.len();
            }
            lines.push("state".to_string());
            each(lines);
        }
    }
}

/// Without groups: merges of two rows whose flags are true, false or null.
pub fn flags(each: &mut impl FnMut(Vec<String>)) {
    let choices = rows(&["", "null"], &["1", "2"], &[0], &['1', '0', '-', 'n']);
    for end in ["first", "last"] {
        for ordered in ["", " pre-ordered"] {
            for list in lists(2, &choices) {
                for batches in cuts(&list) {
                    let mut lines =
                        vec![format!("make single {end} number number:asc-last{ordered}")];
                    let mut before = 0;
                    for batch in batches {
                        lines.push(line(batch, before, true, None, true));
                        before += batch.len();
                    }
                    lines.push("state".to_string());
                    each(lines);
                }
            }
        }
    }
}

/// Strings at which the order of bytes turns: prefixes, a zero byte, bytes with the highest bit.
const STRINGS: [&str; 8] = ["null", "x", "x00", "x61", "x6100", "x6162", "x80", "xff"];

/// Every two keys of the text order, under every option.
pub fn texts(each: &mut impl FnMut(Vec<String>)) {
    for form in ["grouped", "single"] {
        for end in ["first", "last"] {
            for option in OPTIONS {
                for left in STRINGS {
                    for right in STRINGS {
                        let groups = if form == "grouped" {
                            " groups=[0 0] total=1"
                        } else {
                            ""
                        };
                        let state = if form == "grouped" {
                            "state all"
                        } else {
                            "state"
                        };
                        each(vec![
                            format!("make {form} {end} bytes text:{option}"),
                            format!("update values=[{left} x7a] key=[{left} {right}]{groups}"),
                            state.to_string(),
                        ]);
                    }
                }
            }
        }
    }
}
