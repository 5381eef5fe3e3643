//! Scenarios drawn at random: every call, lengths around each limit, ties, nulls, and now and then a call that is declined.

use crate::cells::{
    Cell, KINDS, Kind, Parts, Value, by_cells, cells, flag_parts, flags, list, parts_of,
};
use crate::chance::Chance;

/// Options of an order column.
pub const OPTIONS: [&str; 4] = ["asc-last", "asc-first", "desc-last", "desc-first"];

/// How the accumulator is made, as far as calls depend on it, and how many groups it holds.
struct Made {
    grouped: bool,
    value: Kind,
    key: Kind,
    columns: usize,
    held: usize,
}

/// A batch before it is written out.
struct Batch {
    values: Vec<Cell>,
    keys: Vec<Vec<Cell>>,
    mask: Option<Vec<char>>,
    groups: Vec<usize>,
    total: usize,
    /// Kinds that are named at columns, in the place of those that are read.
    foreign: Vec<(usize, Kind)>,
    /// A column whose parts do not fit.
    unfit: Option<usize>,
}

/// How many rows: mostly few, and sometimes around a byte of bits or the limit.
fn rows(chance: &mut Chance) -> usize {
    match chance.below(100) {
        0..70 => chance.below(6),
        70..92 => *chance.of(&[7, 8, 9, 15, 16, 17, 31, 32, 33]),
        92..96 => *chance.of(&[63, 64, 65, 255, 256, 257]),
        96..98 => *chance.of(&[1023, 1024]),
        _ => chance.below(40),
    }
}

/// A total that is not below the groups held.
fn total(held: usize, chance: &mut Chance) -> usize {
    let wanted = match chance.below(100) {
        0..75 => held + chance.below(4),
        75..90 => held + *chance.of(&[7, 8, 9]),
        _ => *chance.of(&[255, 256]),
    };
    wanted.clamp(held, 256)
}

/// A filter or flags, or none.
fn mask(rows: usize, nulls: bool, chance: &mut Chance) -> Vec<char> {
    let marks: &[char] = match (chance.below(4), nulls) {
        (0, _) => &['1'],
        (1, _) | (_, false) => &['1', '1', '0'],
        (2, true) => &['1', '1', '1', '0', '-', 'n'],
        _ => &['0', '-', 'n', '1'],
    };
    (0..rows).map(|_| *chance.of(marks)).collect()
}

impl Made {
    /// The line that makes it.
    fn draw(chance: &mut Chance) -> (Made, String) {
        let grouped = chance.percent(65);
        let value = *chance.of(&KINDS);
        let key = *chance.of(&[Kind::Number, Kind::Number, Kind::Bytes]);
        let columns = if key == Kind::Number {
            1 + chance.below(3)
        } else {
            1
        };
        let options: Vec<&str> = (0..columns).map(|_| *chance.of(&OPTIONS)).collect();
        let order = if key == Kind::Number {
            "number"
        } else {
            "text"
        };
        let mut line = format!(
            "make {} {} {} {order}:{}",
            if grouped { "grouped" } else { "single" },
            if chance.percent(50) { "first" } else { "last" },
            value.name(),
            options.join(",")
        );
        if chance.percent(40) {
            line += " ignore-nulls";
        }
        if !grouped && chance.percent(40) {
            line += " pre-ordered";
        }
        let made = Made {
            grouped,
            value,
            key,
            columns,
            held: 0,
        };
        (made, line)
    }

    /// A batch that is taken.
    fn batch(&self, merges: bool, chance: &mut Chance) -> Batch {
        let total = total(self.held, chance);
        let rows = if self.grouped && total == 0 {
            0
        } else {
            rows(chance)
        };
        let masked = merges || (self.grouped && chance.percent(40));
        let reached = if chance.percent(50) {
            total
        } else {
            total.min(2)
        };
        Batch {
            values: cells(self.value, rows, chance),
            keys: (0..self.columns)
                .map(|_| cells(self.key, rows, chance))
                .collect(),
            mask: masked.then(|| mask(rows, self.grouped || chance.percent(8), chance)),
            groups: (0..rows).map(|_| chance.below(reached.max(1))).collect(),
            total,
            foreign: Vec::new(),
            unfit: None,
        }
    }

    /// Turns a batch so that it is declined, in most cases.
    fn spoil(&self, batch: &mut Batch, chance: &mut Chance) {
        let key = chance.below(batch.keys.len().max(1));
        let row = chance.below(batch.values.len().max(1));
        let long = Some(Value::Bytes(vec![0x62; 33]));
        match chance.below(if self.grouped { 13 } else { 9 }) {
            0 => batch.keys.push(cells(self.key, batch.values.len(), chance)),
            1 => drop(batch.keys.pop()),
            2 => batch.foreign.push((0, *chance.of(&KINDS))),
            3 => batch.foreign.push((1 + key, *chance.of(&KINDS))),
            4 => batch.unfit = Some(chance.below(2 + self.columns)),
            5 => {
                if let Some(mask) = &mut batch.mask {
                    mask.push('-');
                }
            }
            6 => {
                if let Some(key) = batch.keys.get_mut(key) {
                    key.push(None);
                }
            }
            7 if self.value == Kind::Bytes && !batch.values.is_empty() => batch.values[row] = long,
            8 if self.key == Kind::Bytes => {
                if let Some(cell) = batch.keys.get_mut(key).and_then(|key| key.get_mut(row)) {
                    *cell = long;
                }
            }
            9 => batch.groups.push(0),
            10 => batch.total = *chance.of(&[257, 300]),
            11 => batch.total = self.held.saturating_sub(1),
            12 if !batch.groups.is_empty() => batch.groups[row] = batch.total + chance.below(2),
            _ => batch.values.truncate(row),
        }
    }

    /// The fields of a batch.
    fn fields(&self, batch: &Batch, name: &str, chance: &mut Chance) -> String {
        let mut fields = Vec::new();
        let columns = std::iter::once(&batch.values).chain(&batch.keys);
        for (place, cells) in columns.enumerate() {
            let field = if place == 0 { "values" } else { "key" };
            fields.push(format!(
                "{field}={}",
                self.column(batch, place, cells, chance)
            ));
        }
        if let Some(mask) = &batch.mask {
            let mut text = if chance.percent(80) {
                flags(mask)
            } else {
                flag_parts(mask, chance)
            };
            if batch.unfit == Some(1 + self.columns) {
                text = format!("{{rows={} bits=x validity=x00}}", 9 + mask.len());
            }
            fields.push(format!("{name}={text}"));
        }
        fields.join(" ")
    }

    /// One column of a batch.
    fn column(&self, batch: &Batch, place: usize, cells: &[Cell], chance: &mut Chance) -> String {
        let read = if place == 0 { self.value } else { self.key };
        let foreign = batch.foreign.iter().find(|(column, _)| *column == place);
        let kind = foreign.map_or(read, |(_, kind)| *kind);
        let drawn;
        let cells = if kind == read {
            cells
        } else {
            drawn = crate::cells::cells(kind, cells.len(), chance);
            &drawn
        };
        if batch.unfit == Some(place) {
            return unfit(parts_of(kind, cells, chance), chance).text();
        }
        match chance.percent(85) {
            true if kind == read && place <= self.columns => by_cells(cells),
            true => format!("{}{}", kind.name(), by_cells(cells)),
            false => parts_of(kind, cells, chance).text(),
        }
    }

    /// A batch as a line; the groups that it brings are held where it is taken.
    fn batch_line(&mut self, chance: &mut Chance) -> String {
        let merges = chance.percent(35);
        let (word, name) = if merges {
            ("merge", "flags")
        } else {
            ("update", "filter")
        };
        let mut batch = self.batch(merges, chance);
        let spoilt = chance.percent(12);
        if spoilt {
            self.spoil(&mut batch, chance);
            if chance.percent(30) {
                self.spoil(&mut batch, chance);
            }
        } else {
            self.held = batch.total;
        }
        let mut line = format!("{word} {}", self.fields(&batch, name, chance));
        if self.grouped {
            line += &format!(" groups={} total={}", list(&batch.groups), batch.total);
        }
        line
    }

    /// A conversion as a line.
    fn convert_line(&self, chance: &mut Chance) -> String {
        let mut batch = self.batch(false, chance);
        if chance.percent(20) {
            self.spoil(&mut batch, chance);
        }
        format!(
            "convert {}{}",
            self.fields(&batch, "filter", chance),
            room(chance)
        )
    }

    /// An emission as a line.
    fn emission_line(&mut self, chance: &mut Chance) -> String {
        let word = *chance.of(&["evaluate", "state", "state"]);
        let room = room(chance);
        if !self.grouped {
            return format!("{word}{room}");
        }
        let leaving = match chance.below(20) {
            0 => 0,
            1 => self.held + 1,
            2 | 3 => self.held,
            _ => 1 + chance.below(self.held.max(1)),
        };
        let all = chance.percent(15);
        // A part that is too short leaves the groups; this count is then too low, and some calls are declined for it.
        let leaving = if all { self.held } else { leaving };
        if leaving <= self.held {
            self.held -= leaving;
        }
        match all {
            true => format!("{word} all{room}"),
            false => format!("{word} {leaving}{room}"),
        }
    }

    /// A call as a line.
    fn line(&mut self, chance: &mut Chance) -> String {
        match chance.below(100) {
            0..60 => self.batch_line(chance),
            60..90 if self.grouped && self.held == 0 && chance.percent(90) => {
                self.batch_line(chance)
            }
            60..90 => self.emission_line(chance),
            90..97 if self.grouped => self.convert_line(chance),
            _ => {
                let number = |_| *chance.of(&[0, 1, 2, 3, 255, 256, 257, u32::MAX - 1, u32::MAX]);
                let open: Vec<u32> = (0..5).map(number).collect();
                format!("open {}", list(&open))
            }
        }
    }
}

/// Makes parts unfit: one of the things that a column asks is broken.
fn unfit(mut parts: Parts, chance: &mut Chance) -> Parts {
    match chance.below(8) {
        0 => parts.kind = *chance.of(&[0, 4, 255]),
        1 => parts.rows += 1,
        2 => parts.validity = Some(vec![0xff; 1 + parts.rows.div_ceil(8)]),
        3 => parts.data.push(1),
        4 => drop(parts.data.pop()),
        5 => parts.offsets = parts.offsets.map_or(Some(vec![0]), |_| None),
        6 => {
            if let Some(last) = parts
                .offsets
                .as_mut()
                .and_then(|offsets| offsets.last_mut())
            {
                *last += 7;
            } else if let Some(first) = parts.data.first_mut() {
                *first |= 0x10;
            }
        }
        _ => {
            if let Some(offsets) = &mut parts.offsets {
                offsets.reverse();
            } else if let Some(first) = parts.data.first_mut() {
                *first ^= 0x04;
            }
        }
    }
    parts
}

/// The parts of an output.
pub const PARTS: [&str; 14] = [
    "values.validity",
    "values.offsets",
    "values.data",
    "key1.validity",
    "key1.offsets",
    "key1.data",
    "key2.validity",
    "key2.offsets",
    "key2.data",
    "key3.validity",
    "key3.offsets",
    "key3.data",
    "flags.bits",
    "flags.validity",
];

/// How large the output parts are: as needed, larger, or one too short.
fn room(chance: &mut Chance) -> String {
    match chance.below(10) {
        0 => format!(" room=+{}", 1 + chance.below(9)),
        1 => format!(" room=-{}", chance.of(&PARTS)),
        _ => String::new(),
    }
}

/// Lines that are not in the format.
const MALFORMED: [&str; 12] = [
    "forget all",
    "make grouped middle number number:asc-last",
    "make grouped first number number:",
    "make grouped first number text:asc-last,asc-last",
    "make grouped first number number:asc-last pre-ordered",
    "make single first number number:asc-last pre-ordered pre-ordered",
    "update key=[1] groups=[0] total=1",
    "update values=[1] values=[1] key=[1] groups=[0] total=1",
    "update values=[1] key=[1] groups=[0] total=1 flags=[1] filter=[1]",
    "open [4294967296]",
    "evaluate room=+1 all",
    "state 18446744073709551616",
];

/// A scenario's lines.
pub fn scenario(chance: &mut Chance) -> Vec<String> {
    let (mut made, line) = Made::draw(chance);
    let mut lines = vec![line];
    if made.grouped {
        lines.push("open [0 1 2 5 255 256 4294967295]".to_string());
    }
    for _ in 0..1 + chance.below(8) {
        if chance.percent(1) {
            lines.push(chance.of(&MALFORMED).to_string());
        }
        lines.push(made.line(chance));
    }
    lines.push(if made.grouped { "state all" } else { "state" }.to_string());
    lines
}
