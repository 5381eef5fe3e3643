//! The scenario format: a line's command, or none where the line is malformed.

use arrow::compute::SortOptions;

use crate::columns::{BoolParts, Cell, Kind, Parts, Value, pack};
use crate::words::{bytes, inside, list, named, number, words};

/// How an accumulator is made.
#[derive(Debug, Clone)]
pub struct Making {
    pub grouped: bool,
    pub first: bool,
    pub value: Kind,
    pub key: Kind,
    pub options: Vec<SortOptions>,
    pub ignore_nulls: bool,
    pub pre_ordered: bool,
}

/// How many groups leave.
#[derive(Debug, Clone, Copy)]
pub enum Count {
    All,
    First(usize),
}

/// How large the output parts are.
#[derive(Debug, Clone, Default)]
pub enum Room {
    #[default]
    Exact,
    /// So many bytes, or offsets, more in each part.
    More(usize),
    /// One byte, or offset, less in the part of this name.
    Less(String),
}

/// The fields of a call; which of them must be there depends on the call.
#[derive(Debug, Default)]
pub struct Call {
    pub values: Option<Parts>,
    pub keys: Vec<Parts>,
    pub groups: Option<Vec<usize>>,
    pub total: Option<usize>,
    pub filter: Option<BoolParts>,
    pub flags: Option<BoolParts>,
    pub room: Option<Room>,
}

/// What a line asks.
#[derive(Debug)]
pub enum Command {
    Make(Making),
    Open(Vec<u32>),
    Update(Call),
    Merge(Call),
    Convert(Call),
    Evaluate(Count, Room),
    State(Count, Room),
}

/// The command of a line; cells are read by what the accumulator reads at their place.
pub fn parse(line: &str, making: Option<&Making>) -> Option<Command> {
    let words = words(line)?;
    let (first, rest) = words.split_first()?;
    match (*first, making) {
        ("make", _) => Some(Command::Make(parse_making(rest)?)),
        ("open", _) => match rest {
            [open] => Some(Command::Open(list(open, number)?)),
            _ => None,
        },
        ("update" | "merge" | "convert", Some(making)) => parse_columns(first, rest, making),
        ("evaluate" | "state", Some(making)) => parse_emission(first, rest, making),
        _ => None,
    }
}

// `grouped|single first|last VALUE ORDER` and what may follow.
fn parse_making(words: &[&str]) -> Option<Making> {
    let [form, end, value, order, more @ ..] = words else {
        return None;
    };
    let grouped = one_of(form, ["single", "grouped"])? == 1;
    let (kind, options) = order.split_once(':')?;
    let key = [Kind::Number, Kind::Bytes][one_of(kind, ["number", "text"])?];
    let options: Vec<SortOptions> = options
        .split(',')
        .map(parse_option)
        .collect::<Option<_>>()?;
    let most = if key == Kind::Number { 3 } else { 1 };
    let (ignore_nulls, pre_ordered) = match more {
        [] => (false, false),
        ["ignore-nulls"] => (true, false),
        ["pre-ordered"] => (false, true),
        ["ignore-nulls", "pre-ordered"] => (true, true),
        _ => return None,
    };
    let making = Making {
        grouped,
        first: one_of(end, ["last", "first"])? == 1,
        value: kind_named(value)?,
        key,
        options,
        ignore_nulls,
        pre_ordered,
    };
    (making.options.len() <= most && !(grouped && pre_ordered)).then_some(making)
}

// The place of a word among some words.
fn one_of<const N: usize>(word: &str, words: [&str; N]) -> Option<usize> {
    words.iter().position(|known| *known == word)
}

// A kind by its name.
fn kind_named(word: &str) -> Option<Kind> {
    Kind::of(1 + one_of(word, ["number", "bytes", "record"])? as u32)
}

// The direction of values, and where nulls come.
fn parse_option(word: &str) -> Option<SortOptions> {
    let place = one_of(word, ["asc-last", "asc-first", "desc-last", "desc-first"])?;
    Some(SortOptions {
        descending: place >= 2,
        nulls_first: place % 2 == 1,
    })
}

// A call with columns: its fields, which must be those of the call, each once.
fn parse_columns(word: &str, rest: &[&str], making: &Making) -> Option<Command> {
    let call = parse_fields(rest, making)?;
    let batch = call.values.is_some() && call.room.is_none();
    let grouped = making.grouped;
    let placed = call.groups.is_some() == grouped && call.total.is_some() == grouped;
    match word {
        "update" => (batch && placed && call.flags.is_none() && (grouped || call.filter.is_none()))
            .then_some(Command::Update(call)),
        "merge" => (batch && placed && call.flags.is_some() && call.filter.is_none())
            .then_some(Command::Merge(call)),
        _ => {
            let foreign = call.groups.is_some() || call.total.is_some() || call.flags.is_some();
            (grouped && call.values.is_some() && !foreign).then_some(Command::Convert(call))
        }
    }
}

// The fields of a call, in any order.
fn parse_fields(words: &[&str], making: &Making) -> Option<Call> {
    let mut call = Call::default();
    for word in words {
        let (name, text) = word.split_once('=')?;
        match name {
            "key" => call.keys.push(parse_column(text, making.key)?),
            "values" => once(&mut call.values, parse_column(text, making.value)?)?,
            "groups" => once(&mut call.groups, list(text, number)?)?,
            "total" => once(&mut call.total, number(text)?)?,
            "filter" => once(&mut call.filter, parse_bools(text)?)?,
            "flags" => once(&mut call.flags, parse_bools(text)?)?,
            "room" => once(&mut call.room, parse_room(text)?)?,
            _ => return None,
        }
    }
    Some(call)
}

// Puts a field where there is none yet.
fn once<T>(field: &mut Option<T>, value: T) -> Option<()> {
    field.replace(value).is_none().then_some(())
}

// `evaluate` and `state`: with groups, how many of them leave comes first.
fn parse_emission(word: &str, rest: &[&str], making: &Making) -> Option<Command> {
    let (count, rest) = match rest.split_first() {
        Some((count, rest)) if making.grouped => match *count {
            "all" => (Count::All, rest),
            count => (Count::First(number(count)?), rest),
        },
        None if making.grouped => return None,
        _ => (Count::All, rest),
    };
    let room = match rest {
        [] => Room::Exact,
        [room] => parse_room(room.strip_prefix("room=")?)?,
        _ => return None,
    };
    Some(match word {
        "evaluate" => Command::Evaluate(count, room),
        _ => Command::State(count, room),
    })
}

// `+K`, or `-PART`.
fn parse_room(text: &str) -> Option<Room> {
    if let Some(more) = text.strip_prefix('+') {
        return Some(Room::More(number(more)?));
    }
    let part = text.strip_prefix('-')?;
    let (column, piece) = part.split_once('.')?;
    let pieces: &[&str] = match column {
        "values" | "key1" | "key2" | "key3" => &["validity", "offsets", "data"],
        "flags" => &["bits", "validity"],
        _ => &[],
    };
    pieces
        .contains(&piece)
        .then(|| Room::Less(part.to_string()))
}

// A column by its cells, of the kind that is read there or of one that is named, or by its parts.
fn parse_column(text: &str, read: Kind) -> Option<Parts> {
    if text.starts_with('{') {
        return parse_parts(text);
    }
    let bracket = text.find('[')?;
    let (name, cells) = text.split_at(bracket);
    let kind = if name.is_empty() {
        read
    } else {
        kind_named(name)?
    };
    let cells = list(cells, |word| parse_cell(word, kind))?;
    let mut parts = Parts::of_cells(kind, &cells);
    if cells.iter().all(Option::is_some) {
        parts.validity.clear();
    }
    Some(parts)
}

// A cell of a kind.
fn parse_cell(word: &str, kind: Kind) -> Option<Cell> {
    if word == "null" {
        return Some(None);
    }
    let value = match kind {
        Kind::Number => Value::Number(number(word)?),
        Kind::Bytes => Value::Bytes(bytes(word)?),
        Kind::Record => {
            let field = |word: &str| match word {
                "_" => Some(None),
                word => Some(Some(number(word)?)),
            };
            let fields: Vec<Option<i64>> = word.split('/').map(field).collect::<Option<_>>()?;
            Value::Record(fields.try_into().ok()?)
        }
    };
    Some(Some(value))
}

// A column by its parts.
fn parse_parts(text: &str) -> Option<Parts> {
    let names = ["kind", "rows", "validity", "offsets", "data"];
    let [kind, rows, validity, offsets, data] = named(text, names)?;
    Some(Parts {
        kind: number(kind)?,
        rows: number(rows)?,
        validity: maybe_bytes(validity)?,
        offsets: match offsets {
            "none" => Vec::new(),
            offsets => list(offsets, number)?,
        },
        data: bytes(data)?,
    })
}

// Bytes, or none.
fn maybe_bytes(word: &str) -> Option<Vec<u8>> {
    match word {
        "none" => Some(Vec::new()),
        word => bytes(word),
    }
}

// A boolean column: `1`, `0`, `-` (null over false), `n` (null over true), or its parts.
fn parse_bools(text: &str) -> Option<BoolParts> {
    if inside(text, '{', '}').is_some() {
        let [rows, bits, validity] = named(text, ["rows", "bits", "validity"])?;
        return Some(BoolParts {
            rows: number(rows)?,
            bits: bytes(bits)?,
            validity: maybe_bytes(validity)?,
        });
    }
    let cells = list(text, |word| one_of(word, ["0", "1", "-", "n"]))?;
    let bits: Vec<bool> = cells.iter().map(|cell| cell % 2 == 1).collect();
    let valid: Vec<bool> = cells.iter().map(|cell| *cell < 2).collect();
    let without_nulls = valid.iter().all(|valid| *valid);
    Some(BoolParts {
        rows: cells.len(),
        bits: pack(&bits),
        validity: if without_nulls {
            Vec::new()
        } else {
            pack(&valid)
        },
    })
}
