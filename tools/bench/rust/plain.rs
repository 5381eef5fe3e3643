//! The stage in plain Rust: the same calls, refusals and output bytes, written as an engineer would who checks a batch once and trusts it after.
use std::cmp::Ordering;

const MOST_GROUPS: usize = 256;
const LONGEST: usize = 32;

#[derive(Clone, Copy, PartialEq, Eq)]
pub enum Kind {
    Number,
    Bytes,
    Record,
}

#[derive(Clone, Copy)]
pub struct Column<'a> {
    pub kind: Kind,
    pub rows: usize,
    pub validity: &'a [u8],
    pub offsets: &'a [u32],
    pub data: &'a [u8],
}

#[derive(Clone, Copy)]
pub struct BoolColumn<'a> {
    pub rows: usize,
    pub validity: &'a [u8],
    pub bits: &'a [u8],
}

#[derive(Clone, Copy, Debug, PartialEq, Eq)]
pub struct Fault {
    pub number: u8,
    pub layer: u8,
    pub column: u8,
    pub row: usize,
}

fn own(number: u8, column: u8, row: usize) -> Fault {
    Fault {
        number,
        layer: 4,
        column,
        row,
    }
}

fn bit(bytes: &[u8], i: usize) -> bool {
    bytes[i / 8] >> (i % 8) & 1 == 1
}

fn is_valid(validity: &[u8], i: usize) -> bool {
    validity.is_empty() || bit(validity, i)
}

fn number_at(bytes: &[u8]) -> i64 {
    i64::from_le_bytes(bytes.try_into().unwrap())
}

impl<'a> Column<'a> {
    pub fn new(
        kind: u32,
        rows: usize,
        validity: &'a [u8],
        offsets: &'a [u32],
        data: &'a [u8],
    ) -> Result<Column<'a>, u8> {
        let kind = match kind {
            1 => Kind::Number,
            2 => Kind::Bytes,
            3 => Kind::Record,
            _ => return Err(1),
        };
        if rows > 1024 || !validity.is_empty() && validity.len() != rows.div_ceil(8) {
            return Err(2);
        }
        let fits = match kind {
            Kind::Number => offsets.is_empty() && data.len() == 8 * rows,
            Kind::Bytes => {
                offsets.len() == rows + 1
                    && offsets.is_sorted()
                    && offsets[rows] as usize <= data.len()
            }
            Kind::Record => {
                offsets.is_empty()
                    && data.len() == 25 * rows
                    && data.chunks_exact(25).all(record_fits)
            }
        };
        if !fits {
            return Err(2);
        }
        Ok(Column {
            kind,
            rows,
            validity,
            offsets,
            data,
        })
    }

    pub fn number(&self, r: usize) -> Option<i64> {
        is_valid(self.validity, r).then(|| number_at(&self.data[8 * r..8 * r + 8]))
    }

    pub fn bytes(&self, r: usize) -> Option<&'a [u8]> {
        is_valid(self.validity, r)
            .then(|| &self.data[self.offsets[r] as usize..self.offsets[r + 1] as usize])
    }

    pub fn record(&self, r: usize) -> Option<Record> {
        is_valid(self.validity, r).then(|| {
            let record = &self.data[25 * r..25 * r + 25];
            std::array::from_fn(|j| {
                (record[0] >> j & 1 == 1).then(|| number_at(&record[1 + 8 * j..9 + 8 * j]))
            })
        })
    }

    pub fn is_null(&self, r: usize) -> bool {
        !is_valid(self.validity, r)
    }
}

fn record_fits(record: &[u8]) -> bool {
    record[0] < 8
        && (0..3).all(|j| record[0] >> j & 1 == 1 || number_at(&record[1 + 8 * j..9 + 8 * j]) == 0)
}

impl BoolColumn<'_> {
    pub fn value(&self, r: usize) -> Option<bool> {
        is_valid(self.validity, r).then(|| bit(self.bits, r))
    }

    pub fn is_true(&self, r: usize) -> bool {
        is_valid(self.validity, r) && bit(self.bits, r)
    }
}

// ---- what is written out ------------------------------------------------------------------------

pub struct Output<'a> {
    pub validity: &'a mut [u8],
    pub offsets: &'a mut [u32],
    pub data: &'a mut [u8],
}

pub struct FlagOutput<'a> {
    pub validity: &'a mut [u8],
    pub bits: &'a mut [u8],
}

pub struct StateOutput<'a> {
    pub values: Output<'a>,
    pub keys: [Output<'a>; 3],
    pub flags: FlagOutput<'a>,
}

#[derive(Clone, Copy)]
pub struct Space {
    pub validity: usize,
    pub offsets: usize,
    pub data: usize,
}

impl Space {
    fn fits(&self, out: &Output) -> bool {
        self.validity <= out.validity.len()
            && self.offsets <= out.offsets.len()
            && self.data <= out.data.len()
    }
}

fn put_bits(out: &mut [u8], rows: usize, holds: impl Fn(usize) -> bool) {
    for (j, place) in out[..rows.div_ceil(8)].iter_mut().enumerate() {
        let mut byte = 0;
        for i in 8 * j..rows.min(8 * j + 8) {
            byte |= u8::from(holds(i)) << (i % 8);
        }
        *place = byte;
    }
}

type Record = [Option<i64>; 3];

#[derive(Clone, Copy)]
pub struct Short {
    bytes: [u8; LONGEST],
    len: u8,
}

impl Short {
    fn new(bytes: &[u8]) -> Short {
        let mut held = [0; LONGEST];
        held[..bytes.len()].copy_from_slice(bytes);
        Short {
            bytes: held,
            len: bytes.len() as u8,
        }
    }

    fn as_slice(&self) -> &[u8] {
        &self.bytes[..self.len as usize]
    }
}

fn text(cell: &Option<Short>) -> &[u8] {
    cell.as_ref().map_or(&[], Short::as_slice)
}

fn numbers_space(n: usize) -> Space {
    Space {
        validity: n.div_ceil(8),
        offsets: 0,
        data: 8 * n,
    }
}

fn write_numbers(cells: impl ExactSizeIterator<Item = Option<i64>> + Clone, out: &mut Output) {
    let cells_again = cells.clone();
    for (place, cell) in out.data.chunks_exact_mut(8).zip(cells) {
        place.copy_from_slice(&cell.unwrap_or(0).to_le_bytes());
    }
    out.validity[..cells_again.len().div_ceil(8)].fill(0);
    for (i, cell) in cells_again.enumerate() {
        out.validity[i / 8] |= u8::from(cell.is_some()) << (i % 8);
    }
}

fn texts_space(cells: &[Option<Short>]) -> Space {
    Space {
        validity: cells.len().div_ceil(8),
        offsets: cells.len() + 1,
        data: cells.iter().map(|cell| text(cell).len()).sum(),
    }
}

fn write_texts(cells: &[Option<Short>], out: &mut Output) {
    put_bits(out.validity, cells.len(), |i| cells[i].is_some());
    let mut end = 0;
    out.offsets[0] = 0;
    for (cell, offset) in cells.iter().zip(&mut out.offsets[1..]) {
        let bytes = text(cell);
        out.data[end..end + bytes.len()].copy_from_slice(bytes);
        end += bytes.len();
        *offset = end as u32;
    }
}

// ---- value states and row orders ----------------------------------------------------------------

pub trait ValueState {
    const KIND: Kind;
    /// The first row whose cell is not taken.
    fn first_long(&self, column: &Column) -> Option<usize>;
    fn grow(&mut self, total: usize);
    fn drop_first(&mut self, n: usize);
    fn update(&mut self, group: usize, column: &Column, row: usize);
    fn space(&self, n: usize) -> Space;
    fn write(&self, n: usize, out: &mut Output);
}

pub trait RowOrder {
    const KIND: Kind;
    fn columns(&self) -> usize;
    fn first_long(&self, column: &Column) -> Option<usize>;
    fn grow(&mut self, total: usize);
    fn drop_first(&mut self, n: usize);
    fn compare_rows(&self, columns: &[Column], a: usize, b: usize) -> Ordering;
    fn compare_held(&self, columns: &[Column], row: usize, group: usize) -> Ordering;
    fn set_key(&mut self, group: usize, columns: &[Column], row: usize);
    fn space(&self, named: usize, n: usize) -> Space;
    fn write(&self, named: usize, n: usize, out: &mut Output);
}

#[derive(Default)]
pub struct NumberValueState {
    cells: Vec<Option<i64>>,
}

impl ValueState for NumberValueState {
    const KIND: Kind = Kind::Number;

    fn first_long(&self, _column: &Column) -> Option<usize> {
        None
    }

    fn grow(&mut self, total: usize) {
        self.cells.resize(total, None);
    }

    fn drop_first(&mut self, n: usize) {
        self.cells.drain(..n);
    }

    fn update(&mut self, group: usize, column: &Column, row: usize) {
        self.cells[group] = column.number(row);
    }

    fn space(&self, n: usize) -> Space {
        numbers_space(n)
    }

    fn write(&self, n: usize, out: &mut Output) {
        write_numbers(self.cells[..n].iter().copied(), out);
    }
}

fn first_long_text(column: &Column) -> Option<usize> {
    (0..column.rows).find(|&r| column.bytes(r).is_some_and(|bytes| bytes.len() > LONGEST))
}

#[derive(Default)]
pub struct BytesValueState {
    cells: Vec<Option<Short>>,
}

impl ValueState for BytesValueState {
    const KIND: Kind = Kind::Bytes;

    fn first_long(&self, column: &Column) -> Option<usize> {
        first_long_text(column)
    }

    fn grow(&mut self, total: usize) {
        self.cells.resize(total, None);
    }

    fn drop_first(&mut self, n: usize) {
        self.cells.drain(..n);
    }

    fn update(&mut self, group: usize, column: &Column, row: usize) {
        self.cells[group] = column.bytes(row).map(Short::new);
    }

    fn space(&self, n: usize) -> Space {
        texts_space(&self.cells[..n])
    }

    fn write(&self, n: usize, out: &mut Output) {
        write_texts(&self.cells[..n], out);
    }
}

#[derive(Default)]
pub struct RecordValueState {
    cells: Vec<Option<Record>>,
}

impl ValueState for RecordValueState {
    const KIND: Kind = Kind::Record;

    fn first_long(&self, _column: &Column) -> Option<usize> {
        None
    }

    fn grow(&mut self, total: usize) {
        self.cells.resize(total, None);
    }

    fn drop_first(&mut self, n: usize) {
        self.cells.drain(..n);
    }

    fn update(&mut self, group: usize, column: &Column, row: usize) {
        self.cells[group] = column.record(row);
    }

    fn space(&self, n: usize) -> Space {
        Space {
            validity: n.div_ceil(8),
            offsets: 0,
            data: 25 * n,
        }
    }

    fn write(&self, n: usize, out: &mut Output) {
        let cells = &self.cells[..n];
        put_bits(out.validity, n, |i| cells[i].is_some());
        for (place, cell) in out.data.chunks_exact_mut(25).zip(cells) {
            place.fill(0);
            for (j, field) in cell.iter().flatten().enumerate() {
                if let Some(x) = field {
                    place[0] |= 1 << j;
                    place[1 + 8 * j..9 + 8 * j].copy_from_slice(&x.to_le_bytes());
                }
            }
        }
    }
}

#[derive(Clone, Copy)]
pub struct Sorting {
    pub descending: bool,
    pub nulls_first: bool,
}

impl Sorting {
    fn compare<T: Ord>(self, a: Option<T>, b: Option<T>) -> Ordering {
        match (a, b) {
            (Some(a), Some(b)) if self.descending => b.cmp(&a),
            (Some(a), Some(b)) => a.cmp(&b),
            (a, b) if self.nulls_first => a.is_some().cmp(&b.is_some()),
            (a, b) => b.is_some().cmp(&a.is_some()),
        }
    }
}

pub struct NumberOrder {
    sorts: Vec<Sorting>,
    keys: Vec<[Option<i64>; 3]>,
}

impl NumberOrder {
    pub fn new(sorts: &[Sorting]) -> NumberOrder {
        NumberOrder {
            sorts: sorts.to_vec(),
            keys: Vec::new(),
        }
    }
}

impl RowOrder for NumberOrder {
    const KIND: Kind = Kind::Number;

    fn columns(&self) -> usize {
        self.sorts.len()
    }

    fn first_long(&self, _column: &Column) -> Option<usize> {
        None
    }

    fn grow(&mut self, total: usize) {
        self.keys.resize(total, [None; 3]);
    }

    fn drop_first(&mut self, n: usize) {
        self.keys.drain(..n);
    }

    #[inline]
    fn compare_rows(&self, columns: &[Column], a: usize, b: usize) -> Ordering {
        for (sort, column) in self.sorts.iter().zip(columns) {
            let here = sort.compare(column.number(a), column.number(b));
            if here != Ordering::Equal {
                return here;
            }
        }
        Ordering::Equal
    }

    #[inline]
    fn compare_held(&self, columns: &[Column], row: usize, group: usize) -> Ordering {
        let held = &self.keys[group];
        for ((sort, column), key) in self.sorts.iter().zip(columns).zip(held) {
            let here = sort.compare(column.number(row), *key);
            if here != Ordering::Equal {
                return here;
            }
        }
        Ordering::Equal
    }

    fn set_key(&mut self, group: usize, columns: &[Column], row: usize) {
        for (key, column) in self.keys[group].iter_mut().zip(columns) {
            *key = column.number(row);
        }
    }

    fn space(&self, _named: usize, n: usize) -> Space {
        numbers_space(n)
    }

    fn write(&self, named: usize, n: usize, out: &mut Output) {
        write_numbers(self.keys[..n].iter().map(|key| key[named]), out);
    }
}

pub struct TextOrder {
    sort: Sorting,
    keys: Vec<Option<Short>>,
}

impl TextOrder {
    pub fn new(sort: Sorting) -> TextOrder {
        TextOrder {
            sort,
            keys: Vec::new(),
        }
    }
}

impl RowOrder for TextOrder {
    const KIND: Kind = Kind::Bytes;

    fn columns(&self) -> usize {
        1
    }

    fn first_long(&self, column: &Column) -> Option<usize> {
        first_long_text(column)
    }

    fn grow(&mut self, total: usize) {
        self.keys.resize(total, None);
    }

    fn drop_first(&mut self, n: usize) {
        self.keys.drain(..n);
    }

    #[inline]
    fn compare_rows(&self, columns: &[Column], a: usize, b: usize) -> Ordering {
        self.sort.compare(columns[0].bytes(a), columns[0].bytes(b))
    }

    #[inline]
    fn compare_held(&self, columns: &[Column], row: usize, group: usize) -> Ordering {
        let held = self.keys[group].as_ref().map(Short::as_slice);
        self.sort.compare(columns[0].bytes(row), held)
    }

    fn set_key(&mut self, group: usize, columns: &[Column], row: usize) {
        self.keys[group] = columns[0].bytes(row).map(Short::new);
    }

    fn space(&self, _named: usize, n: usize) -> Space {
        texts_space(&self.keys[..n])
    }

    fn write(&self, _named: usize, n: usize, out: &mut Output) {
        write_texts(&self.keys[..n], out);
    }
}

// ---- checks --------------------------------------------------------------------------------------

fn check_columns<O: RowOrder>(order: &O, keys: &[Column]) -> Result<(), Fault> {
    if keys.len() != order.columns() || !(1..=3).contains(&keys.len()) {
        return Err(own(4, 9, 0));
    }
    Ok(())
}

fn check_kinds<S: ValueState, O: RowOrder>(values: &Column, keys: &[Column]) -> Result<(), Fault> {
    if values.kind != S::KIND {
        return Err(Fault {
            number: 1,
            layer: 2,
            column: 0,
            row: 0,
        });
    }
    match keys.iter().position(|key| key.kind != O::KIND) {
        Some(j) => Err(Fault {
            number: 1,
            layer: 3,
            column: j as u8 + 1,
            row: 0,
        }),
        None => Ok(()),
    }
}

fn check_rows(values: &Column, keys: &[Column], marks: Option<&BoolColumn>) -> Result<(), Fault> {
    if let Some(j) = keys.iter().position(|key| key.rows != values.rows) {
        return Err(own(3, j as u8 + 1, 0));
    }
    if marks.is_some_and(|marks| marks.rows != values.rows) {
        return Err(own(3, 4, 0));
    }
    Ok(())
}

fn check_long<S: ValueState, O: RowOrder>(
    state: &S,
    order: &O,
    values: &Column,
    keys: &[Column],
) -> Result<(), Fault> {
    if let Some(row) = state.first_long(values) {
        return Err(Fault {
            number: 5,
            layer: 2,
            column: 0,
            row,
        });
    }
    for (j, key) in keys.iter().enumerate() {
        if let Some(row) = order.first_long(key) {
            return Err(Fault {
                number: 5,
                layer: 3,
                column: j as u8 + 1,
                row,
            });
        }
    }
    Ok(())
}

fn check_state_space<S: ValueState, O: RowOrder>(
    state: &S,
    order: &O,
    n: usize,
    out: &StateOutput,
) -> Result<(), Fault> {
    if !state.space(n).fits(&out.values) {
        return Err(Fault {
            number: 8,
            layer: 2,
            column: 0,
            row: 0,
        });
    }
    for (j, key) in out.keys.iter().enumerate().take(order.columns()) {
        if !order.space(j, n).fits(key) {
            return Err(Fault {
                number: 8,
                layer: 3,
                column: j as u8 + 1,
                row: 0,
            });
        }
    }
    check_flag_space(n, &out.flags)
}

fn check_flag_space(n: usize, out: &FlagOutput) -> Result<(), Fault> {
    if n.div_ceil(8) > out.validity.len().min(out.bits.len()) {
        return Err(own(8, 4, 0));
    }
    Ok(())
}

fn put_state<S: ValueState, O: RowOrder>(
    state: &S,
    order: &O,
    flag: impl Fn(usize) -> bool,
    n: usize,
    out: &mut StateOutput,
) {
    state.write(n, &mut out.values);
    for (j, key) in out.keys.iter_mut().enumerate().take(order.columns()) {
        order.write(j, n, key);
    }
    put_bits(out.flags.validity, n, |_| true);
    put_bits(out.flags.bits, n, flag);
}

// ---- with groups ---------------------------------------------------------------------------------

#[derive(Clone, Copy)]
pub enum EmitTo {
    All,
    First(usize),
}

pub struct FirstLastGroupsAccumulator<S, O> {
    state: S,
    order: O,
    set: Vec<bool>,
    pick_first: bool,
    ignore_nulls: bool,
}

const NO_ROW: u16 = u16::MAX;

impl<S: ValueState, O: RowOrder> FirstLastGroupsAccumulator<S, O> {
    pub fn new(state: S, order: O, pick_first: bool, ignore_nulls: bool) -> Self {
        FirstLastGroupsAccumulator {
            state,
            order,
            set: Vec::new(),
            pick_first,
            ignore_nulls,
        }
    }

    fn beats(&self, verdict: Ordering) -> bool {
        match self.pick_first {
            true => verdict == Ordering::Less,
            false => verdict == Ordering::Greater,
        }
    }

    fn admits(&self, values: &Column, filter: Option<&BoolColumn>, row: usize) -> bool {
        filter.is_none_or(|filter| filter.is_true(row))
            && !(self.ignore_nulls && values.is_null(row))
    }

    pub fn update_batch(
        &mut self,
        values: &Column,
        keys: &[Column],
        groups: &[usize],
        filter: Option<&BoolColumn>,
        total: usize,
    ) -> Result<(), Fault> {
        check_columns(&self.order, keys)?;
        check_kinds::<S, O>(values, keys)?;
        check_rows(values, keys, filter)?;
        if groups.len() != values.rows {
            return Err(own(3, 9, 0));
        }
        if total > MOST_GROUPS {
            return Err(own(6, 9, 0));
        }
        if total < self.set.len() {
            return Err(own(10, 9, 0));
        }
        if let Some(row) = groups.iter().position(|&group| group >= total) {
            return Err(own(7, 9, row));
        }
        check_long(&self.state, &self.order, values, keys)?;

        self.state.grow(total);
        self.order.grow(total);
        self.set.resize(total, false);

        let mut best = [NO_ROW; MOST_GROUPS];
        for (row, &group) in groups.iter().enumerate() {
            if !self.admits(values, filter, row) {
                continue;
            }
            let held = best[group];
            if held == NO_ROW || self.beats(self.order.compare_rows(keys, row, held as usize)) {
                best[group] = row as u16;
            }
        }
        for (group, &row) in best[..total].iter().enumerate() {
            let row_number = row as usize;
            if row != NO_ROW
                && (!self.set[group]
                    || self.beats(self.order.compare_held(keys, row_number, group)))
            {
                self.state.update(group, values, row_number);
                self.order.set_key(group, keys, row_number);
                self.set[group] = true;
            }
        }
        Ok(())
    }

    pub fn merge_batch(
        &mut self,
        values: &Column,
        keys: &[Column],
        groups: &[usize],
        is_set: &BoolColumn,
        total: usize,
    ) -> Result<(), Fault> {
        self.update_batch(values, keys, groups, Some(is_set), total)
    }

    fn leaving(&self, emit_to: EmitTo) -> Result<usize, Fault> {
        let held = self.set.len();
        match emit_to {
            EmitTo::All => Ok(held),
            EmitTo::First(n) if n > held => Err(own(11, 9, 0)),
            EmitTo::First(n) => Ok(n),
        }
    }

    fn drop_first(&mut self, n: usize) {
        self.state.drop_first(n);
        self.order.drop_first(n);
        self.set.drain(..n);
    }

    pub fn evaluate(&mut self, emit_to: EmitTo, out: &mut Output) -> Result<usize, Fault> {
        let n = self.leaving(emit_to)?;
        if !self.state.space(n).fits(out) {
            return Err(Fault {
                number: 8,
                layer: 2,
                column: 0,
                row: 0,
            });
        }
        self.state.write(n, out);
        self.drop_first(n);
        Ok(n)
    }

    pub fn state(&mut self, emit_to: EmitTo, out: &mut StateOutput) -> Result<usize, Fault> {
        let n = self.leaving(emit_to)?;
        if n == 0 {
            return Err(own(12, 9, 0));
        }
        check_state_space(&self.state, &self.order, n, out)?;
        put_state(&self.state, &self.order, |i| self.set[i], n, out);
        self.drop_first(n);
        Ok(n)
    }

    pub fn convert_to_state(
        &self,
        values: &Column,
        keys: &[Column],
        filter: Option<&BoolColumn>,
        out: &mut FlagOutput,
    ) -> Result<(), Fault> {
        check_columns(&self.order, keys)?;
        check_rows(values, keys, filter)?;
        let rows = values.rows;
        check_flag_space(rows, out)?;
        match filter {
            None => {
                put_bits(out.validity, rows, |_| true);
                put_bits(out.bits, rows, |_| true);
            }
            Some(filter) => {
                put_bits(out.validity, rows, |i| filter.value(i).is_some());
                put_bits(out.bits, rows, |i| filter.is_true(i));
            }
        }
        Ok(())
    }
}

// ---- LAST without groups -------------------------------------------------------------------------

pub struct LastValueAccumulator<S, O> {
    state: S,
    order: O,
    set: bool,
    ignore_nulls: bool,
}

impl<S: ValueState, O: RowOrder> LastValueAccumulator<S, O> {
    pub fn new(mut state: S, mut order: O, ignore_nulls: bool) -> Self {
        state.grow(1);
        order.grow(1);
        LastValueAccumulator {
            state,
            order,
            set: false,
            ignore_nulls,
        }
    }

    fn take_batch(
        &mut self,
        values: &Column,
        keys: &[Column],
        flags: Option<&BoolColumn>,
    ) -> Result<(), Fault> {
        check_columns(&self.order, keys)?;
        check_kinds::<S, O>(values, keys)?;
        check_rows(values, keys, flags)?;
        if let Some(flags) = flags
            && let Some(row) = (0..values.rows).find(|&r| flags.value(r).is_none())
        {
            return Err(own(9, 4, row));
        }
        check_long(&self.state, &self.order, values, keys)?;

        let mut best = None;
        for row in 0..values.rows {
            let counts = match flags {
                None => !(self.ignore_nulls && values.is_null(row)),
                Some(flags) => flags.is_true(row),
            };
            if counts
                && best
                    .is_none_or(|held| self.order.compare_rows(keys, row, held) != Ordering::Less)
            {
                best = Some(row);
            }
        }
        if let Some(row) = best
            && (!self.set || self.order.compare_held(keys, row, 0) == Ordering::Greater)
        {
            self.state.update(0, values, row);
            self.order.set_key(0, keys, row);
            self.set = true;
        }
        Ok(())
    }

    pub fn update_batch(&mut self, values: &Column, keys: &[Column]) -> Result<(), Fault> {
        self.take_batch(values, keys, None)
    }

    pub fn merge_batch(
        &mut self,
        values: &Column,
        keys: &[Column],
        flags: &BoolColumn,
    ) -> Result<(), Fault> {
        self.take_batch(values, keys, Some(flags))
    }

    pub fn state(&self, out: &mut StateOutput) -> Result<(), Fault> {
        check_state_space(&self.state, &self.order, 1, out)?;
        put_state(&self.state, &self.order, |_| self.set, 1, out);
        Ok(())
    }
}
