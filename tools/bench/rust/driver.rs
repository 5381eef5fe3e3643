//! Plain Rust, made to do a case: the same loops as the Rattle crate `stagebench` has, each call out of line.
use crate::cases::{Case, Out};
use crate::plain::*;
use std::hint::black_box;

struct Feed<'a>(&'a Case);

fn part<T>(all: &[T], i: usize, size: usize) -> &[T] {
    all.get(i * size..(i + 1) * size).unwrap_or(&[])
}

fn kind(number: u32) -> Kind {
    match number {
        2 => Kind::Bytes,
        3 => Kind::Record,
        _ => Kind::Number,
    }
}

impl<'a> Feed<'a> {
    fn values(&self, i: usize) -> Column<'a> {
        let case = self.0;
        Column {
            kind: kind(case.kind),
            rows: case.rows,
            validity: part(&case.validity, i, case.rows.div_ceil(8)),
            offsets: part(&case.offsets, i, case.rows + 1),
            data: part(&case.data, i, case.stride),
        }
    }

    fn key(&self, j: usize, i: usize) -> Column<'a> {
        let case = self.0;
        let at = j * case.batches + i;
        Column {
            kind: kind(case.key_kind),
            rows: case.rows,
            validity: part(&case.key_validity, at, case.rows.div_ceil(8)),
            offsets: part(&case.key_offsets, at, case.rows + 1),
            data: part(&case.key_data, at, case.key_stride),
        }
    }

    fn keys(&self, i: usize) -> [Column<'a>; 3] {
        std::array::from_fn(|j| self.key(j, i))
    }

    fn marks(&self, i: usize) -> Option<BoolColumn<'a>> {
        let case = self.0;
        (!case.filter.is_empty()).then(|| BoolColumn {
            rows: case.rows,
            validity: part(&case.filter_validity, i, case.rows.div_ceil(8)),
            bits: part(&case.filter, i, case.rows.div_ceil(8)),
        })
    }

    fn groups(&self, i: usize) -> &'a [usize] {
        part(&self.0.indices, i, self.0.rows)
    }
}

fn code(fault: Fault) -> u64 {
    let head =
        u64::from(fault.number) << 24 | u64::from(fault.layer) << 16 | u64::from(fault.column) << 8;
    head.wrapping_add((fault.row as u64).wrapping_mul(1 << 32))
}

fn answer(result: Result<(), Fault>) -> u64 {
    result.map_or_else(code, |()| 0)
}

fn dropped(result: Result<usize, Fault>) -> u64 {
    result.map_or_else(code, |n| n as u64)
}

type Stage<S, O> = FirstLastGroupsAccumulator<S, O>;

#[inline(never)]
fn update<S: ValueState, O: RowOrder>(
    stage: &mut Stage<S, O>,
    values: &Column,
    keys: &[Column],
    groups: &[usize],
    filter: Option<&BoolColumn>,
    total: usize,
) -> u64 {
    answer(stage.update_batch(values, keys, groups, filter, total))
}

#[inline(never)]
fn merge<S: ValueState, O: RowOrder>(
    stage: &mut Stage<S, O>,
    values: &Column,
    keys: &[Column],
    groups: &[usize],
    flags: &BoolColumn,
    total: usize,
) -> u64 {
    answer(stage.merge_batch(values, keys, groups, flags, total))
}

#[inline(never)]
fn evaluate<S: ValueState, O: RowOrder>(
    stage: &mut Stage<S, O>,
    emit_to: EmitTo,
    out: &mut Output,
) -> u64 {
    dropped(stage.evaluate(emit_to, out))
}

#[inline(never)]
fn state<S: ValueState, O: RowOrder>(
    stage: &mut Stage<S, O>,
    emit_to: EmitTo,
    out: &mut StateOutput,
) -> u64 {
    dropped(stage.state(emit_to, out))
}

#[inline(never)]
fn convert<S: ValueState, O: RowOrder>(
    stage: &Stage<S, O>,
    values: &Column,
    keys: &[Column],
    filter: Option<&BoolColumn>,
    out: &mut FlagOutput,
) -> u64 {
    answer(stage.convert_to_state(values, keys, filter, out))
}

fn perform<S: ValueState, O: RowOrder>(
    stage: &mut Stage<S, O>,
    case: &Case,
    out: &mut StateOutput,
) -> u64 {
    let feed = Feed(case);
    let mut sum = 0u64;
    for i in 0..case.batches {
        let (values, keys, marks) = (feed.values(i), feed.keys(i), feed.marks(i));
        let keys = &keys[..case.count];
        let answered = match (case.taking, &marks) {
            (0, _) => update(
                stage,
                &values,
                keys,
                feed.groups(i),
                marks.as_ref(),
                case.total,
            ),
            (1, Some(flags)) => merge(stage, &values, keys, feed.groups(i), flags, case.total),
            _ => convert(stage, &values, keys, marks.as_ref(), &mut out.flags),
        };
        sum = sum.wrapping_mul(31).wrapping_add(answered);
    }
    for _ in 0..case.times {
        let answered = match case.leaving {
            1 => evaluate(stage, EmitTo::All, &mut out.values),
            2 => state(stage, EmitTo::All, out),
            3 => evaluate(stage, EmitTo::First(case.n), &mut out.values),
            4 => state(stage, EmitTo::First(case.n), out),
            _ => 0,
        };
        sum = sum.wrapping_mul(31).wrapping_add(answered);
    }
    sum
}

type Single<S, O> = LastValueAccumulator<S, O>;

#[inline(never)]
fn update_single<S: ValueState, O: RowOrder>(
    single: &mut Single<S, O>,
    values: &Column,
    keys: &[Column],
) -> u64 {
    answer(single.update_batch(values, keys))
}

#[inline(never)]
fn merge_single<S: ValueState, O: RowOrder>(
    single: &mut Single<S, O>,
    values: &Column,
    keys: &[Column],
    flags: &BoolColumn,
) -> u64 {
    answer(single.merge_batch(values, keys, flags))
}

#[inline(never)]
fn state_single<S: ValueState, O: RowOrder>(single: &Single<S, O>, out: &mut StateOutput) -> u64 {
    answer(single.state(out))
}

fn perform_single<S: ValueState, O: RowOrder>(
    single: &mut Single<S, O>,
    case: &Case,
    out: &mut StateOutput,
) -> u64 {
    let feed = Feed(case);
    let mut sum = 0u64;
    for i in 0..case.batches {
        let (values, keys) = (feed.values(i), feed.keys(i));
        let keys = &keys[..case.count];
        let answered = match feed.marks(i) {
            None => update_single(single, &values, keys),
            Some(flags) => merge_single(single, &values, keys, &flags),
        };
        sum = sum.wrapping_mul(31).wrapping_add(answered);
    }
    for _ in 0..case.times {
        sum = sum.wrapping_mul(31).wrapping_add(state_single(single, out));
    }
    sum
}

/// Does the case `rounds` times, each with an accumulator of its own.
#[inline(never)]
pub fn run(case: &Case, rounds: usize, out: &mut Out) -> u64 {
    let sorts: [Sorting; 3] = std::array::from_fn(|j| Sorting {
        descending: case.descending >> j & 1 == 1,
        nulls_first: case.nulls_first >> j & 1 == 1,
    });
    let Out {
        validity,
        offsets,
        data,
        key_validity: [v0, v1, v2],
        key_offsets,
        key_data: [d0, d1, d2],
        flags_validity,
        flags_bits,
    } = out;
    let mut out = StateOutput {
        values: Output {
            validity,
            offsets,
            data,
        },
        keys: [
            Output {
                validity: v0,
                offsets: key_offsets,
                data: d0,
            },
            Output {
                validity: v1,
                offsets: &mut [],
                data: d1,
            },
            Output {
                validity: v2,
                offsets: &mut [],
                data: d2,
            },
        ],
        flags: FlagOutput {
            validity: flags_validity,
            bits: flags_bits,
        },
    };
    let (first, nulls, alone) = (case.form & 1 == 1, case.form & 2 == 2, case.form & 4 == 4);
    let mut sum = 0u64;
    for _ in 0..rounds {
        let answered = match (alone, case.state) {
            (false, 1) => {
                let order = NumberOrder::new(&sorts[..case.count]);
                perform(
                    &mut Stage::new(NumberValueState::default(), order, first, nulls),
                    case,
                    &mut out,
                )
            }
            (false, 2) => {
                let order = TextOrder::new(sorts[0]);
                perform(
                    &mut Stage::new(BytesValueState::default(), order, first, nulls),
                    case,
                    &mut out,
                )
            }
            (false, _) => {
                let order = NumberOrder::new(&sorts[..case.count]);
                perform(
                    &mut Stage::new(RecordValueState::default(), order, first, nulls),
                    case,
                    &mut out,
                )
            }
            (true, 1) => {
                let order = NumberOrder::new(&sorts[..case.count]);
                perform_single(
                    &mut Single::new(NumberValueState::default(), order, nulls),
                    case,
                    &mut out,
                )
            }
            (true, _) => {
                let order = TextOrder::new(sorts[0]);
                perform_single(
                    &mut Single::new(BytesValueState::default(), order, nulls),
                    case,
                    &mut out,
                )
            }
        };
        sum = sum.wrapping_mul(31).wrapping_add(answered);
    }
    sum
}

#[inline(never)]
fn make(kind: u32, rows: usize, validity: &[u8], offsets: &[u32], data: &[u8]) -> u64 {
    match Column::new(kind, rows, validity, offsets, data) {
        Ok(column) => column.rows as u64,
        Err(number) => u64::from(number) << 32,
    }
}

/// Makes a column so many times.
#[inline(never)]
pub fn columns(
    rounds: usize,
    kind: u32,
    rows: usize,
    validity: &[u8],
    offsets: &[u32],
    data: &[u8],
) -> u64 {
    let mut sum = 0u64;
    for _ in 0..rounds {
        sum = sum.wrapping_add(make(
            kind,
            black_box(rows),
            validity,
            offsets,
            black_box(data),
        ));
    }
    sum
}

fn words(bytes: &[u8]) -> u64 {
    bytes.chunks_exact(8).fold(0, |sum: u64, word| {
        sum.wrapping_add(u64::from_le_bytes(word.try_into().unwrap()))
    })
}

#[inline(never)]
fn touch(values: &Column, keys: &[Column], groups: &[usize], marks: Option<&BoolColumn>) -> u64 {
    let column = |column: &Column| {
        let used = column
            .offsets
            .last()
            .map_or(column.data.len(), |end| *end as usize);
        words(&column.data[..used])
            .wrapping_add(words(column.validity))
            .wrapping_add(
                column
                    .offsets
                    .iter()
                    .fold(0, |sum: u64, x| sum.wrapping_add(u64::from(*x))),
            )
    };
    let mut sum = groups
        .iter()
        .fold(column(values), |sum, group| sum.wrapping_add(*group as u64));
    for key in keys {
        sum = sum.wrapping_add(column(key));
    }
    marks.map_or(sum, |marks| {
        sum.wrapping_add(words(marks.bits))
            .wrapping_add(words(marks.validity))
    })
}

/// One read of all that the batches bring: no stage can be faster.
#[inline(never)]
pub fn read(case: &Case, rounds: usize) -> u64 {
    let feed = Feed(case);
    let mut sum = 0u64;
    for _ in 0..rounds {
        for i in 0..case.batches {
            let (values, keys, marks) = (feed.values(i), feed.keys(i), feed.marks(i));
            sum = sum.wrapping_add(touch(
                &values,
                &keys[..case.count],
                feed.groups(i),
                marks.as_ref(),
            ));
        }
    }
    sum
}
