//! Measures how long the original takes for the batches of the benchmark's cases.
//!
//!     original-bench [--reps N] [--ms N] [--only TEXT]     ns a unit
//!     original-bench --count ROUNDS NAME                   one case alone, for callgrind
#[allow(dead_code)]
#[path = "../../rust/cases.rs"]
mod cases;
#[allow(dead_code)]
#[path = "../../rust/timing.rs"]
mod timing;

use std::hint::black_box;
use std::sync::Arc;

use arrow::array::{ArrayRef, BinaryArray, BooleanArray, Int64Array, Record, StructArray};
use arrow::buffer::{BooleanBuffer, NullBuffer};
use arrow::compute::SortOptions;
use arrow::datatypes::{DataType, Field, Schema};
use cases::Case;
use datafusion_expr::function::{AccumulatorArgs, AggregateUDFImpl};
use datafusion_expr::{Accumulator, GroupsAccumulator};
use datafusion_physical_expr_common::sort_expr::{PhysicalExpr, PhysicalSortExpr};

/// Part `i` of the parts of one size that lie one after the other; none where there are not so many.
fn part<T>(all: &[T], i: usize, size: usize) -> &[T] {
    all.get(i * size..(i + 1) * size).unwrap_or(&[])
}

fn bools(bits: &[u8], rows: usize) -> Vec<bool> {
    (0..rows).map(|r| bits[r / 8] >> (r % 8) & 1 == 1).collect()
}

/// Which rows are not null, where not all of them are.
fn nulls(validity: &[u8], rows: usize) -> Option<NullBuffer> {
    (!validity.is_empty()).then(|| NullBuffer::new(BooleanBuffer::from(bools(validity, rows))))
}

fn flags(bits: &[u8], validity: &[u8], rows: usize) -> BooleanArray {
    BooleanArray::new(
        BooleanBuffer::from(bools(bits, rows)),
        nulls(validity, rows),
    )
}

fn number(bytes: &[u8]) -> i64 {
    i64::from_le_bytes(bytes.try_into().expect("eight bytes"))
}

fn data_type(kind: u32) -> DataType {
    match kind {
        2 => DataType::Binary,
        3 => {
            let field = |name| Arc::new(Field::new(name, DataType::Int64, true));
            DataType::Struct(vec![field("a"), field("b"), field("c")])
        }
        _ => DataType::Int64,
    }
}

fn record(bytes: &[u8]) -> Record {
    [0, 1, 2].map(|j| (bytes[0] >> j & 1 == 1).then(|| number(&bytes[1 + 8 * j..9 + 8 * j])))
}

/// The original's array of a column.
fn array(kind: u32, rows: usize, validity: &[u8], offsets: &[u32], data: &[u8]) -> ArrayRef {
    let valid = |r: usize| validity.is_empty() || validity[r / 8] >> (r % 8) & 1 == 1;
    match kind {
        2 => {
            let text = |r: usize| data[offsets[r] as usize..offsets[r + 1] as usize].to_vec();
            Arc::new(BinaryArray::of_cells(
                (0..rows).map(|r| valid(r).then(|| text(r))).collect(),
            ))
        }
        3 => {
            let cell = |r: usize| valid(r).then(|| record(&data[25 * r..25 * r + 25]));
            Arc::new(StructArray {
                cells: (0..rows).map(cell).collect(),
                data_type: data_type(kind),
            })
        }
        _ => {
            let numbers: Vec<i64> = data.chunks_exact(8).map(number).collect();
            Arc::new(Int64Array::new(numbers.into(), nulls(validity, rows)))
        }
    }
}

/// A batch as the original takes it: values, keys and, for a merge, flags; and the filter of an update.
struct Batch {
    columns: Vec<ArrayRef>,
    filter: Option<BooleanArray>,
    groups: Vec<usize>,
}

impl Batch {
    fn of(case: &Case, i: usize) -> Batch {
        let (rows, bits) = (case.rows, case.rows.div_ceil(8));
        let values = array(
            case.kind,
            rows,
            part(&case.validity, i, bits),
            part(&case.offsets, i, rows + 1),
            part(&case.data, i, case.stride),
        );
        let key = |j: usize| {
            let at = j * case.batches + i;
            array(
                case.key_kind,
                rows,
                part(&case.key_validity, at, bits),
                part(&case.key_offsets, at, rows + 1),
                part(&case.key_data, at, case.key_stride),
            )
        };
        let mut columns: Vec<ArrayRef> = std::iter::once(values)
            .chain((0..case.count).map(key))
            .collect();
        let marks = (!case.filter.is_empty()).then(|| {
            flags(
                part(&case.filter, i, bits),
                part(&case.filter_validity, i, bits),
                rows,
            )
        });
        let filter = if case.taking == 1 || case.form & 4 == 4 {
            columns.extend(marks.map(|it| Arc::new(it) as ArrayRef));
            None
        } else {
            marks
        };
        Batch {
            columns,
            filter,
            groups: part(&case.indices, i, rows).to_vec(),
        }
    }
}

/// A FIRST or LAST of the original, and what `make` makes of it.
fn with_arguments<T>(
    case: &Case,
    make: impl FnOnce(&dyn AggregateUDFImpl, AccumulatorArgs) -> T,
) -> T {
    let function = if case.form & 1 == 1 {
        original::first_value_udaf()
    } else {
        original::last_value_udaf()
    };
    let function = function
        .inner()
        .with_beneficial_ordering(false)
        .expect("an answer")
        .expect("a function");
    let order_bys: Vec<PhysicalSortExpr> = (0..case.count)
        .map(|j| PhysicalSortExpr {
            expr: PhysicalExpr {
                data_type: data_type(case.key_kind),
            },
            options: SortOptions {
                descending: case.descending >> j & 1 == 1,
                nulls_first: case.nulls_first >> j & 1 == 1,
            },
        })
        .collect();
    make(
        function.as_ref(),
        AccumulatorArgs {
            return_field: Arc::new(Field::new("value", data_type(case.kind), true)),
            schema: &Schema,
            ignore_nulls: case.form & 2 == 2,
            order_bys: &order_bys,
        },
    )
}

#[inline(never)]
fn take(stage: &mut dyn GroupsAccumulator, case: &Case, batch: &Batch) {
    let taken = if case.taking == 1 {
        stage.merge_batch(&batch.columns, &batch.groups, case.total)
    } else {
        stage.update_batch(
            &batch.columns,
            &batch.groups,
            batch.filter.as_ref(),
            case.total,
        )
    };
    taken.expect("a batch that is taken");
}

#[inline(never)]
fn take_alone(single: &mut dyn Accumulator, case: &Case, batch: &Batch) {
    let taken = if case.filter.is_empty() {
        single.update_batch(&batch.columns)
    } else {
        single.merge_batch(&batch.columns)
    };
    taken.expect("a batch that is taken");
}

/// Makes so many accumulators, and has each take the batches.
fn run(case: &Case, batches: &[Batch], rounds: usize) -> u64 {
    let mut sum = 0;
    for _ in 0..rounds {
        if case.form & 4 == 4 {
            let mut single =
                with_arguments(case, |function, arguments| function.accumulator(arguments))
                    .expect("an accumulator");
            for batch in batches {
                take_alone(single.as_mut(), case, black_box(batch));
            }
            sum += single.size() as u64;
        } else {
            let mut stage = with_arguments(case, |function, arguments| {
                function.create_groups_accumulator(arguments)
            })
            .expect("an accumulator");
            for batch in batches {
                take(stage.as_mut(), case, black_box(batch));
            }
            sum += stage.size() as u64;
        }
    }
    sum
}

/// The cases in which batches alone are taken, and none is declined.
fn taken() -> Vec<Case> {
    let mut all = cases::all();
    all.retain(|it| {
        it.taking != 2
            && it.leaving == 0
            && it.times == 0
            && !it.name.starts_with("declined")
            && !it.name.starts_with("make")
    });
    all
}

fn main() {
    let args: Vec<String> = std::env::args().skip(1).collect();
    let value = |name: &str| {
        args.iter()
            .position(|it| it == name)
            .map(|i| args[i + 1].clone())
    };
    if let Some(i) = args.iter().position(|it| it == "--count") {
        let (rounds, name) = (args[i + 1].parse().unwrap(), args[i + 2..].join(" "));
        let case = taken()
            .into_iter()
            .find(|it| it.name == name)
            .expect("the name of a case that takes batches");
        let batches: Vec<Batch> = (0..case.batches).map(|i| Batch::of(&case, i)).collect();
        println!("units={} sum={}", case.units, run(&case, &batches, rounds));
        return;
    }
    let reps = value("--reps").map_or(9, |x| x.parse().unwrap());
    let ms = value("--ms").map_or(5.0, |x| x.parse().unwrap());
    let only = value("--only").unwrap_or_default();
    println!("{:<40} {:>9} {:>7}", "case (ns)", "original", "unit");
    for case in taken().iter().filter(|it| it.name.contains(&only)) {
        let batches: Vec<Batch> = (0..case.batches).map(|i| Batch::of(case, i)).collect();
        let mut side = |n| run(case, &batches, n);
        let times = timing::measure(reps, ms, &mut [&mut side]);
        println!(
            "{:<40} {:>9.2} {:>7}",
            case.name,
            times[0].quarter * 1e9 / case.units as f64,
            case.unit
        );
    }
}
