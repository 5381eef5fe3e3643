//! Compares the Rattle stage with plain Rust, side by side in one run.
//!
//!     stage-bench [--reps N] [--ms N] [--only TEXT]     ns and ratios; answers and output bytes are compared first
//!     stage-bench --count SIDE ROUNDS NAME              one side alone, for callgrind; SIDE is rust, rattle or read
//!     stage-bench --names                               the names of the cases
mod cases;
mod driver;
mod plain;
mod rattle;
mod timing;

use cases::{Case, Out};
use timing::{difference, measure, ratio};

fn compare(case: &Case) {
    let (mut ours, mut theirs) = (Out::new(), Out::new());
    for first in [0, 1] {
        for turned in [0, 7] {
            // Without groups there is LAST alone.
            let form = if case.form & 4 == 4 {
                case.form
            } else {
                case.form ^ first
            };
            let mut case = Case {
                form,
                descending: turned,
                nulls_first: turned,
                ..case.clone()
            };
            let emissions = if case.leaving == 0 && case.form & 4 == 0 && case.taking != 2 {
                vec![1, 2]
            } else {
                vec![case.leaving]
            };
            for leaving in emissions {
                case.leaving = leaving;
                case.times = case.times.max(1);
                let a = rattle::run(&case, 2, &mut ours);
                let b = driver::run(&case, 2, &mut theirs);
                assert_eq!(a, b, "{}: other answers", case.name);
                assert!(ours == theirs, "{}: other output bytes", case.name);
            }
        }
    }
}

fn report(reps: usize, ms: f64, only: &str) {
    let cases = cases::all();
    for case in &cases {
        compare(case);
    }
    println!(
        "answers and output bytes of {} cases agree, FIRST and LAST, ascending and descending",
        cases.len()
    );
    println!(
        "{:<40} {:>9} {:>9} {:>9} {:>7} {:>7}",
        "case (ns)", "plain", "rattle", "read", "ratio", "unit"
    );
    for case in cases.iter().filter(|it| it.name.contains(only)) {
        let base = case.minus.as_ref().map(|name| {
            cases
                .iter()
                .find(|it| it.name == *name)
                .expect("a case of that name")
        });
        let (mut ours, mut theirs) = (Out::new(), Out::new());
        let mut plain_side = |n| driver::run(case, n, &mut theirs);
        let mut rattle_side = |n| rattle::run(case, n, &mut ours);
        let mut read_side = |n| driver::read(case, n);
        let (mut ours_before, mut theirs_before) = (Out::new(), Out::new());
        let mut plain_base = |n| base.map_or(0, |base| driver::run(base, n, &mut theirs_before));
        let mut rattle_base = |n| base.map_or(0, |base| rattle::run(base, n, &mut ours_before));
        let mut read_base = |n| base.map_or(0, |base| driver::read(base, n));
        let mut sides: Vec<&mut dyn FnMut(usize) -> u64> =
            vec![&mut plain_side, &mut rattle_side, &mut read_side];
        if base.is_some() {
            sides.push(&mut plain_base);
            sides.push(&mut rattle_base);
            sides.push(&mut read_base);
        }
        let times = measure(reps, ms, &mut sides);
        let seconds: Vec<f64> = match base {
            None => times.iter().map(|it| it.quarter).collect(),
            Some(_) => (0..3)
                .map(|i| difference(&times[i], &times[i + 3]))
                .collect(),
        };
        let ns: Vec<f64> = seconds
            .iter()
            .map(|it| it * 1e9 / case.units as f64)
            .collect();
        // Where something is taken away, two times of one turn say little.
        let ratio = if base.is_some() {
            ns[1] / ns[0]
        } else {
            ratio(&times[0], &times[1])
        };
        println!(
            "{:<40} {:>9.2} {:>9.2} {:>9.2} {:>7.2} {:>7}",
            case.name, ns[0], ns[1], ns[2], ratio, case.unit
        );
    }
    for (name, kind, case) in [
        (
            "Column::new numbers",
            1,
            Case::numbers("", 1024, 1, 256, 1, cases::Keys::Spread),
        ),
        (
            "Column::new strings",
            2,
            Case::texts("", 1024, 1, 256, false),
        ),
        (
            "Column::new records",
            3,
            Case::records("", 1024, 1, 256, 1, cases::Keys::Spread),
        ),
    ] {
        if !name.contains(only) {
            continue;
        }
        let parts = (
            case.rows,
            &case.validity[..],
            &case.offsets[..],
            &case.data[..],
        );
        let mut plain_side = |n| driver::columns(n, kind, parts.0, parts.1, parts.2, parts.3);
        let mut rattle_side = |n| rattle::columns(n, kind, parts.0, parts.1, parts.2, parts.3);
        assert_eq!(plain_side(3), rattle_side(3));
        let times = measure(reps, ms, &mut [&mut plain_side, &mut rattle_side]);
        println!(
            "{:<40} {:>9.1} {:>9.1} {:>9} {:>7.2} {:>7}",
            name,
            times[0].quarter * 1e9,
            times[1].quarter * 1e9,
            "",
            ratio(&times[0], &times[1]),
            "call"
        );
    }
    println!("sizes of the Rattle types in bytes:");
    for (which, name) in [
        "Column",
        "Option<i64>",
        "Option<[Option<i64>; 3]>",
        "Option<ShortBytes>",
        "NumberValueState",
        "BytesValueState",
        "RecordValueState",
        "NumberOrder",
        "TextOrder",
        "grouped number/number",
        "grouped bytes/text",
        "grouped record/number",
        "LAST alone number/number",
        "LAST alone bytes/text",
        "Result<(), Fault>",
    ]
    .iter()
    .enumerate()
    {
        println!("  {name}: {}", rattle::size(which as u32));
    }
}

fn main() {
    let args: Vec<String> = std::env::args().skip(1).collect();
    let value = |name: &str| {
        args.iter()
            .position(|it| it == name)
            .map(|i| args[i + 1].clone())
    };
    if args.iter().any(|it| it == "--names") {
        for case in cases::all() {
            println!("{}", case.name);
        }
        return;
    }
    if let Some(i) = args.iter().position(|it| it == "--count") {
        let (side, rounds, name) = (
            &args[i + 1],
            args[i + 2].parse().unwrap(),
            args[i + 3..].join(" "),
        );
        let case = cases::all()
            .into_iter()
            .find(|it| it.name == name)
            .expect("a name that --names lists");
        let mut out = Out::new();
        let sum = match side.as_str() {
            "rust" => driver::run(&case, rounds, &mut out),
            "rattle" => rattle::run(&case, rounds, &mut out),
            _ => driver::read(&case, rounds),
        };
        println!("units={} sum={sum}", case.units);
        return;
    }
    let reps = value("--reps").map_or(21, |x| x.parse().unwrap());
    let ms = value("--ms").map_or(5.0, |x| x.parse().unwrap());
    report(reps, ms, &value("--only").unwrap_or_default());
}
