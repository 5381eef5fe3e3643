//! The shapes that are measured, with their data, which are the same on each run.

pub const ROWS: usize = 1024;
pub const BATCHES: usize = 16;

/// What both sides are given. The batches lie one after the other in each slice, and so do the key columns.
#[derive(Clone)]
pub struct Case {
    pub name: String,
    /// 1 number by numbers, 2 byte string by text, 3 record by numbers.
    pub state: u32,
    /// Bit 0 FIRST, bit 1 ignore nulls, bit 2 without groups.
    pub form: u32,
    pub descending: u32,
    pub nulls_first: u32,
    /// 0 update, 1 merge, 2 convert.
    pub taking: u32,
    /// 0 nothing, 1 evaluate all, 2 state all, 3 evaluate the first `n`, 4 state the first `n`, `times` over.
    pub leaving: u32,
    pub n: usize,
    pub times: usize,
    pub rows: usize,
    pub batches: usize,
    pub total: usize,
    pub count: usize,
    pub kind: u32,
    pub key_kind: u32,
    pub validity: Vec<u8>,
    pub offsets: Vec<u32>,
    pub data: Vec<u8>,
    pub stride: usize,
    pub key_validity: Vec<u8>,
    pub key_offsets: Vec<u32>,
    pub key_data: Vec<u8>,
    pub key_stride: usize,
    pub filter_validity: Vec<u8>,
    pub filter: Vec<u8>,
    pub indices: Vec<usize>,
    /// What one round has of the unit that is reported: rows, or calls.
    pub units: usize,
    pub unit: &'static str,
    /// The case that does all but what is reported, to be taken away.
    pub minus: Option<String>,
}

pub struct Random(u64);

impl Random {
    pub fn new(seed: u64) -> Random {
        Random(seed)
    }

    pub fn next(&mut self) -> u64 {
        self.0 ^= self.0 << 13;
        self.0 ^= self.0 >> 7;
        self.0 ^= self.0 << 17;
        self.0.wrapping_mul(0x2545_f491_4f6c_dd1d) >> 11
    }

    fn below(&mut self, n: u64) -> u64 {
        self.next() % n
    }
}

#[derive(Clone, Copy, PartialEq)]
pub enum Keys {
    /// Anything below a million, in each column.
    Spread,
    /// Few values in the first columns, so that the last one decides.
    Deep,
    /// All the same.
    Tied,
    /// Each row beats all before it, for LAST.
    Rising,
}

/// Bits of `rows` for each batch, each 1 but for `zeros` in a hundred.
fn bits(random: &mut Random, rows: usize, batches: usize, zeros: u64) -> Vec<u8> {
    let bytes = rows.div_ceil(8);
    let mut all = vec![0; bytes * batches];
    for batch in all.chunks_mut(bytes) {
        for r in 0..rows {
            if random.below(100) >= zeros {
                batch[r / 8] |= 1 << (r % 8);
            }
        }
    }
    all
}

fn number_column(random: &mut Random, rows: usize, keys: Keys, j: usize, count: usize) -> Vec<u8> {
    let mut data = Vec::with_capacity(8 * rows);
    for r in 0..rows {
        let x = match keys {
            Keys::Spread => random.below(1_000_000) as i64 - 500_000,
            Keys::Deep if j + 1 < count => random.below(2) as i64,
            Keys::Deep => random.below(1_000_000) as i64,
            Keys::Tied => 7,
            Keys::Rising => r as i64,
        };
        data.extend(x.to_le_bytes());
    }
    data
}

fn record_column(random: &mut Random, rows: usize) -> Vec<u8> {
    let mut data = Vec::with_capacity(25 * rows);
    for _ in 0..rows {
        let present = random.below(8) as u8;
        data.push(present);
        for j in 0..3 {
            let x = if present >> j & 1 == 1 {
                random.next() as i64
            } else {
                0
            };
            data.extend(x.to_le_bytes());
        }
    }
    data
}

/// Strings of 0 to 24 letters, 12 on average; each batch's data are padded to the same length.
fn text_columns(
    random: &mut Random,
    rows: usize,
    batches: usize,
    tied: bool,
) -> (Vec<u32>, Vec<u8>, usize) {
    let stride = 33 * rows;
    let (mut offsets, mut data) = (Vec::new(), Vec::new());
    for b in 0..batches {
        let mut end = 0;
        offsets.push(0);
        for _ in 0..rows {
            let length = if tied { 12 } else { random.below(25) };
            for _ in 0..length {
                data.push(if tied {
                    b'k'
                } else {
                    b'a' + random.below(26) as u8
                });
            }
            end += length as u32;
            offsets.push(end);
        }
        data.resize((b + 1) * stride, 0);
    }
    (offsets, data, stride)
}

impl Case {
    /// A batch of numbers by numbers.
    pub fn numbers(
        name: &str,
        rows: usize,
        batches: usize,
        total: usize,
        count: usize,
        keys: Keys,
    ) -> Case {
        let mut random = Random::new(0x9e37_79b9_7f4a_7c15);
        let mut data = Vec::new();
        for _ in 0..batches {
            data.extend(number_column(&mut random, rows, Keys::Spread, 0, 1));
        }
        let mut key_data = Vec::new();
        for j in 0..count {
            for _ in 0..batches {
                key_data.extend(number_column(&mut random, rows, keys, j, count));
            }
        }
        let indices = (0..rows * batches)
            .map(|_| random.below(total as u64) as usize)
            .collect();
        Case {
            name: name.to_string(),
            state: 1,
            form: 0,
            descending: 0,
            nulls_first: 0,
            taking: 0,
            leaving: 0,
            n: 0,
            times: 0,
            rows,
            batches,
            total,
            count,
            kind: 1,
            key_kind: 1,
            validity: Vec::new(),
            offsets: Vec::new(),
            data,
            stride: 8 * rows,
            key_validity: Vec::new(),
            key_offsets: Vec::new(),
            key_data,
            key_stride: 8 * rows,
            filter_validity: Vec::new(),
            filter: Vec::new(),
            indices,
            units: rows * batches,
            unit: "row",
            minus: None,
        }
    }

    /// A batch of records by numbers.
    pub fn records(
        name: &str,
        rows: usize,
        batches: usize,
        total: usize,
        count: usize,
        keys: Keys,
    ) -> Case {
        let mut case = Case::numbers(name, rows, batches, total, count, keys);
        let mut random = Random::new(0x1234_5678_9abc_def1);
        case.data.clear();
        for _ in 0..batches {
            case.data.extend(record_column(&mut random, rows));
        }
        Case {
            state: 3,
            kind: 3,
            stride: 25 * rows,
            ..case
        }
    }

    /// A batch of byte strings by text.
    pub fn texts(name: &str, rows: usize, batches: usize, total: usize, tied: bool) -> Case {
        let case = Case::numbers(name, rows, batches, total, 1, Keys::Spread);
        let mut random = Random::new(0xdead_beef_1234_5671);
        let (offsets, data, stride) = text_columns(&mut random, rows, batches, false);
        let (key_offsets, key_data, key_stride) = text_columns(&mut random, rows, batches, tied);
        Case {
            state: 2,
            kind: 2,
            key_kind: 2,
            offsets,
            data,
            stride,
            key_offsets,
            key_data,
            key_stride,
            ..case
        }
    }

    /// The same with nulls among values and keys, so many in a hundred.
    fn nulls(mut self, percent: u64) -> Case {
        let mut random = Random::new(0xfeed_0000_1111_2223);
        self.validity = bits(&mut random, self.rows, self.batches, percent);
        self.key_validity = bits(&mut random, self.rows, self.batches * self.count, percent);
        self
    }

    /// The same with a filter that lets some through, so many in a hundred.
    fn filtered(mut self, percent: u64) -> Case {
        let mut random = Random::new(0xabcd_0000_1111_2227);
        self.filter = bits(&mut random, self.rows, self.batches, 100 - percent);
        self
    }

    /// The same, and then groups leave; reported by call, and the batches are taken away.
    fn leaving(mut self, base: &str, leaving: u32, n: usize, times: usize) -> Case {
        self.leaving = leaving;
        self.n = n;
        self.times = times;
        self.units = times;
        self.unit = "call";
        self.minus = Some(base.to_string());
        self
    }

    fn per_call(mut self) -> Case {
        self.units = self.batches;
        self.unit = "call";
        self
    }

    /// A string of 33 bytes in the last row of each batch's values.
    fn long_last(mut self) -> Case {
        for b in 0..self.batches {
            let last = self.offsets[b * (self.rows + 1) + self.rows - 1];
            self.offsets[b * (self.rows + 1) + self.rows] = last + 33;
        }
        self
    }

    /// An index past the total in the last row of each batch.
    fn group_last(mut self) -> Case {
        for b in 0..self.batches {
            self.indices[(b + 1) * self.rows - 1] = self.total;
        }
        self
    }

    /// One row for each group.
    fn each_group(mut self) -> Case {
        for (i, group) in self.indices.iter_mut().enumerate() {
            *group = i % self.total;
        }
        self
    }
}

pub fn all() -> Vec<Case> {
    use Keys::{Deep, Rising, Spread, Tied};
    let (r, b) = (ROWS, BATCHES);
    let mut cases = vec![
        Case::numbers("number 1 group 1 col", r, b, 1, 1, Spread),
        Case::numbers("number 16 groups 1 col", r, b, 16, 1, Spread),
        Case::numbers("number 256 groups 1 col", r, b, 256, 1, Spread),
        Case::numbers("number 1 group 3 cols", r, b, 1, 3, Deep),
        Case::numbers("number 16 groups 3 cols", r, b, 16, 3, Deep),
        Case::numbers("number 256 groups 3 cols", r, b, 256, 3, Deep),
        Case::numbers("number 256 groups 3 cols early", r, b, 256, 3, Spread),
        Case::numbers("number 256 groups 1 col tied", r, b, 256, 1, Tied),
        Case::numbers("number 256 groups 3 cols tied", r, b, 256, 3, Tied),
        Case::numbers("number 1 group 1 col rising", r, b, 1, 1, Rising),
        Case::numbers("number 16 groups 1 col nulls", r, b, 16, 1, Spread).nulls(10),
        Case::numbers("number 256 groups 1 col nulls", r, b, 256, 1, Spread).nulls(10),
        Case::numbers("number 256 groups 3 cols nulls", r, b, 256, 3, Deep).nulls(10),
        Case {
            form: 2,
            ..Case::numbers(
                "number 256 groups 1 col nulls ignored",
                r,
                b,
                256,
                1,
                Spread,
            )
            .nulls(10)
        },
        Case::numbers("number 16 groups 1 col filter", r, b, 16, 1, Spread).filtered(50),
        Case::numbers("number 256 groups 1 col filter", r, b, 256, 1, Spread).filtered(50),
        Case::numbers("number 256 groups 3 cols filter", r, b, 256, 3, Deep).filtered(50),
        Case {
            taking: 1,
            ..Case::numbers("number 256 groups 1 col merge", r, b, 256, 1, Spread).filtered(90)
        },
        Case::texts("bytes 1 group text", r, b, 1, false),
        Case::texts("bytes 16 groups text", r, b, 16, false),
        Case::texts("bytes 256 groups text", r, b, 256, false),
        Case::texts("bytes 256 groups text nulls", r, b, 256, false).nulls(10),
        Case::texts("bytes 256 groups text tied", r, b, 256, true),
        Case::records("record 1 group 1 col", r, b, 1, 1, Spread),
        Case::records("record 16 groups 1 col", r, b, 16, 1, Spread),
        Case::records("record 256 groups 1 col", r, b, 256, 1, Spread),
        Case::records("record 256 groups 3 cols", r, b, 256, 3, Deep),
        Case::texts("declined LONG at the last row", r, b, 256, false).long_last(),
        Case::numbers("declined GROUP at the last row", r, b, 256, 1, Spread).group_last(),
        Case::numbers("number 8 rows of 16 groups", 8, 1024, 16, 1, Spread).per_call(),
        Case::numbers("number 8 rows of 256 groups", 8, 1024, 256, 1, Spread).per_call(),
        Case::numbers("number 8 rows of 256 groups 3 cols", 8, 1024, 256, 3, Deep).per_call(),
        Case::texts("bytes 8 rows of 16 groups", 8, 1024, 16, false).per_call(),
        Case::texts("bytes 8 rows of 256 groups", 8, 1024, 256, false).per_call(),
    ];
    // Emissions, over one batch with a row for each of 256 groups.
    let fills = [
        Case::numbers("fill number", 256, 1, 256, 1, Spread)
            .nulls(10)
            .each_group(),
        Case::numbers("fill number 3 cols", 256, 1, 256, 3, Deep)
            .nulls(10)
            .each_group(),
        Case::texts("fill bytes", 256, 1, 256, false)
            .nulls(10)
            .each_group(),
        Case::records("fill record", 256, 1, 256, 1, Spread)
            .nulls(10)
            .each_group(),
    ];
    for fill in fills {
        let base = fill.name.clone();
        cases.push(fill.clone().per_call());
        for (what, leaving, n, times) in [
            ("evaluate All", 1, 0, 1),
            ("evaluate First(1) x256", 3, 1, 256),
            ("evaluate First(16) x16", 3, 16, 16),
            ("evaluate First(128)", 3, 128, 1),
            ("state All", 2, 0, 1),
            ("state First(16) x16", 4, 16, 16),
        ] {
            let mut case = fill.clone().leaving(&base, leaving, n, times);
            case.name = format!("{} {what}", base.replace("fill ", ""));
            cases.push(case);
        }
    }
    // Conversions.
    for (name, case) in [
        ("convert no filter", Case::numbers("", r, b, 256, 1, Spread)),
        (
            "convert filter",
            Case::numbers("", r, b, 256, 1, Spread).filtered(50),
        ),
        ("convert filter with nulls", {
            let mut case = Case::numbers("", r, b, 256, 1, Spread).filtered(50);
            case.filter_validity = bits(&mut Random::new(77), r, b, 10);
            case
        }),
    ] {
        cases.push(Case {
            name: name.to_string(),
            taking: 2,
            ..case
        });
    }
    // LAST without groups.
    let alone = |case: Case| Case {
        form: case.form | 4,
        ..case
    };
    cases.extend([
        alone(Case::numbers("LAST alone number 1 col", r, b, 1, 1, Spread)),
        alone(Case::numbers("LAST alone number 3 cols", r, b, 1, 3, Deep)),
        alone(Case::numbers(
            "LAST alone number 1 col tied",
            r,
            b,
            1,
            1,
            Tied,
        )),
        alone(Case::numbers(
            "LAST alone number 3 cols tied",
            r,
            b,
            1,
            3,
            Tied,
        )),
        alone(Case::numbers("LAST alone number 1 col nulls", r, b, 1, 1, Spread).nulls(10)),
        alone(Case::numbers("LAST alone number 1 col merge", r, b, 1, 1, Spread).filtered(90)),
        alone(Case::texts("LAST alone bytes text", r, b, 1, false)),
        alone(Case::texts("LAST alone bytes text tied", r, b, 1, true)),
        alone(Case::numbers(
            "LAST alone number 8 rows",
            8,
            1024,
            1,
            1,
            Spread,
        ))
        .per_call(),
    ]);
    let fill = alone(Case::numbers("fill alone number", 8, 1, 1, 1, Spread));
    cases.push(fill.clone().per_call());
    cases.push(Case {
        name: "LAST alone number state".to_string(),
        ..fill.leaving("fill alone number", 0, 0, 64)
    });
    // The making of an accumulator, with nothing done.
    for (name, case) in [
        ("make number", Case::numbers("", 8, 0, 1, 1, Spread)),
        (
            "make bytes",
            Case {
                state: 2,
                ..Case::numbers("", 8, 0, 1, 1, Spread)
            },
        ),
        (
            "make record",
            Case {
                state: 3,
                ..Case::numbers("", 8, 0, 1, 1, Spread)
            },
        ),
        (
            "make LAST alone number",
            Case {
                form: 4,
                ..Case::numbers("", 8, 0, 1, 1, Spread)
            },
        ),
    ] {
        cases.push(Case {
            name: name.to_string(),
            units: 1,
            unit: "call",
            ..case
        });
    }
    cases
}

/// The output buffers of a call, as large as 256 groups or 1,024 flags need.
#[derive(Clone, PartialEq, Debug)]
pub struct Out {
    pub validity: Vec<u8>,
    pub offsets: Vec<u32>,
    pub data: Vec<u8>,
    pub key_validity: [Vec<u8>; 3],
    pub key_offsets: Vec<u32>,
    pub key_data: [Vec<u8>; 3],
    pub flags_validity: Vec<u8>,
    pub flags_bits: Vec<u8>,
}

impl Out {
    pub fn new() -> Out {
        let bits = || vec![0xaa; 128];
        let data = || vec![0xaa; 256 * 32];
        let offsets = || vec![0xaaaa_aaaa; 257];
        Out {
            validity: bits(),
            offsets: offsets(),
            data: data(),
            key_validity: [bits(), bits(), bits()],
            key_offsets: offsets(),
            key_data: [data(), data(), data()],
            flags_validity: bits(),
            flags_bits: bits(),
        }
    }
}
