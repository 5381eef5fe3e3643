//! How long calls take.
use std::hint::black_box;

#[repr(C)]
struct Timespec {
    seconds: i64,
    nanoseconds: i64,
}

unsafe extern "C" {
    fn clock_gettime(clock: i32, time: *mut Timespec) -> i32;
}

/// The processor time of this thread, so that other programs on the machine count less.
fn now() -> f64 {
    const THREAD_CPUTIME: i32 = 3;
    let mut time = Timespec {
        seconds: 0,
        nanoseconds: 0,
    };
    // SAFETY: the function writes the one value that is lent.
    unsafe { clock_gettime(THREAD_CPUTIME, &mut time) };
    time.seconds as f64 + time.nanoseconds as f64 * 1e-9
}

fn seconds(f: &mut dyn FnMut() -> u64) -> f64 {
    let start = now();
    black_box(f());
    now() - start
}

fn median(mut xs: Vec<f64>) -> f64 {
    xs.sort_by(f64::total_cmp);
    xs[xs.len() / 2]
}

/// What a side takes: the lower quarter of the seconds that one round takes, and the seconds of each time.
pub struct Times {
    pub quarter: f64,
    pub all: Vec<f64>,
}

/// The sides take turns; whichever comes first, it is another one the next time.
pub fn measure(reps: usize, ms: f64, sides: &mut [&mut dyn FnMut(usize) -> u64]) -> Vec<Times> {
    let mut rounds = Vec::new();
    for side in sides.iter_mut() {
        let mut n = 1;
        let once = loop {
            let t = seconds(&mut || side(n));
            if t > 0.002 || n > 1_000_000 {
                break t / n as f64;
            }
            n *= 2;
        };
        rounds.push(((ms / 1000.0 / once.max(1e-9)) as usize).clamp(1, 10_000_000));
    }
    let mut times = vec![Vec::new(); sides.len()];
    for rep in 0..reps {
        for k in 0..sides.len() {
            let i = (k + rep) % sides.len();
            let n = rounds[i];
            times[i].push(seconds(&mut || sides[i](n)) / n as f64);
        }
    }
    let quarter = |all: &Vec<f64>| {
        let mut sorted = all.clone();
        sorted.sort_by(f64::total_cmp);
        sorted[sorted.len() / 4]
    };
    times
        .into_iter()
        .map(|all| Times {
            quarter: quarter(&all),
            all,
        })
        .collect()
}

/// The median of the ratios, each of two times that were measured one after the other.
pub fn ratio(plain: &Times, rattle: &Times) -> f64 {
    median(
        plain
            .all
            .iter()
            .zip(&rattle.all)
            .map(|(a, b)| b / a)
            .collect(),
    )
}

/// The median of what a time is above the other, each of two that were measured in one turn.
pub fn difference(more: &Times, less: &Times) -> f64 {
    median(more.all.iter().zip(&less.all).map(|(a, b)| a - b).collect())
}
