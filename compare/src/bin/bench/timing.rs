//! Processor time of repeated work, and the spread of several measurements.

use crate::work::Work;

#[repr(C)]
struct Timespec {
    seconds: i64,
    nanoseconds: i64,
}

const CLOCK_PROCESS_CPUTIME_ID: i32 = 2;

extern "C" {
    fn clock_gettime(clock: i32, time: *mut Timespec) -> i32;
}

/// The processor time of this process, which other processes do not lengthen as
/// they do the time on the wall.
fn processor_nanoseconds() -> f64 {
    let mut time = Timespec { seconds: 0, nanoseconds: 0 };
    let failed = unsafe { clock_gettime(CLOCK_PROCESS_CPUTIME_ID, &mut time) };
    assert_eq!(failed, 0, "the processor's clock cannot be read");
    time.seconds as f64 * 1e9 + time.nanoseconds as f64
}

/// The time of one unit of the work, which is repeated for a fifth of a second.
pub fn nanoseconds_each(work: &mut dyn Work) -> f64 {
    let start = processor_nanoseconds();
    let mut times = 0;
    loop {
        work.once();
        times += 1;
        let elapsed = processor_nanoseconds() - start;
        if elapsed > 2e8 {
            return elapsed / (times * work.units()) as f64;
        }
    }
}

pub struct Spread {
    pub least: f64,
    pub median: f64,
    pub greatest: f64,
}

impl Spread {
    pub fn of(numbers: &[f64]) -> Spread {
        let mut sorted = numbers.to_vec();
        sorted.sort_by(f64::total_cmp);
        Spread {
            least: sorted[0],
            median: sorted[sorted.len() / 2],
            greatest: sorted[sorted.len() - 1],
        }
    }

    /// Of each number over the one of the same round.
    pub fn of_ratios(over: &[f64], under: &[f64]) -> Spread {
        let ratios: Vec<f64> = over.iter().zip(under).map(|(over, under)| over / under).collect();
        Spread::of(&ratios)
    }
}
