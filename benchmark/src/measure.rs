//! Times of calls on a machine that has other work too.
//!
//! A batch is short, so that some batches are not interrupted, and all that
//! is compared is timed in turn, so that slow spells fall on all. The least
//! time of a batch is what counts; the middle one shows the noise. A batch that
//! is too long for that is timed by the processor's clock, which stands still
//! while other work has its turn.

use std::ffi::{c_int, c_long};
use std::time::{Duration, Instant};

/// Nanoseconds of one call.
#[derive(Clone, Copy, Debug)]
pub struct Time {
    pub least: f64,
    pub middle: f64,
}

/// Prepares, then times a batch of calls.
pub type Batch<'a> = (usize, Box<dyn FnMut() -> Duration + 'a>);

/// Longer work may be interrupted.
const LONG: Duration = Duration::from_millis(1);

#[repr(C)]
struct Timespec {
    seconds: i64,
    nanoseconds: c_long,
}

extern "C" {
    fn clock_gettime(clock: c_int, time: *mut Timespec) -> c_int;
}

/// The clock of this thread's time on a processor.
const CLOCK_THREAD_CPUTIME_ID: c_int = 3;

fn processor() -> Duration {
    let mut time = Timespec { seconds: 0, nanoseconds: 0 };
    // Safety: the time is writable, and laid out as the C library's.
    assert_eq!(unsafe { clock_gettime(CLOCK_THREAD_CPUTIME_ID, &mut time) }, 0);
    Duration::new(time.seconds as u64, time.nanoseconds as u32)
}

/// The time from here to the end of the work.
pub fn timed(work: impl FnOnce()) -> Duration {
    let before = processor();
    let begin = Instant::now();
    work();
    let elapsed = begin.elapsed();
    match elapsed < LONG {
        true => elapsed,
        false => elapsed.min(processor() - before),
    }
}

/// Runs all batches in turn until the time is used up, a few times at least.
pub fn in_turn(budget: Duration, least_rounds: usize, mut batches: Vec<Batch>) -> Vec<Time> {
    let begin = Instant::now();
    let mut times: Vec<Vec<f64>> = vec![Vec::new(); batches.len()];
    while times.first().is_some_and(|first| first.len() < least_rounds) || begin.elapsed() < budget
    {
        for ((calls, batch), times) in batches.iter_mut().zip(&mut times) {
            times.push(batch().as_nanos() as f64 / *calls as f64);
        }
        if batches.is_empty() {
            break;
        }
    }
    times.into_iter().map(summary).collect()
}

fn summary(mut times: Vec<f64>) -> Time {
    times.sort_by(f64::total_cmp);
    Time { least: times[0], middle: times[times.len() / 2] }
}
