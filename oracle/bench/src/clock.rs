//! Timing: batches of calls, the two sides by turns, and the time of one call out of the lowest batch.

use std::time::{Duration, Instant};

/// How long a batch is to take at least, and how many batches each side makes.
const BATCH: Duration = Duration::from_micros(1500);
pub const ROUNDS: usize = 41;

/// A call that takes longer than this is a long one.
const LONG: Duration = Duration::from_micros(50);

/// A side of a line: makes so many calls and tells the time of these alone.
pub type Batch<'a> = Box<dyn FnMut(u64) -> Duration + 'a>;

#[cfg(has_black_box)]
pub fn opaque<T>(value: T) -> T {
    std::hint::black_box(value)
}

/// A value that the compiler knows nothing about, for compilers without `black_box`.
#[cfg(not(has_black_box))]
#[inline(always)]
pub fn opaque<T>(value: T) -> T {
    let held = std::mem::ManuallyDrop::new(value);
    // SAFETY: the value is read once from where it stands, and not dropped there.
    unsafe { std::ptr::read_volatile(&*held as *const T) }
}

#[repr(C)]
struct Timespec {
    seconds: i64,
    nanoseconds: i64,
}

extern "C" {
    fn clock_gettime(clock: i32, time: *mut Timespec) -> i32;
}

/// The processor time of this thread so far: what other programs take meanwhile is not in it. To ask takes under a
/// microsecond.
pub fn spent() -> Duration {
    const THREAD_CPUTIME: i32 = 3;
    let mut time = Timespec { seconds: 0, nanoseconds: 0 };
    // SAFETY: the struct is that of 64-bit Linux, and is lent for the call alone.
    assert_eq!(unsafe { clock_gettime(THREAD_CPUTIME, &mut time) }, 0);
    Duration::new(time.seconds as u64, time.nanoseconds as u32)
}

/// A batch of one call after another, with nothing between them.
pub fn plain<'a, R>(mut call: impl FnMut() -> R + 'a) -> Batch<'a> {
    Box::new(move |calls| {
        let start = spent();
        for _ in 0..calls {
            let answer = call();
            opaque(&answer);
        }
        spent() - start
    })
}

/// A batch where each call is timed alone, behind something that is made ready for it and before it is put away: by
/// processor time where calls are long, else by the clock on the wall, which takes less time itself.
pub fn prepared<'a, A, R>(mut ready: impl FnMut() -> A + 'a, mut call: impl FnMut(&mut A) -> R + 'a) -> Batch<'a> {
    let mut long = false;
    Box::new(move |calls| {
        let origin = Instant::now();
        let mut sum = Duration::default();
        for _ in 0..calls {
            let now = || if long { spent() } else { origin.elapsed() };
            let mut made = ready();
            let start = now();
            let answer = call(&mut made);
            opaque(&answer);
            sum += now() - start;
        }
        long = sum / calls as u32 > LONG;
        sum
    })
}

/// How many calls make a batch that is long enough.
fn calls_of(side: &mut Batch) -> u64 {
    let mut calls = 1;
    loop {
        let took = side(calls);
        if took >= BATCH {
            return calls;
        }
        let times = BATCH.as_nanos() as u64 / (took.as_nanos() as u64).max(1) + 1;
        calls *= times.clamp(2, 10);
    }
}

/// The nanoseconds of one call of each side: a batch of each by turns, and the lowest of its batches.
pub fn measure(sides: &mut [Batch]) -> Vec<f64> {
    let calls: Vec<u64> = sides.iter_mut().map(calls_of).collect();
    let mut lowest = vec![f64::INFINITY; sides.len()];
    for _ in 0..ROUNDS {
        for (k, side) in sides.iter_mut().enumerate() {
            let took = side(calls[k]).as_nanos() as f64 / calls[k] as f64;
            lowest[k] = lowest[k].min(took);
        }
    }
    lowest
}
