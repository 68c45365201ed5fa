//! Rounds of timing: in each, every side is timed once over as many calls as take a while, one side after the other.
//! Times are the processor's for this thread: what else the machine does is not in them.

/// How long one side is timed in a round, in seconds, unless a single call takes longer.
const WHILE: f64 = 0.02;

pub type Side<'a> = Box<dyn FnMut() + 'a>;

unsafe extern "C" {
    fn clock_gettime(clock: i32, time: *mut [i64; 2]) -> i32;
}

/// Linux's clock of the thread's processor time.
const CLOCK_THREAD_CPUTIME_ID: i32 = 3;

/// The processor time that this thread has taken, in seconds.
fn taken() -> f64 {
    let mut time = [0; 2];
    // SAFETY: on 64-bit Linux a time is two numbers of 64 bits, seconds and nanoseconds.
    let status = unsafe { clock_gettime(CLOCK_THREAD_CPUTIME_ID, &mut time) };
    assert_eq!(status, 0, "Linux has a clock for each thread");
    time[0] as f64 + time[1] as f64 * 1e-9
}

fn seconds(calls: u32, side: &mut Side) -> f64 {
    let start = taken();
    for _ in 0..calls {
        side();
    }
    taken() - start
}

fn median(mut numbers: Vec<f64>) -> f64 {
    numbers.sort_by(f64::total_cmp);
    let (low, high) = (numbers[(numbers.len() - 1) / 2], numbers[numbers.len() / 2]);
    (low + high) / 2.0
}

/// What a side took: the median time of a call, and the median over the rounds of its time against the first side's.
pub struct Took {
    pub seconds: f64,
    pub ratio: f64,
}

pub fn rounds(count: usize, mut sides: Vec<Side>) -> Vec<Took> {
    let mut calls = Vec::new();
    for side in &mut sides {
        seconds(1, side);
        let mut n = 1;
        while n < 1 << 20 && seconds(n, side) < WHILE {
            n *= 2;
        }
        calls.push(n);
    }
    let mut times = vec![Vec::new(); sides.len()];
    for _ in 0..count {
        for (at, side) in sides.iter_mut().enumerate() {
            times[at].push(seconds(calls[at], side) / f64::from(calls[at]));
        }
    }
    let first = times[0].clone();
    let took = |times: Vec<f64>| {
        let ratios = times.iter().zip(&first).map(|(time, first)| time / first).collect();
        Took { seconds: median(times), ratio: median(ratios) }
    };
    times.into_iter().map(took).collect()
}
