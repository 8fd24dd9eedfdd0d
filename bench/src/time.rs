//! Times to be compared within one run.

use std::time::Duration;

/// Medians over the rounds: the seconds of a call, and of the other one, and how many times as long the first took in a round.
pub struct Compared {
    pub ours: f64,
    pub rust: f64,
    pub ratio: f64,
}

/// Times two calls in turns, for a second of processor time.
pub fn compare(ours: &mut dyn FnMut(), rust: &mut dyn FnMut()) -> Compared {
    let rounds = in_turns(1, [ours, rust]);
    let median_of = |part: fn(&[f64; 2]) -> f64| median(rounds.iter().map(part).collect());
    Compared { ours: median_of(|round| round[0]), rust: median_of(|round| round[1]), ratio: median_of(|round| round[0] / round[1]) }
}

/// The seconds of each call in the round in which it was fastest: what other processes take from it is least there.
pub fn fastest<const N: usize>(seconds: u64, calls: [&mut dyn FnMut(); N]) -> [f64; N] {
    in_turns(seconds, calls).into_iter().reduce(|best, round| std::array::from_fn(|i| best[i].min(round[i]))).expect("a round")
}

/// Times calls in turns, for so many seconds of processor time and at least five rounds: the seconds of each call in each round. A short call
/// is repeated until it takes a millisecond. Before each time comes a call that is not timed, so that none finds the cache as the other left
/// it. What is to be compared is compared round by round, since the calls of a round meet the same mood of the machine.
fn in_turns<const N: usize>(seconds: u64, calls: [&mut dyn FnMut(); N]) -> Vec<[f64; N]> {
    let mut repeated = calls.map(|call| (1 + (1e-3 / time(call, 1)) as usize, call));
    let mut rounds = Vec::new();
    let begin = processor_time();
    while rounds.len() < 5 || processor_time() - begin < Duration::from_secs(seconds) {
        rounds.push(repeated.each_mut().map(|(repetitions, call)| {
            call();
            time(call, *repetitions)
        }));
    }
    rounds
}

/// The seconds of one call, and what it answers.
pub fn once<T>(call: impl FnOnce() -> T) -> (f64, T) {
    let begin = processor_time();
    let answer = call();
    ((processor_time() - begin).as_secs_f64(), answer)
}

/// The seconds of one call, by the time of several.
fn time(call: &mut dyn FnMut(), repetitions: usize) -> f64 {
    let begin = processor_time();
    for _ in 0..repetitions {
        call();
    }
    (processor_time() - begin).as_secs_f64() / repetitions as f64
}

pub fn median(mut times: Vec<f64>) -> f64 {
    times.sort_by(f64::total_cmp);
    times[times.len() / 2]
}

#[repr(C)]
struct TimeSpec {
    seconds: i64,
    nanoseconds: i64,
}

extern "C" {
    fn clock_gettime(clock: i32, time: *mut TimeSpec) -> i32;
}

const THREAD_PROCESSOR_TIME: i32 = 3;

/// What this thread has used: the time that other processes take on a shared machine is not counted.
fn processor_time() -> Duration {
    let mut time = TimeSpec { seconds: 0, nanoseconds: 0 };
    // SAFETY: the C library writes one timespec, which on 64-bit Linux is these two numbers.
    let status = unsafe { clock_gettime(THREAD_PROCESSOR_TIME, &mut time) };
    assert_eq!(status, 0, "no processor time");
    Duration::new(time.seconds as u64, time.nanoseconds as u32)
}
