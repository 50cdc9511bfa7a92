//! Times candidates that do the same work. In each round every candidate runs
//! for a few milliseconds, and who goes first rotates, so that other load on
//! the machine meets them all alike. The clock is this thread's own: it stands
//! still while another program has the processor.

use std::ffi::{c_int, c_long};
use std::time::Duration;

use crate::case::{Candidate, Case};

/// Odd, so that a median is one of the measured values.
pub const ROUNDS: usize = 101;

/// How long a candidate runs in a round, at least.
const SLICE: Duration = Duration::from_millis(3);

/// Nanoseconds for one call, round by round.
pub struct Timing {
    pub name: &'static str,
    pub rounds: Vec<f64>,
}

impl Timing {
    pub fn median(&self) -> f64 {
        quantile(&self.rounds, 0.5)
    }

    /// How far the middle half of the rounds is apart, in percent of the median.
    pub fn spread(&self) -> f64 {
        let middle = quantile(&self.rounds, 0.75) - quantile(&self.rounds, 0.25);
        100.0 * middle / self.median()
    }

    /// How many times faster this is than the other: the median over the
    /// rounds, each of which both have run.
    pub fn speed_over(&self, other: &Timing) -> f64 {
        let pairs = self.rounds.iter().zip(&other.rounds);
        let ratios: Vec<f64> = pairs.map(|(own, others)| others / own).collect();
        quantile(&ratios, 0.5)
    }
}

/// Times the candidates of a case against each other.
pub fn interleave(case: &mut Case) -> Vec<Timing> {
    let candidates = &mut case.candidates;
    let passes = enough_passes(candidates);
    let calls = (passes * case.calls) as f64;
    let mut timings: Vec<Timing> = candidates.iter().map(no_rounds).collect();
    for round in 0..ROUNDS {
        for turn in 0..candidates.len() {
            let who = (round + turn) % candidates.len();
            let time = time(&mut candidates[who], passes);
            timings[who].rounds.push(time.as_nanos() as f64 / calls);
        }
    }
    timings
}

fn no_rounds(candidate: &Candidate) -> Timing {
    let rounds = Vec::with_capacity(ROUNDS);
    let name = candidate.name;
    Timing { name, rounds }
}

/// The number of passes that takes each candidate a slice of time; all are
/// warm afterwards.
fn enough_passes(candidates: &mut [Candidate]) -> usize {
    let mut passes = 1;
    for candidate in candidates {
        while time(candidate, passes) < SLICE {
            passes *= 2;
        }
    }
    passes
}

fn time(candidate: &mut Candidate, passes: usize) -> Duration {
    let start = thread_time();
    candidate.run(passes);
    thread_time() - start
}

#[repr(C)]
struct ClockTime {
    seconds: c_long,
    nanoseconds: c_long,
}

/// Linux's CLOCK_THREAD_CPUTIME_ID.
const THREAD_CLOCK: c_int = 3;

extern "C" {
    fn clock_gettime(clock: c_int, time: *mut ClockTime) -> c_int;
}

/// The processor time that this thread has had.
fn thread_time() -> Duration {
    let mut time = ClockTime {
        seconds: 0,
        nanoseconds: 0,
    };
    // SAFETY: the pointer is to a value of the form that Linux fills in.
    let status = unsafe { clock_gettime(THREAD_CLOCK, &mut time) };
    assert_eq!(status, 0, "Linux has this clock");
    Duration::new(time.seconds as u64, time.nanoseconds as u32)
}

/// The value below which this part of the values lies.
fn quantile(values: &[f64], part: f64) -> f64 {
    let mut sorted = values.to_vec();
    sorted.sort_by(f64::total_cmp);
    let last = (sorted.len() - 1) as f64;
    sorted[(part * last).round() as usize]
}
