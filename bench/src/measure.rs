//! Time that this thread spends on a processor, in turns.

use std::os::raw::{c_int, c_long};

#[repr(C)]
struct Timespec {
    seconds: c_long,
    nanoseconds: c_long,
}

extern "C" {
    fn clock_gettime(clock: c_int, time: *mut Timespec) -> c_int;
}

/// Linux' clock of the calling thread's processor time.
const THREAD_TIME: c_int = 3;

/// How many rounds of turns.
const ROUNDS: usize = 15;
/// Nanoseconds that a turn takes at least.
const TURN: f64 = 4e6;

/// Nanoseconds on a processor so far.
fn now() -> f64 {
    let mut time = Timespec { seconds: 0, nanoseconds: 0 };
    // SAFETY: the structure is Linux' timespec and lives through the call.
    let status = unsafe { clock_gettime(THREAD_TIME, &mut time) };
    assert_eq!(status, 0, "no clock of processor time");
    time.seconds as f64 * 1e9 + time.nanoseconds as f64
}

/// Nanoseconds of one call, of `times` calls.
fn one_call(side: &mut dyn FnMut(), times: usize) -> f64 {
    let began = now();
    for _ in 0..times {
        side();
    }
    (now() - began) / times as f64
}

/// How often a side is called in a turn.
fn calls(side: &mut dyn FnMut()) -> usize {
    let mut times = 1;
    loop {
        let taken = one_call(side, times) * times as f64;
        if taken >= TURN || times >= 1 << 24 {
            return times;
        }
        let wanted = (times as f64 * TURN * 1.2 / taken.max(1.0)) as usize;
        times = wanted.clamp(times + 1, 16 * times);
    }
}

/// The times of one call, of each side in each round.
pub struct Rounds {
    rounds: Vec<Vec<f64>>,
}

impl Rounds {
    /// Gives every side a turn in each round.
    pub fn of(sides: &mut [&mut dyn FnMut()]) -> Rounds {
        let times: Vec<usize> = sides.iter_mut().map(|side| calls(*side)).collect();
        let mut round = || {
            let turns = sides.iter_mut().zip(&times);
            turns.map(|(side, times)| one_call(*side, *times)).collect()
        };
        Rounds { rounds: (0..ROUNDS).map(|_| round()).collect() }
    }

    pub fn sides(&self) -> usize {
        self.rounds[0].len()
    }

    /// The median over the rounds of what is computed from a round's times.
    pub fn median(&self, figure: impl Fn(&[f64]) -> f64) -> f64 {
        median(self.rounds.iter().map(|round| figure(round)).collect())
    }
}

fn median(mut values: Vec<f64>) -> f64 {
    values.sort_by(f64::total_cmp);
    values[values.len() / 2]
}

/// Keeps the compiler from leaving out what computed a value.
pub fn keep<T>(value: T) {
    // SAFETY: the value is initialised and is only forgotten after it was read.
    unsafe { std::mem::forget(std::ptr::read_volatile(&value)) };
}
