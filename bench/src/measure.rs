//! Nanoseconds per call. A run is made of short slices in which library and reader, and the archive of before where
//! there is one, take turns, so that all meet the same disturbances; a run counts with its median slice, and the median
//! run counts.

use crate::call::{Call, Made};
use crate::library::Archive;
use std::hint::black_box;
use std::time::{Duration, Instant};

/// A slice takes at least so long, and a run has so many of each implementation.
const SLICE: Duration = Duration::from_micros(50);
const SLICES: usize = 60;

/// Who takes turns, the last one only in calls that it answers as the others do.
const TURNS: [Made; 3] = [Made::Library(Archive::Now), Made::Reader, Made::Library(Archive::Before)];

/// The medians of the runs' times, and of their ratios.
pub struct Times {
    pub library: f64,
    pub reader: f64,
    pub ratio: f64,
    pub before: Option<Before>,
}

/// The time of the archive of before, and the library's ratio to it.
pub struct Before {
    pub time: f64,
    pub ratio: f64,
}

fn time(call: &mut Call, made: Made, times: u32) -> Duration {
    let begun = Instant::now();
    for _ in 0..times {
        black_box(call.make(made));
    }
    begun.elapsed()
}

/// So many calls as fill a slice.
fn repeats(call: &mut Call, made: Made) -> u32 {
    let mut times = 1;
    while time(call, made, times) < SLICE {
        times *= 2;
    }
    times
}

fn median(samples: impl Iterator<Item = f64>) -> f64 {
    let mut samples: Vec<f64> = samples.collect();
    samples.sort_by(f64::total_cmp);
    samples[samples.len() / 2]
}

/// One run of one call: nanoseconds by each that takes turns. Both archives make as many calls in a slice.
fn run(call: &mut Call, turns: &[Made]) -> Vec<f64> {
    let (archives, reader) = (repeats(call, TURNS[0]), repeats(call, Made::Reader));
    let mut slices = vec![Vec::new(); turns.len()];
    for _ in 0..SLICES {
        for (made, slices) in turns.iter().zip(&mut slices) {
            let times = if *made == Made::Reader { reader } else { archives };
            slices.push(time(call, *made, times).as_nanos() as f64 / f64::from(times));
        }
    }
    slices.into_iter().map(|slices| median(slices.into_iter())).collect()
}

/// Measures all calls in every run, one after the other.
pub fn measure(calls: &mut [Call], runs: usize) -> Vec<Times> {
    let mut measured = vec![Vec::new(); calls.len()];
    for _ in 0..runs {
        for (call, runs) in calls.iter_mut().zip(&mut measured) {
            let turns = if call.before { &TURNS[..] } else { &TURNS[..2] };
            runs.push(run(call, turns));
        }
    }
    measured.into_iter().map(times).collect()
}

/// How many times as long as another call one takes, by the same implementation: the median of the ratios of so many
/// runs' slices. Both are made over the same buffers, since where these lie moves a call's time by a few hundredths.
pub fn against(call: &mut Call, other: &mut Call, made: Made, runs: usize) -> f64 {
    let turn = |_| {
        let others = time(other, made, 1).as_secs_f64();
        call.swap_buffers(other);
        let own = time(call, made, 1).as_secs_f64();
        call.swap_buffers(other);
        own / others
    };
    median((0..runs * SLICES).map(turn))
}

fn times(runs: Vec<Vec<f64>>) -> Times {
    let time = |turn: usize| median(runs.iter().map(|run| run[turn]));
    let ratio = |turn: usize| median(runs.iter().map(|run| run[0] / run[turn]));
    let before = runs[0].len() == TURNS.len();
    Times {
        library: time(0),
        reader: time(1),
        ratio: ratio(1),
        before: before.then(|| Before { time: time(2), ratio: ratio(2) }),
    }
}
