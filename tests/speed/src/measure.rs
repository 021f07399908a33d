//! Time: the contestants take turns on the same buffers, and the best of many rounds counts.

use crate::engine::RUST;
use crate::face::PROVED;
use crate::task::Task;
use std::hint::black_box;
use std::time::{Duration, Instant};

/// A sample is as many calls as fill this time, so that the clock's own cost doesn't matter.
const SAMPLE: Duration = Duration::from_micros(20);
/// Rounds go on until this time has passed and there were enough of them.
const ENOUGH: Duration = Duration::from_millis(120);
const LEAST_ROUNDS: usize = 40;

/// Nanoseconds of one call.
#[derive(Clone, Copy)]
pub struct Times {
    pub proved: f64,
    pub rust: f64,
    pub bare: Option<f64>,
}

pub fn measure(task: &mut dyn Task) -> Times {
    let moves = task.bare();
    let contestants: &[fn(&mut dyn Task)] = match moves {
        true => &[proved, rust, bare],
        false => &[proved, rust],
    };
    let calls = calls_of_a_sample(task, contestants);
    let mut best = [f64::INFINITY; 3];
    let begun = Instant::now();
    let mut round = 0;
    while round < LEAST_ROUNDS || begun.elapsed() < ENOUGH {
        for turn in 0..contestants.len() {
            let index = (round + turn) % contestants.len();
            best[index] = best[index].min(sample(task, contestants[index], calls));
        }
        round += 1;
    }
    Times {
        proved: best[0],
        rust: best[1],
        bare: moves.then_some(best[2]),
    }
}

/// The same number for all of them, so that the buffers are as warm for each.
fn calls_of_a_sample(task: &mut dyn Task, contestants: &[fn(&mut dyn Task)]) -> u32 {
    let warm = contestants
        .iter()
        .map(|call| {
            sample(task, *call, 3);
            sample(task, *call, 10)
        })
        .fold(f64::INFINITY, f64::min);
    (SAMPLE.as_nanos() as f64 / warm).clamp(1.0, 10_000.0) as u32
}

fn sample(task: &mut dyn Task, call: fn(&mut dyn Task), calls: u32) -> f64 {
    let begun = Instant::now();
    for _ in 0..calls {
        call(task);
    }
    begun.elapsed().as_nanos() as f64 / f64::from(calls)
}

fn proved(task: &mut dyn Task) {
    black_box(task.call(black_box(&PROVED)));
}

fn rust(task: &mut dyn Task) {
    black_box(task.call(black_box(&RUST)));
}

fn bare(task: &mut dyn Task) {
    black_box(task.bare());
}
