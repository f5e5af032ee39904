//! Nanoseconds of one call: in each batch the median of its samples, and of
//! all batches the best.

use std::hint::black_box;
use std::time::Instant;

const BATCHES: usize = 31;
const SAMPLES: usize = 5;
const SAMPLE_NANOSECONDS: f64 = 200_000.0;

/// Of calls that take milliseconds each. So many steps down the stack are a page.
const LONG_BATCHES: usize = 9;
const STEP_BYTES: usize = 480;

/// Both calls' times. The batches take turns, so that a slow spell of the
/// machine meets both.
pub fn pair(mut library: impl FnMut(), mut reference: impl FnMut()) -> (f64, f64) {
    let library_calls = calls_in_a_sample(&mut library);
    let reference_calls = calls_in_a_sample(&mut reference);
    let mut best = (f64::INFINITY, f64::INFINITY);
    for _ in 0..BATCHES {
        best.0 = best.0.min(batch(library_calls, &mut library));
        best.1 = best.1.min(batch(reference_calls, &mut reference));
    }
    best
}

/// The same for calls of which each is long enough to be a sample. They keep much
/// on the stack, and where it lies makes a difference: each batch is a step deeper.
pub fn long<const CALLS: usize>(mut calls: [&mut dyn FnMut(); CALLS]) -> [f64; CALLS] {
    let mut best = [f64::INFINITY; CALLS];
    for steps in 0..LONG_BATCHES {
        for (best, call) in best.iter_mut().zip(&mut calls) {
            deeper(steps, &mut || *best = best.min(batch(1, call)));
        }
    }
    best
}

#[inline(never)]
fn deeper(steps: usize, call: &mut dyn FnMut()) {
    let step = [0u8; STEP_BYTES];
    black_box(&step);
    match steps {
        0 => call(),
        _ => deeper(steps - 1, call),
    }
    black_box(&step);
}

/// Doubled until samples are long against the clock's own steps; this warms
/// the caches too. A whole batch each time, lest one interrupted sample end it.
fn calls_in_a_sample(call: &mut impl FnMut()) -> u32 {
    let mut calls = 1;
    while batch(calls, call) * f64::from(calls) < SAMPLE_NANOSECONDS {
        calls *= 2;
    }
    calls
}

fn batch(calls: u32, call: &mut impl FnMut()) -> f64 {
    let mut samples = [0.0; SAMPLES];
    samples.fill_with(|| sample(calls, call));
    samples.sort_by(f64::total_cmp);
    samples[SAMPLES / 2]
}

fn sample(calls: u32, call: &mut impl FnMut()) -> f64 {
    let start = Instant::now();
    for _ in 0..calls {
        call();
    }
    start.elapsed().as_nanos() as f64 / f64::from(calls)
}
