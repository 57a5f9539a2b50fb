//! Times two runners in turns, so that a busy machine slows both.

use std::time::Instant;

/// How often each runner is timed.
const SAMPLES: usize = 101;
/// About how long one sample takes.
const SAMPLE_NS: f64 = 100_000.0;
/// A run longer than this is timed only a few times.
const LONG_NS: f64 = 5_000_000.0;

/// Something that can be run again and again; the number says which time it is.
pub type Runner<'a> = &'a mut dyn FnMut(usize);

/// Nanoseconds of one run.
fn sample(run: Runner, times: usize) -> f64 {
    let begin = Instant::now();
    for time in 0..times {
        run(time);
    }
    begin.elapsed().as_nanos() as f64 / times as f64
}

fn median(mut samples: Vec<f64>) -> f64 {
    samples.sort_by(f64::total_cmp);
    samples[samples.len() / 2]
}

/// The median nanoseconds of a run of each runner. Each sample has as many runs of one
/// runner as of the other: a repeated run finds the machine prepared.
pub fn race(runners: &mut [Runner]) -> Vec<f64> {
    let mut times = 1;
    let mut samples = SAMPLES;
    for run in runners.iter_mut() {
        sample(run, 3);
        let once = sample(run, 10);
        times = times.max((SAMPLE_NS / once).clamp(1.0, 10_000.0) as usize);
        if once > LONG_NS {
            samples = 5;
        }
    }
    let mut taken = vec![Vec::new(); runners.len()];
    for _ in 0..samples {
        for (run, taken) in runners.iter_mut().zip(&mut taken) {
            taken.push(sample(run, times));
        }
    }
    taken.into_iter().map(median).collect()
}
