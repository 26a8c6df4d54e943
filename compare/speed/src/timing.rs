//! Runs of two works in turn, and what they say.

use std::time::Instant;

/// Runs of each work; odd, so that each median is one of the runs.
const RUNS: usize = 101;
/// How long a run of the plain work should last, in seconds.
const RUN: f64 = 0.008;

/// Seconds for so many repetitions.
fn seconds(repetitions: usize, work: &mut dyn FnMut()) -> f64 {
    let start = Instant::now();
    for _ in 0..repetitions {
        work();
    }
    start.elapsed().as_secs_f64()
}

/// Repetitions that make a run of the work long enough, by the best of five.
fn repetitions(work: &mut dyn FnMut()) -> usize {
    let mut repetitions = 1;
    loop {
        let times = [(); 5].map(|()| seconds(repetitions, work));
        let best = times.into_iter().fold(f64::INFINITY, f64::min);
        if best >= RUN {
            return (repetitions as f64 * RUN / best).ceil() as usize;
        }
        repetitions *= 2;
    }
}

/// The number that so many quarters of the others do not exceed.
fn quantile(numbers: &mut [f64], quarters: usize) -> f64 {
    numbers.sort_by(f64::total_cmp);
    numbers[(numbers.len() - 1) * quarters / 4]
}

/// Times the two works in turn and prints the medians and the ratios.
pub fn compare(name: &str, ours: &mut dyn FnMut(), plain: &mut dyn FnMut()) {
    seconds(3, ours);
    let repetitions = repetitions(plain);
    let mut times = [Vec::new(), Vec::new()];
    let mut ratios = Vec::new();
    for _ in 0..RUNS {
        let our_time = seconds(repetitions, ours);
        let plain_time = seconds(repetitions, plain);
        times[0].push(our_time);
        times[1].push(plain_time);
        ratios.push(our_time / plain_time);
    }
    let [our_time, plain_time] =
        times.map(|mut runs| 1e6 * quantile(&mut runs, 2) / repetitions as f64);
    let [low, middle, high] = [1, 2, 3].map(|quarters| quantile(&mut ratios, quarters));
    println!(
        "{name:<14} {repetitions:>6} {our_time:>10.2} {plain_time:>10.2} \
         {middle:>8.3} {low:>8.3} {high:>8.3}"
    );
}
