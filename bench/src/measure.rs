//! Times of two functions, taken in turn so that both meet the same machine.
use std::time::Instant;

const REPEATS: usize = 15;
/// A sample runs at least this long.
const SAMPLE_NS: f64 = 4e6;

pub struct Times {
    /// Nanoseconds of a call, a number for each repeat.
    pub ours: Vec<f64>,
    pub original: Vec<f64>,
}

fn once(call: &mut impl FnMut(), times: usize) -> f64 {
    let start = Instant::now();
    for _ in 0..times {
        call();
    }
    start.elapsed().as_nanos() as f64 / times as f64
}

/// How often a call fits into a sample.
fn fitting(call: &mut impl FnMut()) -> usize {
    (SAMPLE_NS / once(call, 1).max(1.0)).ceil() as usize
}

pub fn alone(mut call: impl FnMut()) -> Vec<f64> {
    let times = fitting(&mut call);
    (0..REPEATS).map(|_| once(&mut call, times)).collect()
}

pub fn both(mut ours: impl FnMut(), mut original: impl FnMut()) -> Times {
    let (often, seldom) = (fitting(&mut ours), fitting(&mut original));
    let mut times = Times { ours: Vec::new(), original: Vec::new() };
    for _ in 0..REPEATS {
        times.ours.push(once(&mut ours, often));
        times.original.push(once(&mut original, seldom));
    }
    times
}

/// A call whose times are to be taken, so many of it at once.
pub fn timed(mut call: impl FnMut()) -> impl FnMut(usize) -> f64 {
    move |times| once(&mut call, times)
}

/// The times of any number of calls, one after the other in each repeat.
pub fn in_turn(calls: &mut [&mut dyn FnMut(usize) -> f64]) -> Vec<Vec<f64>> {
    let often: Vec<usize> = calls.iter_mut().map(|call| (SAMPLE_NS / call(1).max(1.0)).ceil() as usize).collect();
    let mut times = vec![Vec::new(); calls.len()];
    for _ in 0..REPEATS {
        for (place, call) in calls.iter_mut().enumerate() {
            times[place].push(call(often[place]));
        }
    }
    times
}

pub fn best(times: &[f64]) -> f64 {
    times.iter().copied().fold(f64::INFINITY, f64::min)
}

fn sorted(mut numbers: Vec<f64>) -> Vec<f64> {
    numbers.sort_by(f64::total_cmp);
    numbers
}

/// The one over the other: of the best times, then the median, the lowest and the highest of the repeats.
pub fn ratios(one: &[f64], other: &[f64]) -> [f64; 4] {
    let each = sorted(one.iter().zip(other).map(|(one, other)| one / other).collect());
    [best(one) / best(other), each[each.len() / 2], each[0], each[each.len() - 1]]
}

impl Times {
    /// Ours over the original's.
    pub fn ratios(&self) -> [f64; 4] {
        ratios(&self.ours, &self.original)
    }
}

/// The head of a table of ratios; `unit` is what a time is given for.
pub fn head(title: &str, unit: &str) {
    println!("\n### {title}\n");
    println!("| input | ours, {unit} | original, {unit} | ratio of best | median | lowest to highest |");
    println!("|---|---|---|---|---|---|");
}

/// A row: times are divided by `per`.
pub fn row(input: &str, per: f64, times: &Times) {
    let [ratio, median, low, high] = times.ratios();
    let (ours, original) = (best(&times.ours) / per, best(&times.original) / per);
    println!("| {input} | {ours:.2} | {original:.2} | {ratio:.2} | {median:.2} | {low:.2} to {high:.2} |");
}
