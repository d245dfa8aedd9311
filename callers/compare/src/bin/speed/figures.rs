//! Sums, ratios, percentiles, and numbers as text.

use crate::measure::Sample;

/// Of sorted values.
pub fn median(sorted: &[f64]) -> f64 {
    let half = sorted.len() / 2;
    if sorted.len() % 2 == 1 { sorted[half] } else { (sorted[half - 1] + sorted[half]) / 2.0 }
}

/// Of sorted values: the least that so many of a hundred do not pass.
pub fn percentile(sorted: &[f64], percent: usize) -> f64 {
    sorted[(sorted.len() * percent).div_ceil(100).clamp(1, sorted.len()) - 1]
}

/// The ratios port / Rust of single sheets, sorted.
pub fn ratios(samples: &[Sample]) -> Vec<f64> {
    let mut ratios: Vec<f64> = samples.iter().filter_map(Sample::ratio).collect();
    ratios.sort_by(f64::total_cmp);
    ratios
}

pub fn sum(samples: &[Sample], value: impl Fn(&Sample) -> f64) -> f64 {
    samples.iter().map(value).sum()
}

pub fn mean(samples: &[Sample], value: impl Fn(&Sample) -> f64) -> f64 {
    sum(samples, value) / samples.len() as f64
}

/// The sample where a value is greatest.
pub fn greatest(samples: &[Sample], value: impl Fn(&Sample) -> f64) -> &Sample {
    samples.iter().max_by(|a, b| value(a).total_cmp(&value(b))).expect("a sample")
}

pub fn rust_best(sample: &Sample) -> f64 {
    sample.rust.map_or(0.0, |times| times.best)
}

pub fn rust_median(sample: &Sample) -> f64 {
    sample.rust.map_or(0.0, |times| times.median)
}

/// What the room for all records costs beside the room for 512.
pub fn all_by_few(sample: &Sample) -> f64 {
    sample.port[2].best / sample.port[0].best
}

/// With commas between thousands, and one digit behind the point for numbers below 100.
pub fn grouped(number: f64) -> String {
    if number < 99.95 { format!("{number:.1}") } else { whole(number.round() as usize) }
}

pub fn whole(number: usize) -> String {
    let digits = number.to_string();
    let mut text = String::new();
    for (index, digit) in digits.chars().enumerate() {
        if index > 0 && (digits.len() - index).is_multiple_of(3) {
            text.push(',');
        }
        text.push(digit);
    }
    text
}
