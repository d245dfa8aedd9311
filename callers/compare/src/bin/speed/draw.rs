//! The pictures, written as SVG by hand: plain shapes and text on white. Lines differ in colour and in dashes or marks, so that they are
//! told apart in grey too.

use crate::figures::{percentile, ratios, whole};
use crate::growth::{Growth, Step};
use crate::measure::PAGE;
use crate::sheets::Group;
use std::fmt::Write;

const WIDTH: f64 = 860.0;
const HEIGHT: f64 = 540.0;
/// The field of the curves.
const LEFT: f64 = 80.0;
const TOP: f64 = 64.0;
const BOTTOM: f64 = 430.0;

const COLOURS: [&str; 4] = ["#0072b2", "#d55e00", "#007a5a", "#000000"];
const DASHES: [&str; 4] = ["", "9 4", "2 3", "12 3 2 3"];

struct Picture {
    text: String,
    /// The right end of the field.
    right: f64,
}

/// Which end of some words stands at their place.
enum Anchor {
    Start,
    Middle,
    End,
}

impl Picture {
    fn new(title: &str, right: f64) -> Self {
        let mut text = String::new();
        let _ = writeln!(
            text,
            "<svg xmlns=\"http://www.w3.org/2000/svg\" viewBox=\"0 0 {WIDTH} {HEIGHT}\" width=\"{WIDTH}\" height=\"{HEIGHT}\" \
             font-family=\"sans-serif\" font-size=\"13\" role=\"img\">"
        );
        let _ = writeln!(text, "<title>{}</title>", escaped(title));
        let _ = writeln!(text, "<rect width=\"{WIDTH}\" height=\"{HEIGHT}\" fill=\"#ffffff\"/>");
        let mut picture = Self { text, right };
        picture.words(LEFT, 28.0, Anchor::Start, 16, title);
        picture
    }

    fn words(&mut self, x: f64, y: f64, anchor: Anchor, size: u32, words: &str) {
        let anchor = match anchor {
            Anchor::Start => "start",
            Anchor::Middle => "middle",
            Anchor::End => "end",
        };
        let words = escaped(words);
        let _ = writeln!(self.text, "<text x=\"{x:.1}\" y=\"{y:.1}\" text-anchor=\"{anchor}\" font-size=\"{size}\">{words}</text>");
    }

    /// Along the left edge, from below upwards.
    fn upwards(&mut self, words: &str) {
        let (x, y) = (24.0, (TOP + BOTTOM) / 2.0);
        let words = escaped(words);
        let _ = writeln!(self.text, "<text x=\"{x}\" y=\"{y}\" text-anchor=\"middle\" transform=\"rotate(-90 {x} {y})\">{words}</text>");
    }

    fn line(&mut self, points: &[(f64, f64)], colour: &str, width: f64, dash: &str) {
        let places: Vec<String> = points.iter().map(|(x, y)| format!("{x:.1},{y:.1}")).collect();
        let dash = if dash.is_empty() { String::new() } else { format!(" stroke-dasharray=\"{dash}\"") };
        let places = places.join(" ");
        let _ = writeln!(self.text, "<polyline points=\"{places}\" fill=\"none\" stroke=\"{colour}\" stroke-width=\"{width}\"{dash}/>");
    }

    /// A round mark, a square one, or one with three corners.
    fn mark(&mut self, which: usize, (x, y): (f64, f64), colour: &str) {
        let shape = match which {
            0 => format!("<circle cx=\"{x:.1}\" cy=\"{y:.1}\" r=\"4.5\""),
            1 => format!("<rect x=\"{:.1}\" y=\"{:.1}\" width=\"8\" height=\"8\"", x - 4.0, y - 4.0),
            _ => format!("<polygon points=\"{:.1},{:.1} {:.1},{:.1} {x:.1},{:.1}\"", x - 5.0, y + 4.0, x + 5.0, y + 4.0, y - 5.0),
        };
        let _ = writeln!(self.text, "{shape} fill=\"{colour}\"/>");
    }

    /// A line across at this height, with what it stands for beside it.
    fn across(&mut self, y: f64, words: &str) {
        self.line(&[(LEFT, y), (self.right, y)], "#dddddd", 1.0, "");
        self.words(LEFT - 8.0, y + 4.0, Anchor::End, 13, words);
    }

    /// A line upwards at this place, with what it stands for below it.
    fn up(&mut self, x: f64, words: &str) {
        self.line(&[(x, TOP), (x, BOTTOM)], "#dddddd", 1.0, "");
        self.words(x, BOTTOM + 18.0, Anchor::Middle, 13, words);
    }

    /// What stands below and beside the field, and its edge.
    fn done(mut self, below: &str, beside: &str, caption: &[String]) -> String {
        let edge = [(LEFT, TOP), (self.right, TOP), (self.right, BOTTOM), (LEFT, BOTTOM), (LEFT, TOP)];
        self.line(&edge, "#555555", 1.0, "");
        self.words((LEFT + self.right) / 2.0, BOTTOM + 40.0, Anchor::Middle, 13, below);
        self.upwards(beside);
        for (line, words) in caption.iter().enumerate() {
            self.words(LEFT, BOTTOM + 68.0 + 17.0 * line as f64, Anchor::Start, 12, words);
        }
        self.text + "</svg>\n"
    }
}

fn escaped(words: &str) -> String {
    words.replace('&', "&amp;").replace('<', "&lt;").replace('>', "&gt;")
}

/// So many points of a curve at most.
const POINTS: usize = 250;

/// For each group, the share of the sheets whose ratio is at most so much.
pub fn speed(groups: &[Group], machine: &str) -> String {
    let lists: Vec<Vec<f64>> = groups.iter().map(|group| ratios(&group.samples)).collect();
    let most = lists.iter().map(|list| percentile(list, 99)).fold(0.1, f64::max);
    let step = [0.01, 0.02, 0.05, 0.1, 0.2].into_iter().find(|step| most / step < 16.0).unwrap_or(0.5);
    let end = (most * 1.05 / step).ceil() * step;
    let mut picture = Picture::new("Port / Rust, sheet by sheet: full sheets of 32,768 bytes", WIDTH - 30.0);
    let width = picture.right - LEFT;
    let x = |ratio: f64| LEFT + ratio / end * width;
    let y = |share: f64| BOTTOM - share * (BOTTOM - TOP);
    for tick in 0..=(end / step).round() as usize {
        let ratio = tick as f64 * step;
        picture.up(x(ratio), &format!("{ratio:.2}"));
    }
    for share in [0, 25, 50, 75, 100] {
        picture.across(y(share as f64 / 100.0), &format!("{share} %"));
    }
    for limit in [0.05, 0.07] {
        picture.line(&[(x(limit), TOP - 6.0), (x(limit), BOTTOM)], "#666666", 1.2, "");
        picture.words(x(limit), TOP - 10.0, Anchor::Middle, 13, &format!("{limit:.2}"));
    }
    for (index, (group, list)) in groups.iter().zip(&lists).enumerate() {
        picture.line(&curve(list, end, x, y), COLOURS[index], 2.2, DASHES[index]);
        legend(&mut picture, index, &format!("{} ({} sheets)", group.name, whole(list.len())));
    }
    let beyond = lists.iter().flatten().filter(|&&ratio| ratio > end).count();
    let runs =
        format!("Best times of each sheet. The Rust from trees built beforehand, the port from bytes, room for {} records.", whole(PAGE));
    let right = format!("{beyond} of {} sheets lie beyond the right edge.", whole(lists.iter().map(Vec::len).sum()));
    picture.done("port's time / Rust's time", "share of the sheets with at most this ratio", &[format!("{machine}."), runs, right])
}

/// The points of a curve of shares, of sorted ratios, up to the end of the field.
fn curve(list: &[f64], end: f64, x: impl Fn(f64) -> f64, y: impl Fn(f64) -> f64) -> Vec<(f64, f64)> {
    let count = list.len();
    let every = count.div_ceil(POINTS);
    let mut points = vec![(x(list[0]), y(0.0))];
    for index in (0..count).filter(|index| index % every == 0 || index + 1 == count) {
        if list[index] <= end {
            points.push((x(list[index]), y((index + 1) as f64 / count as f64)));
        }
    }
    points
}

/// On white, where the curves are not: low on the right.
fn legend(picture: &mut Picture, index: usize, words: &str) {
    let (x, y) = (picture.right - 232.0, BOTTOM - 96.0 + 22.0 * index as f64);
    if index == 0 {
        let (x, y) = (x - 12.0, y - 18.0);
        let _ = writeln!(picture.text, "<rect x=\"{x}\" y=\"{y}\" width=\"236\" height=\"100\" fill=\"#ffffff\" stroke=\"#bbbbbb\"/>");
    }
    picture.line(&[(x, y), (x + 40.0, y)], COLOURS[index], 2.2, DASHES[index]);
    picture.words(x + 50.0, y + 4.0, Anchor::Start, 13, words);
}

/// A side's name, its time and its dashes.
type Side = (&'static str, fn(&Step) -> f64, &'static str);

const SIDES: [Side; 2] = [("Rust", Step::rust, "8 4"), ("port", Step::port, "")];
const PROPORTION: (&str, f64, &str) = ("#555555", 1.5, "1 3");

/// Both sides by size, on logarithmic scales, with a line of growth in proportion.
pub fn growth(profiles: &[Growth], machine: &str) -> String {
    let mut picture = Picture::new("Time by the size of the sheet", WIDTH - 190.0);
    let steps = || profiles.iter().flat_map(|profile| &profile.steps);
    let times = || steps().flat_map(|step| [step.rust(), step.port()]);
    let low = times().fold(f64::MAX, f64::min).log10().floor();
    let high = times().fold(0.0, f64::max).log10().ceil();
    let most = steps().map(|step| step.kib).max().unwrap_or(2) as f64;
    let width = picture.right - LEFT - 40.0;
    let x = |kib: f64| LEFT + 20.0 + kib.log2() / most.log2() * width;
    let y = |us: f64| BOTTOM - (us.log10() - low) / (high - low) * (BOTTOM - TOP);
    for step in &profiles[0].steps {
        picture.up(x(step.kib as f64), &step.kib.to_string());
    }
    for decade in low as i32..=high as i32 {
        let us = 10f64.powi(decade);
        picture.across(y(us), &if decade < 0 { us.to_string() } else { whole(us as usize) });
    }
    // the line of proportion goes between the two sides
    let first = || profiles.iter().map(|profile| &profile.steps[0]);
    let middle = (first().map(Step::port).fold(0.0, f64::max) * first().map(Step::rust).fold(f64::MAX, f64::min)).sqrt();
    let (colour, thick, dash) = PROPORTION;
    picture.line(&[(x(1.0), y(middle)), (x(most), y(middle * most))], colour, thick, dash);
    for (index, profile) in profiles.iter().enumerate() {
        for (_, time, dash) in SIDES {
            let points: Vec<(f64, f64)> = profile.steps.iter().map(|step| (x(step.kib as f64), y(time(step)))).collect();
            picture.line(&points, COLOURS[index], 2.0, dash);
            points.iter().for_each(|&point| picture.mark(index, point, COLOURS[index]));
        }
    }
    sides(&mut picture, profiles);
    let sheets = steps().map(|step| step.samples.len()).max().unwrap_or(0);
    let means = format!("Means of the best times of {sheets} sheets of each size and profile; both scales are logarithmic.");
    picture.done("bytes of the sheet, KiB", "time of a call, µs", &[format!("{machine}."), means])
}

/// The legend of the sides, right of the field.
fn sides(picture: &mut Picture, profiles: &[Growth]) {
    let left = picture.right + 14.0;
    let mut height = TOP + 24.0;
    for (side, _, dash) in SIDES {
        for (index, profile) in profiles.iter().enumerate() {
            picture.line(&[(left, height), (left + 44.0, height)], COLOURS[index], 2.0, dash);
            picture.mark(index, (left + 22.0, height), COLOURS[index]);
            picture.words(left + 54.0, height + 4.0, Anchor::Start, 13, &format!("{side}, {}", profile.name));
            height += 22.0;
        }
        height += 12.0;
    }
    let (colour, thick, dash) = PROPORTION;
    picture.line(&[(left, height), (left + 44.0, height)], colour, thick, dash);
    picture.words(left + 54.0, height + 4.0, Anchor::Start, 13, "in proportion");
}
