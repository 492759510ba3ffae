//! Times of several versions of one thing, taken in turn.

use std::time::{Duration, Instant};

/// A version: its run does all inputs once.
pub struct Version<'a> {
    pub name: &'static str,
    pub run: Box<dyn FnMut() + 'a>,
}

pub fn version<'a>(name: &'static str, run: impl FnMut() + 'a) -> Version<'a> {
    Version { name, run: Box::new(run) }
}

/// The names of the versions in the table's columns.
pub const COLUMNS: [&str; 4] = ["library", "plain", "fast", "reference"];

pub struct Plan {
    /// Rounds in which each version has a turn.
    pub rounds: usize,
    /// What a turn takes at least.
    pub turn: Duration,
}

fn time(run: &mut dyn FnMut(), times: u32) -> Duration {
    let start = Instant::now();
    for _ in 0..times {
        run();
    }
    start.elapsed()
}

/// The least nanoseconds for an operation of each version, in the order given. A version whose one run takes over ten turns has a turn
/// in every fourth round only.
pub fn best(plan: &Plan, operations: usize, versions: &mut [Version]) -> Vec<f64> {
    // the first run warms up, the second says how many make a turn
    let once = versions.iter_mut().map(|v| {
        (v.run)();
        time(&mut v.run, 1).max(Duration::from_nanos(100))
    });
    let once: Vec<Duration> = once.collect();
    let mut least = vec![f64::INFINITY; versions.len()];
    for round in 0..plan.rounds {
        for (i, v) in versions.iter_mut().enumerate() {
            if once[i] > 10 * plan.turn && round % 4 != 0 {
                continue;
            }
            let times = (plan.turn.as_nanos() / once[i].as_nanos()).max(1) as u32;
            let taken = time(&mut v.run, times).as_nanos() as f64;
            least[i] = least[i].min(taken / f64::from(times) / operations as f64);
        }
    }
    least
}

/// A figure in a column of this width.
fn figure(value: Option<f64>, width: usize) -> String {
    match value {
        None => format!("{:>width$}", "-"),
        Some(v) if v < 100.0 => format!("{v:>width$.1}"),
        Some(v) => format!("{v:>width$.0}"),
    }
}

pub fn head(what: &str, unit: &str) {
    let columns: String = COLUMNS.iter().map(|name| format!("{name:>11}")).collect();
    println!("\n{:<44}{columns}{:>11}{:>10}", format!("{what}, {unit}"), "lib/plain", "lib/fast");
}

/// A line of the table: the figures in the order of the columns, and the library's by the others'. Where more is better, the
/// ratios are turned round, so that they are of times in every line.
pub fn line(what: &str, figures: [Option<f64>; 4], more_is_better: bool) {
    let [library, plain, fast, _] = figures;
    let ratio = |other: Option<f64>| match (library, other) {
        (Some(l), Some(o)) => format!("{:.2}", if more_is_better { o / l } else { l / o }),
        _ => "-".into(),
    };
    let columns: String = figures.iter().map(|&value| figure(value, 11)).collect();
    println!("{what:<44}{columns}{:>11}{:>10}", ratio(plain), ratio(fast));
}

/// Measure the versions and print their line. Gives the figures in the order of the columns.
pub fn measure(plan: &Plan, what: &str, operations: usize, mut versions: Vec<Version>) -> [Option<f64>; 4] {
    let least = best(plan, operations, &mut versions);
    let figures = COLUMNS.map(|name| versions.iter().position(|v| v.name == name).map(|i| least[i]));
    line(what, figures, false);
    figures
}

/// A ratio, or a count, that has an aim.
pub struct Aim {
    pub what: &'static str,
    pub aim: &'static str,
    pub ratio: Option<f64>,
}

impl Aim {
    pub fn print(&self) {
        let ratio = self.ratio.map_or("-".into(), |r| if r < 100.0 { format!("{r:.2}") } else { format!("{r:.0}") });
        println!("{:<72}{ratio:>9}   {}", self.what, self.aim);
    }
}

/// The first by the second, where there are both.
pub fn ratio(first: Option<f64>, second: Option<f64>) -> Option<f64> {
    Some(first? / second?)
}
