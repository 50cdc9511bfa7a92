//! What is printed: a table for people, then a line for each ratio.

use crate::bars::Step;
use crate::case::OURS;
use crate::contest::CONTEST;
use crate::idle::{IDLE, SYNS};
use crate::measure::{Timing, ROUNDS};
use crate::poll::POLL;
use crate::scan;
use crate::walk::{WALK, WALK_64};

/// One case at one size, with the archive first.
pub struct Measured {
    pub case: &'static str,
    pub size: usize,
    pub timings: Vec<Timing>,
    /// Instructions for one call of each, where they were counted.
    pub counts: Option<Vec<f64>>,
}

/// The archive's speed over a peer's, and the peer's instructions over the
/// archive's.
pub struct Ratio {
    pub case: &'static str,
    pub size: usize,
    pub peer: &'static str,
    pub speed: f64,
    pub instructions: Option<f64>,
}

impl Measured {
    /// The archive's time.
    pub fn ours(&self) -> f64 {
        self.timings[0].median()
    }

    fn count(&self, at: usize) -> Option<f64> {
        self.counts.as_ref().map(|counts| counts[at])
    }

    fn ratios(&self) -> Vec<Ratio> {
        let ours = &self.timings[0];
        let mut ratios = Vec::new();
        for (at, peer) in self.timings.iter().enumerate().skip(1) {
            let counts = self.count(0).zip(self.count(at));
            ratios.push(Ratio {
                case: self.case,
                size: self.size,
                peer: peer.name,
                speed: ours.speed_over(peer),
                instructions: counts.map(|(own, theirs)| theirs / own),
            });
        }
        if self.case == scan::SCAN {
            ratios.push(self.over_bus());
        }
        ratios
    }

    /// How many times faster than the bus the archive scans.
    fn over_bus(&self) -> Ratio {
        Ratio {
            case: self.case,
            size: self.size,
            peer: "bus",
            speed: scan::bus_time(self.size) / self.ours(),
            instructions: None,
        }
    }
}

pub fn ratios(all: &[Measured]) -> Vec<Ratio> {
    all.iter().flat_map(Measured::ratios).collect()
}

pub fn print_table(all: &[Measured]) {
    let counted = all.iter().any(|one| one.counts.is_some());
    let last = if counted { "  instructions" } else { "" };
    println!("Time for one call: the median of {ROUNDS} rounds, and how far the middle half");
    println!("of the rounds is apart.");
    if counted {
        println!("Instructions for one call, with the loop that makes the calls.");
    }
    println!();
    println!(
        "{:<13}{:>8}  {:<10}{:>14}{:>9}{last}",
        "case", "size", "candidate", "ns per call", "spread"
    );
    for one in all {
        for (at, timing) in one.timings.iter().enumerate() {
            let count = one.count(at).map(|count| format!("{count:>14.1}"));
            println!(
                "{:<13}{:>8}  {:<10}{:>14.1}{:>8.1}%{}",
                one.case,
                one.size,
                timing.name,
                timing.median(),
                timing.spread(),
                count.unwrap_or_default()
            );
        }
    }
}

pub fn print_ratios(ratios: &[Ratio]) {
    println!("A ratio is our speed over the peer's, the median over the rounds. Behind it,");
    println!("where counted, stand the peer's instructions over ours.");
    println!();
    for ratio in ratios {
        let Ratio {
            case, size, peer, ..
        } = ratio;
        let instructions = ratio.instructions.map(rounded);
        println!(
            "ratio {case} {size} {peer} {}{}",
            rounded(ratio.speed),
            instructions.map_or(String::new(), |value| format!(" instructions {value}"))
        );
    }
}

/// How a contest grows with the keys, judging with idle time, a poll with the
/// devices, and a walk with the bytes of the capture, whose speed stands there
/// too.
pub fn print_growth(all: &[Measured]) {
    for one in all {
        let (each, number) = match one.case {
            CONTEST => ("key", one.size as f64),
            IDLE => ("syn", SYNS as f64),
            POLL => ("device", one.size as f64),
            WALK | WALK_64 => ("byte", one.size as f64),
            _ => continue,
        };
        for (at, timing) in one.timings.iter().enumerate() {
            let time = timing.median() / number;
            let speed = (each == "byte").then(|| format!(", {:.0} MB/s", 1e3 / time));
            let count = one.count(at).map(|count| count / number);
            println!(
                "per-{each} {} {} {} {time:.2} ns{}{}",
                one.case,
                one.size,
                timing.name,
                speed.unwrap_or_default(),
                count.map_or(String::new(), |count| format!(", {count:.1} instructions"))
            );
        }
    }
}

/// The test of a table beside the step of a scan that a start makes behind it.
pub fn print_steps(steps: &[Step]) {
    for step in steps {
        println!(
            "step {} {OURS} {:.1} ns behind table-valid of {:.1} ns",
            step.devices, step.behind, step.test
        );
    }
}

fn rounded(value: f64) -> String {
    if value < 10.0 {
        format!("{value:.2}")
    } else {
        format!("{value:.0}")
    }
}
