//! What must be reached, and whether it is. Every bar is a ratio with the
//! archive's speed above the line, so more is better.

use crate::case::SECOND;
use crate::checks::{C, C_TWO, C_TWO_WIDE, C_WIDE, EBUS, FRAMES, MODBUS, ONE_BYTE, ROWS_FROM};
use crate::contest::CONTEST;
use crate::day::DAY;
use crate::feed::FEED_64;
use crate::judge::JUDGE;
use crate::poll::POLL;
use crate::report::{Measured, Ratio};
use crate::scan::{MOST, SCAN};
use crate::table::{START, VALID};
use crate::walk::{WALK, WALK_64};

/// One bar: what it is on, what must be reached, and what was.
pub struct Bar {
    on: String,
    least: f64,
    value: f64,
}

impl Bar {
    fn on(ratio: &Ratio, least: f64) -> Self {
        Bar {
            on: format!("{} {} {}", ratio.case, ratio.size, ratio.peer),
            least,
            value: ratio.speed,
        }
    }

    fn held(&self) -> bool {
        self.value >= self.least
    }
}

/// All bars on what was measured.
pub fn all(measured: &[Measured], ratios: &[Ratio]) -> Vec<Bar> {
    let mut bars: Vec<Bar> = ratios.iter().filter_map(on_ratio).collect();
    // What goes without the rows is the same code as before, so that only the
    // measuring makes a difference.
    bars.extend(slowest(ratios, |size| size < ROWS_FROM, 0.95));
    bars.extend(slowest(ratios, |size| size >= ROWS_FROM, 1.0));
    bars.extend(linear(measured, CONTEST, "key", 64));
    bars.extend(linear(measured, POLL, "device", 31));
    bars.extend(steps(measured).iter().map(Step::bar));
    bars
}

/// Says of each bar whether it is held; the answer is whether all are.
pub fn print(bars: &[Bar]) -> bool {
    for bar in bars {
        let word = if bar.held() { "held" } else { "missed" };
        println!("bar {} {} {word}: {:.3}", bar.on, bar.least, bar.value);
    }
    let held = bars.iter().filter(|bar| bar.held()).count();
    println!("bars: {held} held, {} missed", bars.len() - held);
    held == bars.len()
}

/// The bars on our speed over a peer's.
fn on_ratio(ratio: &Ratio) -> Option<Bar> {
    let least = match (ratio.case, ratio.peer, ratio.size) {
        (MODBUS | EBUS, C | C_WIDE, 64..) => 0.95,
        (MODBUS | EBUS, C | C_WIDE, 8) => 0.6,
        (MODBUS, C_TWO | C_TWO_WIDE, 256..) => 0.95,
        (MODBUS, ONE_BYTE, 256..) => 1.5,
        (JUDGE, SECOND, _) => 1.0,
        // Listening takes at most one and a half times as long as judging.
        (FEED_64, JUDGE, _) => 0.667,
        (WALK | WALK_64, SECOND, DAY) => 1.0,
        (SCAN | POLL, SECOND, MOST) => 1.0,
        (SCAN, "bus", MOST) => 200.0,
        _ => return None,
    };
    Some(Bar::on(ratio, least))
}

/// No frame measured takes longer than before: that at which least is gained.
fn slowest(ratios: &[Ratio], among: impl Fn(usize) -> bool, least: f64) -> Option<Bar> {
    let frames = ratios.iter().filter(|ratio| ratio.case == FRAMES);
    let slowest = frames
        .filter(|ratio| among(ratio.size))
        .min_by(|a, b| a.speed.total_cmp(&b.speed))?;
    Some(Bar::on(slowest, least))
}

/// What grows linearly: one key or device of 247 takes little longer than one of
/// few. From 64 to 247 growth by n log n would reach 0.75 and by n squared 0.26;
/// what 0.8 leaves is for branches that a processor foretells in short lists and
/// not in long.
fn linear(measured: &[Measured], case: &str, each: &str, few: usize) -> Option<Bar> {
    let per_one = |size| Some(time(measured, case, size)? / size as f64);
    Some(Bar {
        on: format!("{case} {MOST} per-{each}-of-{few}"),
        least: 0.8,
        value: per_one(few)? / per_one(MOST)?,
    })
}

/// A start in two parts, in nanoseconds.
pub struct Step {
    pub devices: usize,
    /// The test of the table.
    pub test: f64,
    /// The rest, which is the step of a scan.
    pub behind: f64,
}

impl Step {
    /// The test takes no longer than the step behind it.
    fn bar(&self) -> Bar {
        Bar {
            on: format!("{VALID} {} step", self.devices),
            least: 1.0,
            value: self.behind / self.test,
        }
    }
}

/// The steps at every number of devices at which both parts were measured.
pub fn steps(measured: &[Measured]) -> Vec<Step> {
    let starts = measured.iter().filter(|one| one.case == START);
    starts
        .filter_map(|start| {
            let test = time(measured, VALID, start.size)?;
            Some(Step {
                devices: start.size,
                test,
                behind: start.ours() - test,
            })
        })
        .collect()
}

/// The archive's time in a case, where it was measured.
fn time(measured: &[Measured], case: &str, size: usize) -> Option<f64> {
    let mut all = measured.iter();
    let one = all.find(|one| (one.case, one.size) == (case, size))?;
    Some(one.ours())
}
