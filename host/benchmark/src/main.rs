//! The benchmarks of the archive; `host/bench` builds and runs them.
//!
//! Each candidate's answers are first held to the archive's on the very input
//! that is then measured; a difference ends the run with status 1. A missed bar
//! does so only with `--strict`.

mod bars;
mod case;
mod cases;
mod checks;
mod contest;
mod count;
mod day;
mod exchanges;
mod feed;
mod idle;
mod judge;
mod line;
mod machine;
mod measure;
mod peers;
mod poll;
mod railbus;
mod random;
mod report;
mod scan;
mod table;
mod walk;

use std::env;
use std::process::ExitCode;

use count::Alone;
use report::Measured;

const USAGE: &str = "usage: benchmark [--strict] [CASE..]
       benchmark count CASE SIZE CANDIDATE PASSES";

fn main() -> ExitCode {
    let words: Vec<String> = env::args().skip(1).collect();
    let words: Vec<&str> = words.iter().map(String::as_str).collect();
    let done = match words[..] {
        ["count", case, size, candidate, passes] => {
            count::run_alone(case, size, candidate, passes).map(|()| true)
        }
        ["--strict", ref names @ ..] if known(names) => whole(names),
        ref names if known(names) => whole(names).map(|_| true),
        _ => {
            eprintln!("{USAGE}");
            return ExitCode::from(2);
        }
    };
    match done {
        Ok(true) => ExitCode::SUCCESS,
        Ok(false) => ExitCode::FAILURE,
        Err(difference) => {
            eprintln!("benchmark: {difference}");
            ExitCode::FAILURE
        }
    }
}

fn known(names: &[&str]) -> bool {
    let case = |name: &&str| cases::ALL.iter().any(|(known, _)| known == name);
    names.iter().all(case)
}

/// Measures the cases named, or all; the answer is whether every bar is held.
fn whole(names: &[&str]) -> Result<bool, String> {
    println!("processor: {}", machine::processor());
    println!("load of the last minute: {}", machine::load());
    let measured = measure_all(names)?;
    println!();
    report::print_table(&measured);
    println!();
    print_notes();
    println!();
    let ratios = report::ratios(&measured);
    report::print_ratios(&ratios);
    report::print_growth(&measured);
    report::print_steps(&bars::steps(&measured));
    println!();
    Ok(bars::print(&bars::all(&measured, &ratios)))
}

/// The times of all cases named, and then their instructions.
fn measure_all(names: &[&str]) -> Result<Vec<Measured>, String> {
    for library in &peers::LIBRARIES {
        if library.modbus_check()?.is_none() {
            println!("skipped {}: it was not built", library.name);
        }
    }
    let mut all = Vec::new();
    let mut alone = Vec::new();
    for (name, sizes) in cases::ALL {
        if !names.is_empty() && !names.contains(&name) {
            continue;
        }
        for &size in sizes {
            let (measured, candidates) = time_case(name, size)?;
            all.push(measured);
            if cases::counted(name, size) {
                alone.extend(candidates);
            }
        }
    }
    match count::instructions(&alone) {
        Ok(counts) => share_out(counts, &mut all),
        Err(reason) => println!("skipped the instructions: {reason}"),
    }
    Ok(all)
}

/// Times a case, and names its candidates for the counting.
fn time_case(name: &str, size: usize) -> Result<(Measured, Vec<Alone>), String> {
    match name {
        judge::JUDGE | feed::FEED_64 | feed::FEED_1 => {
            println!("{name} {size}: {}", exchanges::describe(size)?);
        }
        walk::WALK => println!("{name} {size}: {}", day::describe(size)),
        _ => {}
    }
    let mut case = cases::make(name, size)?;
    let timings = measure::interleave(&mut case);
    let candidates = case.candidates.iter();
    let alone = candidates
        .map(|candidate| Alone {
            case: case.name,
            size: case.size,
            candidate: candidate.name,
            calls: case.calls,
        })
        .collect();
    let measured = Measured {
        case: case.name,
        size: case.size,
        timings,
        counts: None,
    };
    Ok((measured, alone))
}

/// Gives each case that was counted the counts of its candidates; they stand in
/// the same order.
fn share_out(counts: Vec<f64>, all: &mut [Measured]) {
    let mut counts = counts.into_iter();
    let counted = |one: &&mut Measured| cases::counted(one.case, one.size);
    for measured in all.iter_mut().filter(counted) {
        let own = counts.by_ref().take(measured.timings.len());
        measured.counts = Some(own.collect());
    }
}

fn print_notes() {
    println!("Answers were compared before each timing, on the same input. The buffers of judge");
    println!("and listener and the scan's lists are not cleared between calls, neither ours nor");
    println!("theirs. A call of walk and walk-64 goes over a whole capture; instructions of the");
    println!("longer one are not counted.");
    println!(
        "The bus takes {:.3} s for a scan of {} devices: {} requests of {} bits at {} baud.",
        scan::bus_time(scan::MOST) / 1e9,
        scan::MOST,
        scan::requests(scan::MOST),
        scan::BITS_PER_REQUEST,
        scan::BAUD
    );
}
