//! Counts the instructions of a call. A candidate runs alone under
//! `valgrind --tool=callgrind`, once over its inputs one time and once over
//! them twice; the difference is one time over, so that starting, making the
//! inputs and comparing answers drop out. Other load on the machine changes
//! nothing, so runs may go side by side.

use std::env;
use std::path::Path;
use std::process::Command;
use std::thread;

use crate::cases;

/// One candidate of one case.
pub struct Alone {
    pub case: &'static str,
    pub size: usize,
    pub candidate: &'static str,
    /// How many calls are made in going over all inputs once.
    pub calls: usize,
}

/// Goes so many times over the inputs of one candidate, and nothing else.
pub fn run_alone(case: &str, size: &str, candidate: &str, passes: &str) -> Result<(), String> {
    let mut case = cases::make(case, number(size)?)?;
    let passes = number(passes)?;
    let mut candidates = case.candidates.iter_mut();
    match candidates.find(|known| known.name == candidate) {
        Some(found) => found.run(passes),
        None => return Err(format!("{} has no candidate {candidate}", case.name)),
    }
    Ok(())
}

/// The instructions for one call of each; an error says why there are none.
pub fn instructions(all: &[Alone]) -> Result<Vec<f64>, String> {
    let program = env::current_exe().map_err(|fault| fault.to_string())?;
    answer_to("valgrind", &["--version"]).map_err(|_| "valgrind is not installed")?;
    let workers = thread::available_parallelism().map_or(1, usize::from);
    // Each takes every so-manieth, since the costly cases stand together.
    let share = &|worker: usize| {
        let own = all.iter().skip(worker).step_by(workers);
        own.map(|alone| for_one_call(&program, alone))
            .collect::<Result<Vec<f64>, String>>()
    };
    thread::scope(|scope| {
        let started: Vec<_> = (0..workers)
            .map(|worker| scope.spawn(move || share(worker)))
            .collect();
        let mut counts = vec![0.0; all.len()];
        for (worker, share) in started.into_iter().enumerate() {
            let own = share.join().expect("counting does not panic")?;
            let places = counts.iter_mut().skip(worker).step_by(workers);
            places.zip(own).for_each(|(place, count)| *place = count);
        }
        Ok(counts)
    })
}

fn for_one_call(program: &Path, alone: &Alone) -> Result<f64, String> {
    let once = collected(program, alone, 1)?;
    let twice = collected(program, alone, 2)?;
    Ok((twice - once) / alone.calls as f64)
}

/// All instructions of a run with so many passes.
fn collected(program: &Path, alone: &Alone, passes: usize) -> Result<f64, String> {
    let (size, passes) = (alone.size.to_string(), passes.to_string());
    let program = program.to_string_lossy();
    let words = [
        "--tool=callgrind",
        "--callgrind-out-file=/dev/null",
        &program,
        "count",
        alone.case,
        &size,
        alone.candidate,
        &passes,
    ];
    let said = answer_to("valgrind", &words)?;
    let count = said.lines().find_map(|line| {
        let (_, count) = line.split_once("Collected :")?;
        count.trim().parse().ok()
    });
    count.ok_or_else(|| format!("valgrind gave no count: {said}"))
}

/// What the program writes, on both of its outputs, if it ends well.
fn answer_to(program: &str, words: &[&str]) -> Result<String, String> {
    let output = Command::new(program).args(words).output();
    let output = output.map_err(|fault| format!("{program}: {fault}"))?;
    let said = [output.stdout, output.stderr].concat();
    let said = String::from_utf8_lossy(&said).into_owned();
    match output.status.success() {
        true => Ok(said),
        false => Err(format!("{program} {words:?}: {}: {said}", output.status)),
    }
}

fn number(word: &str) -> Result<usize, String> {
    word.parse()
        .map_err(|_| format!("{word} is no number of this machine"))
}
