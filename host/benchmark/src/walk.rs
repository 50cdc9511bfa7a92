//! A walk over a capture of many exchanges: the archive and the second
//! implementation, each in two ways. `walk` looks for the next exchange and
//! judges it. `walk-64` hears the capture in runs of 64, with a listener for
//! each exchange; beside it stands the archive's own `walk`. The buffers are not
//! cleared between exchanges.

use std::hint::black_box;
use std::rc::Rc;

use moortinker::sys;
use second::capture::next_exchange;
use second::Listener;

use crate::case::{Candidate, Case, OURS, SECOND};
use crate::day;
use crate::judge::{judge_ours, judge_second, plain, Answer, Buffers};
use crate::line::hear_in_runs;

pub const WALK: &str = "walk";
pub const WALK_64: &str = "walk-64";

/// Is told of each exchange: where it starts, the answer, and the buffers.
pub type Tell<'a, T> = &'a mut dyn FnMut(usize, T, &Buffers);

/// One way to walk over a capture.
type Way<T> = fn(&[u8], Tell<T>);

pub fn walk(size: usize) -> Result<Case, String> {
    let capture: Rc<[u8]> = day::capture(size).into();
    let own = met(walk_ours, plain, &capture)?;
    let theirs = met(walk_second, Ok, &capture)?;
    compare(WALK, SECOND, &own, &theirs)?;
    let candidates = vec![
        candidate(OURS, walk_ours, &capture),
        candidate(SECOND, walk_second, &capture),
    ];
    Ok(case(WALK, size, candidates))
}

pub fn walk_64(size: usize) -> Result<Case, String> {
    let hear_ours = hear_in_runs::<sys::Listening, 64>;
    let hear_second = hear_in_runs::<Listener, 64>;
    let capture: Rc<[u8]> = day::capture(size).into();
    let own = met(hear_ours, plain, &capture)?;
    let theirs = met(hear_second, Ok, &capture)?;
    let walked = met(walk_ours, plain, &capture)?;
    compare(WALK_64, SECOND, &own, &theirs)?;
    compare(WALK_64, WALK, &own, &walked)?;
    let candidates = vec![
        candidate(OURS, hear_ours, &capture),
        candidate(SECOND, hear_second, &capture),
        candidate(WALK, walk_ours, &capture),
    ];
    Ok(case(WALK_64, size, candidates))
}

/// A call is a walk over the whole capture.
fn case(name: &'static str, size: usize, candidates: Vec<Candidate>) -> Case {
    Case {
        name,
        size,
        calls: 1,
        candidates,
    }
}

fn candidate<T: 'static>(name: &'static str, way: Way<T>, capture: &Rc<[u8]>) -> Candidate {
    let capture = Rc::clone(capture);
    Candidate::new(name, move || {
        black_box(way)(&capture, &mut |start, answer, buffers| {
            black_box((start, answer, buffers));
        });
    })
}

fn walk_ours(capture: &[u8], tell: Tell<sys::Judged>) {
    let mut buffers = Buffers::default();
    let mut next = next_ours(capture, 0);
    while next.start < next.end {
        let judged = judge_ours(&capture[next.start..next.end], &mut buffers);
        tell(next.start, judged, &buffers);
        next = next_ours(capture, next.end);
    }
}

fn next_ours(capture: &[u8], at: usize) -> sys::Stretch {
    // SAFETY: the pointer comes with its length.
    unsafe { sys::moor_next_exchange(capture.as_ptr(), capture.len(), at) }
}

fn walk_second(capture: &[u8], tell: Tell<Answer>) {
    let mut buffers = Buffers::default();
    let mut next = next_exchange(capture, 0);
    while next.start < next.end {
        let answer = judge_second(&capture[next.start..next.end], &mut buffers);
        tell(next.start, answer, &buffers);
        next = next_exchange(capture, next.end);
    }
}

/// An exchange that was met, in the second implementation's words.
type Met = (usize, Answer, Buffers);

fn met<T>(
    way: Way<T>,
    words: fn(T) -> Result<Answer, String>,
    capture: &[u8],
) -> Result<Vec<Met>, String> {
    let mut all = Vec::new();
    way(capture, &mut |start, answer, buffers| {
        all.push((start, answer, buffers.clone()));
    });
    let plainly = |(start, answer, buffers)| Ok((start, words(answer)?, buffers));
    all.into_iter().map(plainly).collect()
}

/// Holds both to the same exchanges, answers and buffers.
fn compare(name: &str, peer: &str, own: &[Met], theirs: &[Met]) -> Result<(), String> {
    let mut pairs = own.iter().zip(theirs);
    if let Some((own, theirs)) = pairs.find(|(own, theirs)| own != theirs) {
        return Err(format!("{name}: {OURS} {own:?}, {peer} {theirs:?}"));
    }
    let (own, theirs) = (own.len(), theirs.len());
    if own != theirs {
        return Err(format!("{name}: {own} exchanges, by {peer} {theirs}"));
    }
    Ok(())
}
