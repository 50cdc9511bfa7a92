//! The judging of exchanges whose bytes arrive in runs: the archive's listener,
//! fed in runs of 64 or byte by byte and then closed, beside the archive's own
//! judge of the whole. Neither clears its buffers between calls.

use std::rc::Rc;

use moortinker::sys;

use crate::case::{Case, OURS};
use crate::exchanges;
use crate::judge::{self, judge_ours, Buffers, Judging, JUDGE};

/// Runs as long as a serial line hands them over.
pub const FEED_64: &str = "feed-64";
/// A run for each byte.
pub const FEED_1: &str = "feed-1";

pub fn feed_64(size: usize) -> Result<Case, String> {
    case(FEED_64, size, feed_in_runs::<64>)
}

pub fn feed_1(size: usize) -> Result<Case, String> {
    case(FEED_1, size, feed_in_runs::<1>)
}

/// The exchanges are those of the case `judge`.
fn case(name: &'static str, size: usize, feed: Judging) -> Result<Case, String> {
    let runs: Rc<[Vec<u8>]> = exchanges::of(size)?.into();
    compare(name, feed, &runs)?;
    let calls = runs.len();
    let candidates = vec![
        judge::candidate(OURS, feed, Rc::clone(&runs)),
        judge::candidate(JUDGE, judge_ours, runs),
    ];
    Ok(Case {
        name,
        size,
        calls,
        candidates,
    })
}

pub fn feed_in_runs<const LENGTH: usize>(exchange: &[u8], buffers: &mut Buffers) -> sys::Judged {
    // SAFETY: no pointer is handed over.
    let mut state = unsafe { sys::moor_listen() };
    for run in exchange.chunks(LENGTH) {
        // SAFETY: the pointer comes with its length.
        state = unsafe { sys::moor_feed(state, run.as_ptr(), run.len()) }.state;
    }
    close(state, buffers)
}

pub fn close(state: sys::Listening, buffers: &mut Buffers) -> sys::Judged {
    let Buffers {
        command,
        reply_1,
        reply_2,
    } = buffers;
    // SAFETY: each pointer comes with the length of its own buffer, and the
    // buffers are apart.
    let closed = unsafe {
        sys::moor_close(
            state,
            command.as_mut_ptr(),
            command.len(),
            reply_1.as_mut_ptr(),
            reply_1.len(),
            reply_2.as_mut_ptr(),
            reply_2.len(),
        )
    };
    closed.judged
}

/// Holds both to the same answers and buffers on the very exchanges to be
/// measured, each of which must be accepted.
fn compare(name: &str, feed: Judging, runs: &[Vec<u8>]) -> Result<(), String> {
    let (mut fed, mut judged) = (Buffers::default(), Buffers::default());
    for run in runs {
        let answer = feed(run, &mut fed);
        let whole = judge_ours(run, &mut judged);
        if answer != whole || answer.number != sys::MOOR_ACCEPTED || fed != judged {
            return Err(format!(
                "{name} of {run:02X?}: {OURS} {answer:?} {fed:?}, {JUDGE} {whole:?} {judged:?}"
            ));
        }
    }
    Ok(())
}
