//! The judge on recorded exchanges: the archive and the second implementation.
//! Neither clears its buffers between calls.

use std::hint::black_box;
use std::rc::Rc;

use moortinker::sys;
use second::exchange;
use second::Refusal;

use crate::case::{Candidate, Case, OURS, SECOND};
use crate::exchanges;

pub const JUDGE: &str = "judge";

/// The three buffers that a judge is lent.
#[derive(Clone, Debug, Default, PartialEq)]
pub struct Buffers {
    pub command: [u8; sys::MOOR_COMMAND_ROOM],
    pub reply_1: [u8; sys::MOOR_REPLY_ROOM],
    pub reply_2: [u8; sys::MOOR_REPLY_ROOM],
}

pub type Answer = Result<exchange::Judged, Refusal>;

/// One way to judge an exchange: the archive's, and the second's.
pub type Judging = fn(&[u8], &mut Buffers) -> sys::Judged;
pub type SecondJudging = fn(&[u8], &mut Buffers) -> Answer;

/// The judge on exchanges of at least `size` raw bytes: long or short ones.
pub fn judge(size: usize) -> Result<Case, String> {
    let runs = exchanges::of(size)?;
    if let Some(run) = runs.iter().find(|run| run.len() < size) {
        return Err(format!("judge: {run:02X?} is below {size} bytes"));
    }
    beside_second(JUDGE, size, judge_ours, judge_second, runs)
}

/// A case of the archive and the second implementation, each in one way to
/// judge.
pub fn beside_second(
    name: &'static str,
    size: usize,
    ours: Judging,
    theirs: SecondJudging,
    runs: Vec<Vec<u8>>,
) -> Result<Case, String> {
    let runs: Rc<[Vec<u8>]> = runs.into();
    compare(name, ours, theirs, &runs)?;
    let calls = runs.len();
    let candidates = vec![
        candidate(OURS, ours, Rc::clone(&runs)),
        candidate(SECOND, theirs, runs),
    ];
    Ok(Case {
        name,
        size,
        calls,
        candidates,
    })
}

/// A candidate that judges each exchange into the same buffers.
pub fn candidate<T: 'static>(
    name: &'static str,
    judge: fn(&[u8], &mut Buffers) -> T,
    runs: Rc<[Vec<u8>]>,
) -> Candidate {
    let mut buffers = Buffers::default();
    Candidate::new(name, move || {
        let judge = black_box(judge);
        for run in runs.iter() {
            black_box(judge(run, black_box(&mut buffers)));
        }
    })
}

pub fn judge_ours(run: &[u8], buffers: &mut Buffers) -> sys::Judged {
    let Buffers {
        command,
        reply_1,
        reply_2,
    } = buffers;
    // SAFETY: each pointer comes with the length of its own buffer, and the
    // buffers are apart.
    unsafe {
        sys::moor_judge(
            run.as_ptr(),
            run.len(),
            command.as_mut_ptr(),
            command.len(),
            reply_1.as_mut_ptr(),
            reply_1.len(),
            reply_2.as_mut_ptr(),
            reply_2.len(),
        )
    }
}

pub fn judge_second(run: &[u8], buffers: &mut Buffers) -> Answer {
    let Buffers {
        command,
        reply_1,
        reply_2,
    } = buffers;
    exchange::judge(run, command, reply_1, reply_2)
}

/// Holds both to the same answers and buffers on the very exchanges to be
/// measured, each of which must be accepted.
fn compare(
    name: &str,
    ours: Judging,
    theirs: SecondJudging,
    runs: &[Vec<u8>],
) -> Result<(), String> {
    let (mut own, mut other) = (Buffers::default(), Buffers::default());
    for run in runs {
        let answer = ours(run, &mut own);
        let other_answer = theirs(run, &mut other);
        if other_answer.is_err() || other_answer != plain(answer)? || own != other {
            let end = &run[run.len().saturating_sub(200)..];
            return Err(format!(
                "{name} of {end:02X?}: {OURS} {answer:?} {own:?}, {SECOND} {other_answer:?} {other:?}"
            ));
        }
    }
    Ok(())
}

/// An answer in the second implementation's words.
pub fn plain(answer: sys::Judged) -> Result<Answer, String> {
    use second::ebus::Kind;
    let kind = match (answer.number, answer.kind) {
        (sys::MOOR_ACCEPTED, sys::MOOR_BROADCAST) => Kind::Broadcast,
        (sys::MOOR_ACCEPTED, sys::MOOR_INITIATOR_INITIATOR) => Kind::InitiatorInitiator,
        (sys::MOOR_ACCEPTED, sys::MOOR_INITIATOR_TARGET) => Kind::InitiatorTarget,
        (sys::MOOR_ACCEPTED, _) => return Err(format!("judge: {OURS} gives {answer:?}")),
        (number, _) => return Ok(Err(Refusal::at(number, answer.place))),
    };
    Ok(Ok(exchange::Judged {
        kind,
        command_attempts: answer.command_attempts,
        reply_attempts: answer.reply_attempts,
        read: answer.read,
    }))
}
