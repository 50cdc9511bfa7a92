//! Captures: bytes of a bus with any number of exchanges in them, and idle time
//! between these. SYN parts one from the next. What each byte belongs to is told
//! a second time, by a listener that hears the whole capture byte by byte, and a
//! report counts both.

use std::collections::BTreeMap;

use crate::ebus::{is_initiator, Kind, ESCAPE, MOST_COMMAND, MOST_REPLY, SYN};
use crate::exchange::{judge, Judged};
use crate::{Listener, Refusal};

/// A part of a capture: the bytes from `start` on that stand before `end`.
#[derive(Clone, Copy, Debug, PartialEq, Eq)]
pub struct Stretch {
    pub start: usize,
    pub end: usize,
}

/// The next exchange of a capture, from a position on. What stands between two
/// SYN is an exchange or idle time, as a whole.
pub fn next_exchange(capture: &[u8], at: usize) -> Stretch {
    let mut start = at.min(capture.len());
    loop {
        let syns = capture[start..].iter().take_while(|&&byte| byte == SYN);
        start += syns.count();
        let end = behind_syn(capture, start);
        match capture[start..end] {
            [ESCAPE, SYN] => start = end,
            [source, SYN] | [source, ESCAPE, SYN] if is_initiator(source) => start = end,
            _ => return Stretch { start, end },
        }
    }
}

/// The position behind the next SYN, or the capture's end.
fn behind_syn(capture: &[u8], at: usize) -> usize {
    let syn = capture[at..].iter().position(|&byte| byte == SYN);
    syn.map_or(capture.len(), |syn| at + syn + 1)
}

/// An exchange of a capture.
#[derive(Clone, Copy, Debug, PartialEq, Eq)]
pub struct Found {
    pub start: usize,
    /// The position behind the byte that decided, or the capture's end where
    /// none did.
    pub decided: usize,
    /// The position behind its SYN, or the capture's end.
    pub end: usize,
    /// Places and bytes read count from its start.
    pub answer: Result<Judged, Refusal>,
}

/// All exchanges of a capture.
pub fn walk(capture: &[u8]) -> Vec<Found> {
    let mut all = Vec::new();
    let mut next = next_exchange(capture, 0);
    while next.start < next.end {
        let Stretch { start, end } = next;
        let run = &capture[start..end];
        let (mut command, mut replies) = ([0; MOST_COMMAND], [[0; MOST_REPLY]; 2]);
        let [reply_1, reply_2] = &mut replies;
        all.push(Found {
            start,
            decided: start + Listener::new().feed(run),
            end,
            answer: judge(run, &mut command, reply_1, reply_2),
        });
        next = next_exchange(capture, end);
    }
    all
}

/// What a byte of a capture belongs to.
#[derive(Clone, Copy, Debug, PartialEq, Eq)]
pub enum Belongs {
    Idle,
    Exchange,
    /// What is left of an exchange behind the byte that refused it.
    Rest,
}

/// What each byte of a capture belongs to. Behind each SYN a listener begins
/// afresh. A SYN that gives it no answer ends idle time.
pub fn classify(capture: &[u8]) -> Vec<Belongs> {
    let mut all = Vec::with_capacity(capture.len());
    let mut listener = Listener::new();
    let mut behind_syn = 0;
    for &byte in capture {
        if listener.has_answered() {
            all.push(Belongs::Rest);
        } else {
            listener.feed(&[byte]);
            all.push(Belongs::Exchange);
        }
        if byte == SYN {
            if !listener.has_answered() {
                all[behind_syn..].fill(Belongs::Idle);
            }
            listener = Listener::new();
            behind_syn = all.len();
        }
    }
    all
}

/// What a capture holds.
#[derive(Clone, Debug, Default, PartialEq, Eq)]
pub struct Report {
    pub exchanges: usize,
    pub broadcasts: usize,
    pub initiator_initiator: usize,
    pub initiator_target: usize,
    /// The attempts beyond the first at the commands and replies that were
    /// accepted.
    pub retries: usize,
    /// How many exchanges were refused with each number; no entry is 0.
    pub refused: BTreeMap<u8, usize>,
    /// The bytes that belong to no exchange.
    pub skipped: usize,
}

pub fn report(capture: &[u8]) -> Report {
    let mut report = Report::default();
    for found in walk(capture) {
        report.exchanges += 1;
        match found.answer {
            Ok(judged) => report.accept(judged),
            Err(Refusal { number, .. }) => *report.refused.entry(number).or_default() += 1,
        }
    }
    let belongings = classify(capture);
    let to_none = |belongs: &&Belongs| **belongs != Belongs::Exchange;
    report.skipped = belongings.iter().filter(to_none).count();
    report
}

impl Report {
    fn accept(&mut self, judged: Judged) {
        match judged.kind {
            Kind::Broadcast => self.broadcasts += 1,
            Kind::InitiatorInitiator => self.initiator_initiator += 1,
            Kind::InitiatorTarget => self.initiator_target += 1,
        }
        self.retries += usize::from(judged.command_attempts - 1);
        self.retries += usize::from(judged.reply_attempts.saturating_sub(1));
    }
}
