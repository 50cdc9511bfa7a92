//! Recordings cut into runs that both sides listen to.

use crate::hearing::{Hearing, MOST_USED};
use crate::inputs::{self, ROOMS};
use crate::random::Random;
use crate::session::Session;

/// How a recording is cut.
#[derive(Clone, Copy)]
enum Cuts {
    Whole,
    /// Runs of 0 to so many bytes.
    UpTo(usize),
    /// Runs of so many bytes.
    Each(usize),
}

impl Cuts {
    fn random(random: &mut Random) -> Cuts {
        match random.below(20) {
            0..=2 => Cuts::Whole,
            3 | 4 => Cuts::Each(1),
            5..=7 => Cuts::Each(64),
            8..=10 => Cuts::UpTo(6),
            11..=13 => Cuts::UpTo(20),
            _ => Cuts::UpTo(64),
        }
    }

    /// The length of the next run, where so many bytes are left.
    fn next(self, random: &mut Random, left: usize) -> usize {
        match self {
            Cuts::Whole => left,
            Cuts::UpTo(most) => random.below(most + 1).min(left),
            Cuts::Each(length) => length.min(left),
        }
    }
}

/// A recording that is listened to.
pub fn listening(session: &mut Session) {
    let recording = inputs::run(&mut session.random);
    listen_to(session, &recording);
}

/// Both sides listen to a recording.
pub fn listen_to(session: &mut Session, recording: &[u8]) {
    let start = start(&mut session.random);
    let hearing = Hearing::starting_at(session, start);
    hear_out(session, hearing, recording);
}

/// Hears a recording in runs, at times closed in its middle, and fed a little
/// further once there is an answer.
pub fn hear_out(session: &mut Session, mut hearing: Hearing, recording: &[u8]) {
    let cuts = Cuts::random(&mut session.random);
    let mut left = recording;
    while !left.is_empty() {
        let length = cuts.next(&mut session.random, left.len());
        let (run, behind) = left.split_at(length);
        hearing.feed(session, run);
        left = behind;
        interrupt(session, &mut hearing);
        if hearing.has_answered() && session.random.one_in(3) {
            break;
        }
    }
    close(session, &mut hearing);
    if session.random.one_in(4) {
        let run = inputs::run(&mut session.random);
        hearing.feed(session, &run);
        close(session, &mut hearing);
    }
}

/// Where in a recording an exchange starts: mostly with it, at times so late
/// that the last byte that is used comes before its end.
fn start(random: &mut Random) -> usize {
    match random.below(8) {
        0 => MOST_USED - random.below(160),
        _ => 0,
    }
}

/// A closing before all was fed: mostly one that is too short and changes
/// nothing, seldom one that ends the input.
fn interrupt(session: &mut Session, hearing: &mut Hearing) {
    let rooms = match session.random.below(100) {
        0..=4 => inputs::short_rooms(&mut session.random),
        5 => ROOMS,
        _ => return,
    };
    hearing.close(session, rooms);
}

/// Closes until there is room enough.
fn close(session: &mut Session, hearing: &mut Hearing) {
    loop {
        let rooms = inputs::rooms(&mut session.random);
        if hearing.close(session, rooms) != 1 {
            return;
        }
    }
}
