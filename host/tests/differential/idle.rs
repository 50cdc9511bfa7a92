//! Recordings that start in idle time: pieces that are thrown away, at times one
//! that is nearly so, and a recording behind them. The answer is that to what is
//! behind the pieces, counted from the recording's start.

use crate::calls::{self, judge_archive};
use crate::cuts::listen_to;
use crate::hearing::counted_from;
use crate::inputs;
use crate::lent::hex;
use crate::random::Random;
use crate::session::{same_between, Function, Session};

const ESCAPE: u8 = 0xA9;
const SYN: u8 = 0xAA;

/// A recording, of which the first bytes, this many, are idle time.
pub fn recording(random: &mut Random) -> (usize, Vec<u8>) {
    let mut recording = idle_time(random);
    let idle = recording.len();
    if random.one_in(4) {
        recording.extend(near_miss(random));
    }
    recording.extend(inputs::run(random));
    (idle, recording)
}

/// Up to 40 pieces, seldom none, seldom thousands.
pub fn idle_time(random: &mut Random) -> Vec<u8> {
    let pieces = match random.below(300) {
        0 => 1000 + random.below(2000),
        1..=99 => random.below(4),
        _ => random.below(41),
    };
    let kinds = random.pick(&[1, 4, 4]);
    let mut idle = Vec::new();
    for _ in 0..pieces {
        let source = inputs::initiator(random);
        match random.below(kinds) {
            0 => idle.extend([SYN]),
            1 => idle.extend([ESCAPE, SYN]),
            2 => idle.extend([source, SYN]),
            _ => idle.extend([source, ESCAPE, SYN]),
        }
    }
    idle
}

/// Bytes near those that are thrown away: a wrong source, a wrong escape, and
/// two logical bytes before SYN.
pub fn near_miss(random: &mut Random) -> Vec<u8> {
    let (source, byte) = (inputs::initiator(random), random.byte());
    match random.below(6) {
        0 => vec![byte, SYN],
        1 => vec![ESCAPE, byte],
        2 => vec![source, byte, SYN],
        3 => vec![source, byte, ESCAPE, SYN],
        4 => vec![source, ESCAPE, random.pick(&[0x00, 0x01]), SYN],
        _ => vec![source, ESCAPE, byte, SYN],
    }
}

/// Judges a recording and what is behind its idle time.
pub fn exchanges(session: &mut Session) {
    let (idle, recording) = recording(&mut session.random);
    let rooms = inputs::rooms(&mut session.random);
    calls::judge(session, &recording, rooms);
    moves_the_answer(session, idle, &recording, rooms);
}

/// Both sides listen to a recording.
pub fn listening(session: &mut Session) {
    let (_, recording) = recording(&mut session.random);
    listen_to(session, &recording);
}

/// Idle time changes places and bytes read, and nothing else.
fn moves_the_answer(session: &mut Session, idle: usize, recording: &[u8], rooms: [usize; 3]) {
    let mut whole_buffers = rooms.map(|room| session.room(room));
    let mut buffers = whole_buffers.clone();
    let whole = judge_archive(&session.lend(recording), &mut whole_buffers);
    let behind = judge_archive(&session.lend(&recording[idle..]), &mut buffers);
    let sides = ["whole", "part behind idle time"];
    let compared = same_between(sides, "answer", &whole, &counted_from(idle, behind))
        .and_then(|()| same_between(sides, "buffers", &whole_buffers, &buffers));
    session.go_on(Function::Judge, whole.number, compared, || {
        format!("{} rooms {rooms:?}", hex(recording))
    });
}
