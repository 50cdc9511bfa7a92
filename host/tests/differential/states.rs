//! States of listening that no feeding need have made: any bytes may be handed
//! in. There is nothing to compare such a state with; what is tested is that
//! the calls return and keep what the header promises of them.

use moortinker::sys;

use crate::hearing::{close, feed, has_answered, settled, MOST_USED, PROMISE};
use crate::inputs::{self, ROOMS};
use crate::lent::hex;
use crate::random::Random;
use crate::session::{same, same_between, Function, Session};

/// From this on a state has answered.
const ANSWERED: u8 = 5;
/// So many raw bytes are in hand at most.
const MOST_HELD: u8 = 46;

/// Hands in one state, and holds the calls on it to what is promised of any
/// bytes. It counts as a feeding, which is never refused.
pub fn states(session: &mut Session) {
    let random = &mut session.random;
    let state = state(random);
    let run = inputs::run(random);
    let rooms = match random.below(4) {
        0 => inputs::short_rooms(random),
        _ => inputs::rooms(random),
    };
    let lent = session.lend(&run);
    let kept = lent.clone();
    let fed = feed(state, &lent);
    let compared = answers_by_due(state)
        .and_then(|()| uses_its_run(state, &fed, run.len()))
        .and_then(|()| same("input", &lent, &kept))
        .and_then(|()| closes(session, state, rooms))
        .and_then(|()| closes(session, fed.state, rooms));
    session.settle(Function::Feed, 0, compared, || {
        format!("{} rooms {rooms:?} {state:02X?}", hex(&run))
    });
}

fn answers_by_due(state: sys::Listening) -> Result<(), String> {
    let due = state.due >= ANSWERED;
    same_between(PROMISE, "has answered", &has_answered(state), &due)
}

/// How many bytes of the recording a state has used.
fn used_by(state: sys::Listening) -> usize {
    let held = state.held.min(MOST_HELD).into();
    state.start.saturating_add(held).min(MOST_USED)
}

/// A state that has answered uses nothing and stays. No other uses more than
/// there is of its run and of the recording, or less before it has answered,
/// and what it uses counts.
fn uses_its_run(state: sys::Listening, fed: &sys::Fed, length: usize) -> Result<(), String> {
    if state.due >= ANSWERED {
        let stays = sys::Fed { state, used: 0 };
        return same_between(PROMISE, "feeding", fed, &stays);
    }
    let most = length.min(MOST_USED - used_by(state));
    let used = if has_answered(fed.state) {
        fed.used.min(most)
    } else {
        most
    };
    same_between(PROMISE, "bytes used", &fed.used, &used)?;
    let total = used_by(state) + used;
    same_between(PROMISE, "bytes used in all", &used_by(fed.state), &total)
}

/// Closing returns and keeps to its buffers. Where they are too short it says
/// so and gives back the state; a refusal leaves them and names nothing else. A
/// state that has not answered gives number 3, and every state the same again.
fn closes(session: &mut Session, state: sys::Listening, rooms: [usize; 3]) -> Result<(), String> {
    let mut buffers = rooms.map(|room| session.room(room));
    let mut kept = buffers.clone();
    let closed = close(state, &mut buffers);
    let judged = closed.judged;
    let refused = sys::Judged {
        kind: 0,
        command_attempts: 0,
        reply_attempts: 0,
        read: 0,
        ..judged
    };
    if rooms.iter().zip(ROOMS).any(|(&room, needed)| room < needed) {
        let number = sys::MOOR_OUTPUT_SHORT;
        let short = sys::Judged {
            number,
            place: 0,
            ..refused
        };
        same_between(PROMISE, "answer", &judged, &short)?;
    } else if state.due < ANSWERED {
        let ended = sys::Judged {
            number: sys::MOOR_RUN_ENDED,
            place: used_by(state),
            ..refused
        };
        same_between(PROMISE, "answer", &judged, &ended)?;
    }
    settled(state, &closed)?;
    let mut again = kept.clone();
    let closed_again = close(closed.state, &mut again);
    same_between(PROMISE, "answer given again", &closed_again, &closed)?;
    same_between(PROMISE, "buffers given again", &again, &buffers)?;
    if judged.number != sys::MOOR_ACCEPTED {
        same_between(PROMISE, "answer", &judged, &refused)?;
    } else {
        let contents = kept.iter_mut().zip(&buffers);
        contents.for_each(|(kept, buffer)| kept.part_mut().copy_from_slice(buffer.part()));
    }
    same_between(PROMISE, "buffers", &buffers, &kept)
}

/// A state of any bytes, of likely ones, or one that a recording left, with
/// some of its fields changed.
fn state(random: &mut Random) -> sys::Listening {
    let mut state = match random.below(3) {
        0 => any_bytes(random),
        1 => likely(random),
        _ => heard(random),
    };
    if random.one_in(2) {
        for _ in 0..=random.below(3) {
            change(random, &mut state);
        }
    }
    state
}

fn any_bytes(random: &mut Random) -> sys::Listening {
    let mut byte = || random.draw() as u8;
    sys::Listening {
        start: usize::from_le_bytes([(); 8].map(|()| byte())),
        place: usize::from_le_bytes([(); 8].map(|()| byte())),
        due: byte(),
        number: byte(),
        held: byte(),
        command_attempts: byte(),
        reply_attempts: byte(),
        command_length: byte(),
        reply_1_length: byte(),
        reply_2_length: byte(),
        raw: [(); 46].map(|()| byte()),
        kept: [(); 58].map(|()| byte()),
    }
}

/// Small numbers in the fields, and telling bytes in hand.
fn likely(random: &mut Random) -> sys::Listening {
    sys::Listening {
        start: place(random),
        place: place(random),
        due: random.below(7) as u8,
        number: random.below(14) as u8,
        held: random.below(48) as u8,
        command_attempts: random.below(4) as u8,
        reply_attempts: random.below(4) as u8,
        command_length: random.below(25) as u8,
        reply_1_length: random.below(21) as u8,
        reply_2_length: random.below(21) as u8,
        raw: [(); 46].map(|()| random.byte()),
        kept: [(); 58].map(|()| random.byte()),
    }
}

/// What the start of a recording leaves.
fn heard(random: &mut Random) -> sys::Listening {
    let run = inputs::run(random);
    let cut = random.below(run.len().min(160) + 1);
    // SAFETY: the pointer comes with its length.
    unsafe { sys::moor_feed(sys::moor_listen(), run.as_ptr(), cut).state }
}

/// A place in a recording: mostly a small one, often near the last that is
/// used, or near the last of all.
fn place(random: &mut Random) -> usize {
    let near = random.below(60);
    match random.below(5) {
        0 => MOST_USED + 20 - near,
        1 => usize::MAX - near,
        _ => near,
    }
}

fn change(random: &mut Random, state: &mut sys::Listening) {
    match random.below(12) {
        0 => state.start = place(random),
        1 => state.place = place(random),
        2 => state.due = random.below(7) as u8,
        3 => state.number = random.byte(),
        4 => state.held = random.pick(&[0, 1, 41, 44, 45, 46, 0xFF]),
        5 => state.command_attempts = random.pick(&[0, 1, 2, 3, 0xFF]),
        6 => state.reply_attempts = random.pick(&[0, 1, 2, 3, 0xFF]),
        7 => state.command_length = random.pick(&[0, 5, 22, 23, 58, 59, 0xFF]),
        8 => state.reply_1_length = random.pick(&[0, 1, 18, 19, 36, 37, 0xFF]),
        9 => state.reply_2_length = random.pick(&[0, 1, 18, 19, 0xFF]),
        10 => state.raw[random.below(46)] = random.byte(),
        _ => state.kept[random.below(58)] = random.byte(),
    }
}
