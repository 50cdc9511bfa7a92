//! Captures: the next exchange from a position on, and walks over all of them.
//! A walk is held to the second's, and every byte of the capture to what the
//! second's listener, which hears them one by one, says that it belongs to.

use moortinker::sys;
use second::capture::{classify, next_exchange, walk, Belongs, Found, Stretch};

use crate::calls::{judge_archive, judged};
use crate::edges::{for_each_neighbour, good_exchanges, refused_exchanges, EXCHANGE};
use crate::families::position;
use crate::hearing::{feed, state_holding};
use crate::idle;
use crate::inputs::{self, ROOMS};
use crate::lent::{hex, Lent};
use crate::random::Random;
use crate::session::{same, same_between, Function, Session};

/// `moor_next_exchange`, or what stands in for it.
pub type Next = fn(&Lent<u8>, usize) -> sys::Stretch;

/// A capture is cut where it has more bytes.
const MOST: usize = 20_000;

pub fn archive(capture: &Lent<u8>, at: usize) -> sys::Stretch {
    // SAFETY: the pointer comes with its length.
    unsafe { sys::moor_next_exchange(capture.pointer(), capture.length(), at) }
}

/// The second's answer as the archive lays it out.
pub fn laid_out(Stretch { start, end }: Stretch) -> sys::Stretch {
    sys::Stretch { start, end }
}

/// The next exchange from random positions of a capture on.
pub fn positions(session: &mut Session) {
    positions_by(session, archive);
}

pub fn positions_by(session: &mut Session, next: Next) {
    let capture = random_capture(&mut session.random);
    for _ in 0..4 {
        let at = position(&mut session.random, capture.len());
        next_from(session, next, &capture, at);
    }
}

/// A walk over a random capture.
pub fn walks(session: &mut Session) {
    walks_by(session, archive);
}

pub fn walks_by(session: &mut Session, next: Next) {
    let capture = random_capture(&mut session.random);
    walk_over(session, next, &capture);
}

/// Every short capture of telling bytes from every position on, and walks over
/// them; then walks over all that is near an exchange of each kind with another
/// right behind it.
pub fn run_all(session: &mut Session) {
    let telling: [u8; 6] = [0xAA, 0xA9, 0x10, 0x01, 0x02, 0xFF];
    for length in 0..=5 {
        for number in 0..telling.len().pow(length) {
            let digits = (0..length).map(|digit| number / telling.len().pow(digit));
            let capture: Vec<u8> = digits.map(|digit| telling[digit % 6]).collect();
            for at in (0..=capture.len() + 1).chain([usize::MAX]) {
                next_from(session, archive, &capture, at);
            }
            walk_over(session, archive, &capture);
        }
    }
    for exchange in [good_exchanges(), refused_exchanges()].concat() {
        let capture = [&exchange[..], &EXCHANGE].concat();
        for_each_neighbour(&capture, |capture| walk_over(session, archive, capture));
    }
}

/// Exchanges, right, faulty, damaged and cut off, and any bytes; mostly with idle
/// time between them, at times with something near it; and all of it cut at
/// times.
pub fn random_capture(random: &mut Random) -> Vec<u8> {
    let most = random.pick(&[3, 8, 8, 20]);
    let idle = random.pick(&[1, 2, 5]);
    let mut capture = Vec::new();
    for _ in 0..=random.below(most) {
        match random.below(8) {
            0 => capture.extend(idle::near_miss(random)),
            1 => capture.extend(idle::idle_time(random)),
            _ => capture.extend(inputs::run(random)),
        }
        if random.one_in(idle) {
            capture.extend(idle::idle_time(random));
        }
    }
    if random.one_in(4) {
        let cut = random.below(capture.len() + 1);
        capture.truncate(cut);
    }
    capture.truncate(MOST);
    capture
}

/// The next exchange from a position on.
fn next_from(session: &mut Session, next: Next, capture: &[u8], at: usize) {
    let lent = session.lend(capture);
    let kept = lent.clone();
    let told = next(&lent, at);
    let second = next_exchange(capture, at);
    let compared =
        same("answer", &told, &laid_out(second)).and_then(|()| same("input", &lent, &kept));
    session.settle(Function::NextExchange, 0, compared, || {
        format!("at {at} of {}", hex(capture))
    });
    session.note(Function::NextExchange, form(capture, at, second));
}

/// What was found: no position of the capture; no exchange; one that SYN ends;
/// one that the capture's end cuts off. Then whether idle time came first.
fn form(capture: &[u8], at: usize, Stretch { start, end }: Stretch) -> [u8; 3] {
    let found = match capture.get(start..end) {
        _ if at >= capture.len() => return [0; 3],
        Some([.., 0xAA]) => 2,
        Some([_, ..]) => 3,
        _ => 1,
    };
    [found, u8::from(start > at), 0]
}

/// A whole walk, which is one input.
fn walk_over(session: &mut Session, next: Next, capture: &[u8]) {
    let lent = session.lend(capture);
    let mut in_stretches = vec![0; capture.len()];
    let mut at = 0;
    for found in walk(capture) {
        let Found { start, end, .. } = found;
        stretch_is(session, next, &lent, at, Stretch { start, end });
        judged_as(session, &lent, &found);
        for count in &mut in_stretches[start..end] {
            *count += 1;
        }
        at = end;
    }
    let nothing = Stretch {
        start: capture.len(),
        end: capture.len(),
    };
    stretch_is(session, next, &lent, at, nothing);
    let of_listener = |belongs: Belongs| u8::from(belongs != Belongs::Idle);
    let due: Vec<u8> = classify(capture).into_iter().map(of_listener).collect();
    let sides = ["stretches", "listener"];
    let compared = same_between(sides, "bytes", &in_stretches, &due);
    session.settle(Function::NextExchange, 0, compared, || hex(capture));
}

/// One step of a walk.
fn stretch_is(session: &mut Session, next: Next, lent: &Lent<u8>, at: usize, due: Stretch) {
    let compared = same("answer", &next(lent, at), &laid_out(due));
    session.go_on(Function::NextExchange, 0, compared, || {
        format!("walk at {at} of {}", hex(lent.part()))
    });
}

/// The archive's answer to an exchange is that of the second, and that to all
/// bytes from its start on; what is accepted is read to its end; and the same
/// byte decides.
fn judged_as(session: &mut Session, lent: &Lent<u8>, found: &Found) {
    let stretch = session.lend(&lent.part()[found.start..found.end]);
    let rest = session.lend(&lent.part()[found.start..]);
    let mut buffers = ROOMS.map(|room| session.room(room));
    let mut rest_buffers = buffers.clone();
    let told = judge_archive(&stretch, &mut buffers);
    let of_rest = judge_archive(&rest, &mut rest_buffers);
    let sides = ["stretch", "rest of the capture"];
    let read = match told.number {
        sys::MOOR_ACCEPTED => told.read,
        _ => stretch.length(),
    };
    let compared = same("answer", &told, &judged(found.answer))
        .and_then(|()| same_between(sides, "answer", &told, &of_rest))
        .and_then(|()| same_between(sides, "buffers", &buffers, &rest_buffers))
        .and_then(|()| same("bytes read", &read, &stretch.length()));
    let text = || format!("from {} of {}", found.start, hex(lent.part()));
    session.go_on(Function::Judge, told.number, compared, text);
    let used = feed(state_holding(0, &[]), &stretch).used;
    let compared = same("bytes used", &used, &(found.decided - found.start));
    session.go_on(Function::Feed, 0, compared, text);
}
