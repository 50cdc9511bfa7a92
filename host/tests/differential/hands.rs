//! States of listening with bytes of the first command in hand, also such as no
//! feeding leaves there. What is in hand is looked at again with the next byte:
//! together they are thrown away, stay in hand or are refused.

use second::ebus::{kind, telegram_at, Kind};
use second::refusal::{Refusal, RUN_ENDED};

use crate::cuts::hear_out;
use crate::hearing::{close, feed, state_holding, Hearing, MOST_USED, PROMISE};
use crate::idle;
use crate::inputs::{self, ROOMS};
use crate::lent::hex;
use crate::random::Random;
use crate::session::{same_between, Function, Session};

/// So many raw bytes are in hand at most where another one comes.
const MOST: usize = 44;

/// A random state, and a run that it is fed with.
pub fn in_hand(session: &mut Session) {
    let random = &mut session.random;
    let hand = hand(random);
    let left = random.below(80);
    let start = match random.below(3) {
        0 => MOST_USED - hand.len() - left,
        _ => left,
    };
    let run = match random.below(3) {
        0 => inputs::run(random),
        _ => idle::recording(random).1,
    };
    hear_with(session, start, &hand, &run);
}

/// Bytes that make at most a command that waits for its acknowledge byte.
fn hand(random: &mut Random) -> Vec<u8> {
    let mut hand = match random.below(4) {
        0 => inputs::run(random),
        _ => {
            let length = random.below(5);
            let first = inputs::initiator(random);
            let mut hand = random.bytes(length);
            if random.one_in(2) {
                hand.insert(0, first);
            }
            hand
        }
    };
    hand.truncate(MOST);
    if let Ok(telegram) = telegram_at(&hand, true, 0) {
        let most = match kind(telegram.bytes[1]) {
            Kind::Broadcast => telegram.next - 1,
            _ => telegram.next,
        };
        let fewer = random.below(most);
        hand.truncate(random.pick(&[most, fewer]));
    }
    hand
}

/// Feeds a run to a state with these bytes in hand.
pub fn hear_with(session: &mut Session, start: usize, hand: &[u8], run: &[u8]) {
    match telegram_at(hand, true, 0) {
        Err(refusal) if refusal.number != RUN_ENDED => {
            refused_by_next(session, start, hand, refusal, run);
        }
        _ => {
            let hearing = Hearing::holding(session, start, hand);
            hear_out(session, hearing, run);
        }
    }
}

/// What is wrong in hand is found with the next byte that is used, whichever it
/// is; before that, closing says that the input has ended.
fn refused_by_next(session: &mut Session, start: usize, hand: &[u8], found: Refusal, run: &[u8]) {
    let heard = start + hand.len();
    let promised = match run.len().min(MOST_USED - heard) {
        0 => (0, RUN_ENDED, heard),
        _ => (1, found.number, start + found.place),
    };
    let mut buffers = ROOMS.map(|room| session.room(room));
    let kept = buffers.clone();
    let fed = feed(state_holding(start, hand), &session.lend(run));
    let judged = close(fed.state, &mut buffers).judged;
    let told = (fed.used, judged.number, judged.place);
    let compared = same_between(PROMISE, "use, number and place", &told, &promised)
        .and_then(|()| same_between(PROMISE, "buffers", &buffers, &kept));
    session.settle(Function::Feed, 0, compared, || {
        format!("{} behind {} at {start:X}", hex(run), hex(hand))
    });
}
