//! An exchange that both sides listen to: fed with the same runs, and closed
//! into the same buffers. Every answer is held to that of the archive's own
//! judge, too, which is given all bytes fed at once.

use moortinker::sys;
use second::Listener;

use crate::calls::{judge_archive, judged};
use crate::lent::{hex, Lent};
use crate::session::{same, same_between, Function, Session};

/// So many bytes of a recording are used at most.
pub const MOST_USED: usize = 1 << 31;

/// The sides of a comparison with what the header says.
pub const PROMISE: [&str; 2] = ["archive", "promise"];

/// A recording as far as both sides heard it.
pub struct Hearing {
    archive: sys::Listening,
    second: Listener,
    /// Where in the recording the exchange starts.
    start: usize,
    /// The bytes handed in before the input was closed, used or not.
    fed: Vec<u8>,
    closed: bool,
}

impl Hearing {
    /// Begins to listen. The recording is one input, in however many runs it
    /// will be fed.
    pub fn new(session: &mut Session) -> Self {
        Hearing::starting_at(session, 0)
    }

    /// Begins to listen behind so many bytes of a recording, at most as many as
    /// are used.
    pub fn starting_at(session: &mut Session, start: usize) -> Self {
        Hearing::holding(session, start, &[])
    }

    /// Goes on where some bytes of a first command, which starts behind so many
    /// bytes of a recording, are in hand: the archive's state says so, and the
    /// second hears them first and is left with fewer bytes to use.
    pub fn holding(session: &mut Session, start: usize, hand: &[u8]) -> Self {
        let mut second = Listener::using(MOST_USED - start);
        second.feed(hand);
        let hearing = Hearing {
            archive: state_holding(start, hand),
            second,
            start,
            fed: hand.to_vec(),
            closed: false,
        };
        session.settle(Function::Listen, 0, Ok(()), String::new);
        hearing.compare_answered(session);
        hearing
    }

    /// Whether the archive has answered.
    pub fn has_answered(&self) -> bool {
        has_answered(self.archive)
    }

    /// Feeds a run to both sides.
    pub fn feed(&mut self, session: &mut Session, run: &[u8]) {
        let lent = session.lend(run);
        let kept = lent.clone();
        let before = self.has_answered();
        let fed = feed(self.archive, &lent);
        let used = self.second.feed(run);
        self.archive = fed.state;
        if !self.closed {
            self.fed.extend(run);
        }
        let compared =
            same("bytes used", &fed.used, &used).and_then(|()| same("input", &lent, &kept));
        session.go_on(Function::Feed, 0, compared, || {
            format!("{} as the last of {}", hex(run), self.text())
        });
        self.compare_answered(session);
        let form = form(run.len(), used, before, self.has_answered());
        session.note(Function::Feed, [form, 0, 0]);
    }

    /// Both sides know the answer, or neither does.
    fn compare_answered(&self, session: &mut Session) {
        let second = self.second.has_answered();
        let compared = same("answer", &self.has_answered(), &second);
        session.go_on(Function::HasAnswered, 0, compared, || self.text());
        session.note(Function::HasAnswered, [u8::from(second), 0, 0]);
    }

    /// Closes both sides into buffers of these lengths; gives the number. Every
    /// number but 1 is from now on the answer.
    pub fn close(&mut self, session: &mut Session, rooms: [usize; 3]) -> u8 {
        let before = self.archive;
        let mut buffers = rooms.map(|room| session.room(room));
        let mut second_buffers = buffers.clone();
        let mut whole_buffers = buffers.clone();
        let closed = close(before, &mut buffers);
        let second = self.close_second(&mut second_buffers);
        let readable = self.fed.len().min(MOST_USED - self.start);
        let whole = judge_archive(&session.lend(&self.fed[..readable]), &mut whole_buffers);
        let [second, whole] = [second, whole].map(|judged| counted_from(self.start, judged));
        let judge = ["listener", "judge of the whole"];
        let compared = same("answer", &closed.judged, &second)
            .and_then(|()| same("buffers", &buffers, &second_buffers))
            .and_then(|()| same_between(judge, "answer", &closed.judged, &whole))
            .and_then(|()| same_between(judge, "buffers", &buffers, &whole_buffers))
            .and_then(|()| settled(before, &closed));
        let text = || format!("{} rooms {rooms:?}", self.text());
        session.go_on(Function::Close, second.number, compared, text);
        if second.number == 0 {
            let attempts = [second.kind, second.command_attempts, second.reply_attempts];
            session.note(Function::Close, attempts);
        }
        self.archive = closed.state;
        self.closed |= second.number != sys::MOOR_OUTPUT_SHORT;
        second.number
    }

    /// What was fed, and where in the recording it starts.
    fn text(&self) -> String {
        format!("{} at {:X}", hex(&self.fed), self.start)
    }

    fn close_second(&mut self, buffers: &mut [Lent<u8>; 3]) -> sys::Judged {
        let [command, reply_1, reply_2] = buffers.each_mut().map(Lent::part_mut);
        judged(self.second.close(command, reply_1, reply_2))
    }
}

/// A state to which the first command, which starts here, is due, with these
/// bytes of it in hand.
pub fn state_holding(start: usize, hand: &[u8]) -> sys::Listening {
    // SAFETY: no pointer is handed over.
    let mut state = unsafe { sys::moor_listen() };
    state.start = start;
    state.held = hand.len() as u8;
    state.raw[..hand.len()].copy_from_slice(hand);
    state
}

/// An answer to an exchange that starts here in a recording: its place and the
/// bytes read count from the recording's start.
pub fn counted_from(start: usize, mut judged: sys::Judged) -> sys::Judged {
    match judged.number {
        sys::MOOR_ACCEPTED => judged.read += start,
        sys::MOOR_OUTPUT_SHORT => {}
        _ => judged.place += start,
    }
    judged
}

/// What a run met: it was empty, all of it was used, or none, or its last byte
/// decided, or one before that, or the last byte that is used of a recording
/// came before its end.
fn form(length: usize, used: usize, answered_before: bool, answered: bool) -> u8 {
    match (answered_before, answered) {
        _ if length == 0 => 0,
        (false, false) if used == length => 1,
        (true, _) => 2,
        (false, true) if used == length => 3,
        (false, true) => 4,
        (false, false) => 5,
    }
}

/// Number 1 gives back the state handed in; every other answer one that has
/// answered.
pub fn settled(before: sys::Listening, closed: &sys::Closed) -> Result<(), String> {
    if closed.judged.number == sys::MOOR_OUTPUT_SHORT {
        return same_between(PROMISE, "state", &closed.state, &before);
    }
    let answered = has_answered(closed.state);
    same_between(PROMISE, "end of listening", &answered, &true)
}

pub fn has_answered(state: sys::Listening) -> bool {
    // SAFETY: no pointer is handed over.
    unsafe { sys::moor_has_answered(state) }
}

pub fn feed(state: sys::Listening, run: &Lent<u8>) -> sys::Fed {
    // SAFETY: the pointer comes with its length.
    unsafe { sys::moor_feed(state, run.pointer(), run.length()) }
}

pub fn close(state: sys::Listening, buffers: &mut [Lent<u8>; 3]) -> sys::Closed {
    let [command, reply_1, reply_2] = buffers;
    // SAFETY: each pointer comes with its length, and the buffers lie apart.
    unsafe {
        sys::moor_close(
            state,
            command.pointer_mut(),
            command.length(),
            reply_1.pointer_mut(),
            reply_1.length(),
            reply_2.pointer_mut(),
            reply_2.length(),
        )
    }
}
