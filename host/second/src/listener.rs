//! The judging of an exchange whose raw bytes arrive one by one. Where the
//! judge of a whole run descends from the exchange to its telegrams and from
//! these to their bytes, this is a state that each raw byte moves on: it knows
//! what is due next, and keeps what the answer will need of what came before.

use crate::checks::ebus_step;
use crate::ebus::{is_initiator, is_reserved, kind, Kind, ESCAPE, MOST_COMMAND, MOST_DATA, SYN};
use crate::exchange::{enough_room, Judged, ACK, MOST_READ, NACK};
use crate::refusal::{
    Refusal, BUS_ERROR, CHECK_WRONG, COMMAND_NACKED, DESTINATION_WRONG, ESCAPE_WRONG, LENGTH_OVER,
    REPLY_NACKED, RUN_ENDED, SOURCE_WRONG, SYN_EARLY,
};

/// What the next raw byte is for.
#[derive(Clone, Copy, Debug, PartialEq, Eq)]
enum Due {
    /// It is, or belongs to, this logical byte of the telegram in hand.
    Logical(Field),
    /// It answers the telegram in hand.
    Acknowledge,
    /// It ends the exchange.
    Syn,
    /// There is no next: the exchange is accepted.
    Nothing,
}

/// A logical byte of a telegram; a reply starts at LEN.
#[derive(Clone, Copy, Debug, PartialEq, Eq)]
enum Field {
    Source,
    Destination,
    Primary,
    Secondary,
    Length,
    /// So many data bytes are still to come, this one included.
    Data(u8),
    Check,
}

/// Whose telegram is in hand.
#[derive(Clone, Copy, Debug, PartialEq, Eq)]
enum Turn {
    Command,
    Reply,
}

/// The logical bytes of a telegram, as far as they were heard.
#[derive(Clone, Copy, Debug, PartialEq, Eq)]
struct Heard {
    bytes: [u8; MOST_COMMAND],
    length: usize,
}

impl Heard {
    const NOTHING: Heard = Heard {
        bytes: [0; MOST_COMMAND],
        length: 0,
    };

    fn push(&mut self, byte: u8) {
        self.bytes[self.length] = byte;
        self.length += 1;
    }

    /// Copies what was heard to the start of a buffer; the bytes behind it
    /// stay.
    fn copy_to(&self, out: &mut [u8]) {
        out[..self.length].copy_from_slice(&self.bytes[..self.length]);
    }
}

/// A state of listening to one exchange.
#[derive(Clone, Copy, Debug, PartialEq, Eq)]
pub struct Listener {
    /// How many bytes are used at most.
    most: usize,
    /// How many were used, which is the place of the next.
    used: usize,
    /// What is due, or why nothing is.
    due: Result<Due, Refusal>,
    turn: Turn,
    /// Whether the byte before was an A9, so that its second half is due.
    escape: bool,
    /// Where the logical byte in hand starts; behind a telegram it is still
    /// that of its check byte.
    place: usize,
    /// The check over the raw bytes of the telegram in hand, and what it was
    /// before the logical byte in hand.
    check: u8,
    check_before: u8,
    /// Whether the telegram in hand ended with its right check byte.
    check_right: bool,
    command_attempts: u8,
    reply_attempts: u8,
    command: Heard,
    replies: [Heard; 2],
}

impl Default for Listener {
    fn default() -> Self {
        Listener::new()
    }
}

impl Listener {
    /// A fresh state: nothing was heard.
    pub fn new() -> Self {
        Listener::using(MOST_READ)
    }

    /// A fresh state that uses at most so many bytes. Any other number than 2^31
    /// is for tests, since no exchange is that long and idle time seldom: with
    /// fewer it is a state that starts late in a recording, its places counted
    /// from there.
    pub fn using(most: usize) -> Self {
        Listener {
            most,
            used: 0,
            due: Ok(Due::Logical(Field::Source)),
            turn: Turn::Command,
            escape: false,
            place: 0,
            check: 0,
            check_before: 0,
            check_right: false,
            command_attempts: 1,
            reply_attempts: 0,
            command: Heard::NOTHING,
            replies: [Heard::NOTHING; 2],
        }
    }

    /// Feeds a run and gives how many of its bytes were used: all, or those
    /// through the one that decides the answer, or through the last that is
    /// used at all.
    pub fn feed(&mut self, run: &[u8]) -> usize {
        let before = self.used;
        for &raw in run {
            if self.has_answered() || self.used == self.most {
                break;
            }
            self.due = self.take(raw);
            self.used += 1;
        }
        self.used - before
    }

    /// Whether the answer is known. Bytes that end too early are no answer
    /// until the input is closed.
    pub fn has_answered(&self) -> bool {
        matches!(self.due, Ok(Due::Nothing) | Err(_))
    }

    /// Closes the input: the answer to all bytes used so far. Buffers that are
    /// too short leave the state, every other answer stays from now on.
    pub fn close(
        &mut self,
        command: &mut [u8],
        reply_1: &mut [u8],
        reply_2: &mut [u8],
    ) -> Result<Judged, Refusal> {
        enough_room(command, reply_1, reply_2)?;
        if !self.has_answered() {
            self.due = Err(Refusal::at(RUN_ENDED, self.used));
        }
        self.due?;
        self.command.copy_to(command);
        self.replies[0].copy_to(reply_1);
        self.replies[1].copy_to(reply_2);
        Ok(Judged {
            kind: self.kind(),
            command_attempts: self.command_attempts,
            reply_attempts: self.reply_attempts,
            read: self.used,
        })
    }

    /// What is due behind this raw byte.
    fn take(&mut self, raw: u8) -> Result<Due, Refusal> {
        match self.due? {
            Due::Logical(field) => self.raw_byte(field, raw),
            Due::Acknowledge => self.acknowledge(raw),
            Due::Syn if raw == SYN => Ok(Due::Nothing),
            Due::Syn => self.refuse_here(BUS_ERROR),
            Due::Nothing => Ok(Due::Nothing),
        }
    }

    /// A raw byte of a telegram. An A9 is held, and the byte behind it says
    /// which logical byte the two are. AA is SYN in either place.
    fn raw_byte(&mut self, field: Field, raw: u8) -> Result<Due, Refusal> {
        if raw == SYN {
            return self.syn_in_telegram(field);
        }
        if !self.escape {
            self.place = self.used;
            self.check_before = self.check;
        }
        self.check = ebus_step(self.check, raw);
        match (self.escape, raw) {
            (false, ESCAPE) => {
                self.escape = true;
                Ok(Due::Logical(field))
            }
            (false, byte) => self.logical_byte(field, byte),
            (true, 0x00 | 0x01) => {
                self.escape = false;
                self.logical_byte(field, ESCAPE + raw)
            }
            (true, _) => self.refuse_here(ESCAPE_WRONG),
        }
    }

    /// SYN where a byte of a telegram was due. With only SRC or nothing at all
    /// of the first command it is idle time, and what was heard is forgotten.
    fn syn_in_telegram(&mut self, field: Field) -> Result<Due, Refusal> {
        match (field, self.command_attempts) {
            (Field::Source | Field::Destination, 1) => Ok(self.expect_command()),
            _ => self.refuse_here(SYN_EARLY),
        }
    }

    /// A logical byte of a telegram, now that it is whole.
    fn logical_byte(&mut self, field: Field, byte: u8) -> Result<Due, Refusal> {
        self.in_hand().push(byte);
        let next = match field {
            Field::Source if !is_initiator(byte) => return self.refuse_byte(SOURCE_WRONG),
            Field::Source => Field::Destination,
            Field::Destination if is_reserved(byte) => return self.refuse_byte(DESTINATION_WRONG),
            Field::Destination => Field::Primary,
            Field::Primary => Field::Secondary,
            Field::Secondary => Field::Length,
            Field::Length if usize::from(byte) > MOST_DATA => return self.refuse_byte(LENGTH_OVER),
            Field::Length => data_or_check(byte),
            Field::Data(left) => data_or_check(left - 1),
            Field::Check => return self.check_byte(byte),
        };
        Ok(Due::Logical(next))
    }

    /// The check byte. Nobody answers a broadcast, so that it is accepted or
    /// refused at once.
    fn check_byte(&mut self, byte: u8) -> Result<Due, Refusal> {
        self.check_right = byte == self.check_before;
        match (self.turn, self.kind()) {
            (Turn::Command, Kind::Broadcast) => self.accept(),
            _ => Ok(Due::Acknowledge),
        }
    }

    /// An acknowledge byte. No escape rule applies to it.
    fn acknowledge(&mut self, raw: u8) -> Result<Due, Refusal> {
        match raw {
            ACK => self.accept(),
            NACK => self.repeat(),
            SYN => self.refuse_here(SYN_EARLY),
            _ => self.refuse_here(BUS_ERROR),
        }
    }

    /// The telegram in hand is accepted, if its check byte was right.
    fn accept(&mut self) -> Result<Due, Refusal> {
        if !self.check_right {
            return self.refuse_byte(CHECK_WRONG);
        }
        match (self.turn, self.kind()) {
            (Turn::Command, Kind::InitiatorTarget) => Ok(self.begin(Turn::Reply)),
            _ => Ok(Due::Syn),
        }
    }

    /// The telegram in hand was NACKed: it comes again, but only once.
    fn repeat(&mut self) -> Result<Due, Refusal> {
        match self.turn {
            Turn::Command if self.command_attempts == 2 => self.refuse_here(COMMAND_NACKED),
            Turn::Reply if self.reply_attempts == 2 => self.refuse_here(REPLY_NACKED),
            turn => Ok(self.begin(turn)),
        }
    }

    /// Begins an attempt at a command or a reply. A command that was NACKed is
    /// forgotten; a reply is not.
    fn begin(&mut self, turn: Turn) -> Due {
        self.turn = turn;
        match turn {
            Turn::Command => {
                self.command_attempts += 1;
                self.expect_command()
            }
            Turn::Reply => {
                self.check = 0;
                self.reply_attempts += 1;
                Due::Logical(Field::Length)
            }
        }
    }

    /// Forgets what was heard of a command, which is due from its SRC on.
    fn expect_command(&mut self) -> Due {
        self.escape = false;
        self.check = 0;
        self.command.length = 0;
        Due::Logical(Field::Source)
    }

    /// The telegram in hand.
    fn in_hand(&mut self) -> &mut Heard {
        match (self.turn, self.reply_attempts) {
            (Turn::Command, _) => &mut self.command,
            (Turn::Reply, 1) => &mut self.replies[0],
            (Turn::Reply, _) => &mut self.replies[1],
        }
    }

    /// The kind of the command, whose destination was heard.
    fn kind(&self) -> Kind {
        kind(self.command.bytes[1])
    }

    /// Names the raw byte that is being taken.
    fn refuse_here(&self, number: u8) -> Result<Due, Refusal> {
        Err(Refusal::at(number, self.used))
    }

    /// Names the logical byte in hand by its first raw byte.
    fn refuse_byte(&self, number: u8) -> Result<Due, Refusal> {
        Err(Refusal::at(number, self.place))
    }
}

/// What follows where so many data bytes are left.
fn data_or_check(left: u8) -> Field {
    match left {
        0 => Field::Check,
        _ => Field::Data(left),
    }
}

/// The limit of 2^31 bytes, which no exchange reaches: held to smaller ones.
#[cfg(test)]
mod tests {
    use super::*;
    use crate::exchange::judge_first;

    /// A command NACKed once, its repetition, and a reply, with an escape in
    /// each.
    const RUN: [u8; 29] = [
        0x10, 0x08, 0xB5, 0x11, 0x01, 0xA9, 0x00, 0x77, 0xFF, // wrong check byte, NACK
        0x10, 0x08, 0xB5, 0x11, 0x01, 0xA9, 0x00, 0xFF, 0x00, // the command again
        0x02, 0xA9, 0x01, 0x2A, 0x77, 0xFF, // wrong check byte, NACK
        0x00, 0x00, 0x00, 0xAA, // an empty reply, SYN
        0x55, // not looked at
    ];

    type Answer = (Result<Judged, Refusal>, [u8; 22], [u8; 18], [u8; 18]);

    /// What a listener answers, with the buffers afterwards.
    fn closed(listener: &mut Listener) -> Answer {
        let (mut command, mut reply_1, mut reply_2) = ([0x77; 22], [0x77; 18], [0x77; 18]);
        let judged = listener.close(&mut command, &mut reply_1, &mut reply_2);
        (judged, command, reply_1, reply_2)
    }

    fn judged(most: usize, run: &[u8]) -> Answer {
        let (mut command, mut reply_1, mut reply_2) = ([0x77; 22], [0x77; 18], [0x77; 18]);
        let judged = judge_first(most, run, &mut command, &mut reply_1, &mut reply_2);
        (judged, command, reply_1, reply_2)
    }

    #[test]
    fn the_limit_is_2_to_the_31st() {
        assert_eq!(MOST_READ, 2_147_483_648);
        assert_eq!(Listener::new().most, MOST_READ);
    }

    #[test]
    fn the_run_is_accepted_where_the_limit_is_far() {
        let (judged, ..) = judged(MOST_READ, &RUN);
        let judged = judged.unwrap();
        assert_eq!((judged.command_attempts, judged.reply_attempts), (2, 2));
        assert_eq!(judged.read, 28);
    }

    #[test]
    fn bytes_behind_the_limit_are_not_used() {
        for most in 0..28 {
            let mut listener = Listener::using(most);
            assert_eq!(listener.feed(&RUN), most);
            assert!(!listener.has_answered());
            assert_eq!(listener.feed(&RUN), 0);
            let answer = closed(&mut listener);
            assert_eq!(answer.0, Err(Refusal::at(RUN_ENDED, most)));
            assert_eq!(answer, judged(most, &RUN));
            assert!(listener.has_answered());
            assert_eq!(listener.feed(&RUN), 0);
            assert_eq!(closed(&mut listener), answer);
        }
    }

    #[test]
    fn the_last_byte_within_the_limit_may_decide() {
        for most in 28..32 {
            let mut listener = Listener::using(most);
            assert_eq!(listener.feed(&RUN), 28);
            assert!(listener.has_answered());
            let answer = closed(&mut listener);
            assert!(answer.0.is_ok());
            assert_eq!(answer, judged(most, &RUN));
        }
        // A SYN too early is the byte behind the limit, or the last within it.
        let early = [0x10, 0x08, 0xAA];
        for (most, refusal) in [
            (2, Refusal::at(RUN_ENDED, 2)),
            (3, Refusal::at(SYN_EARLY, 2)),
        ] {
            let mut listener = Listener::using(most);
            assert_eq!(listener.feed(&early), most);
            assert_eq!(listener.has_answered(), most == 3);
            assert_eq!(closed(&mut listener).0, Err(refusal));
            assert_eq!(judged(most, &early).0, Err(refusal));
        }
    }

    #[test]
    fn the_limit_may_lie_in_idle_time() {
        let idle = [0xAA, 0x10, 0xAA, 0xA9, 0xAA, 0x10, 0xA9, 0xAA];
        let run = [&idle[..], &RUN].concat();
        for most in 0..run.len() {
            let mut listener = Listener::using(most);
            assert_eq!(listener.feed(&run), most.min(36));
            assert_eq!(listener.has_answered(), most == 36);
            let answer = closed(&mut listener);
            assert_eq!(answer, judged(most, &run));
            if most < 36 {
                assert_eq!(answer.0, Err(Refusal::at(RUN_ENDED, most)));
            }
        }
    }

    #[test]
    fn the_limit_counts_over_all_runs() {
        for most in 0..RUN.len() {
            for cut in 0..=RUN.len() {
                let (first, second) = RUN.split_at(cut);
                let mut listener = Listener::using(most);
                let used = listener.feed(first);
                assert_eq!(used, cut.min(most).min(28));
                assert_eq!(used + listener.feed(second), most.min(28));
                assert_eq!(closed(&mut listener), judged(most, &RUN));
            }
        }
    }
}
