//! The judging of a recorded eBUS exchange: command, acknowledge, reply,
//! acknowledge, SYN, with one repetition of each telegram after a NACK.

use crate::ebus::{kind, Kind, Telegram, MOST_COMMAND, MOST_DATA, MOST_REPLY, SYN};
use crate::refusal::{
    Refusal, BUS_ERROR, CHECK_WRONG, COMMAND_NACKED, OUTPUT_SHORT, REPLY_NACKED, RUN_ENDED,
    SYN_EARLY,
};

pub(crate) const ACK: u8 = 0x00;
pub(crate) const NACK: u8 = 0xFF;
/// So many bytes of a recording are read at most, as if it ended there.
pub(crate) const MOST_READ: usize = 1 << 31;

/// A judged exchange: its kind, the attempts at command and reply (0 without a
/// reply), and the raw bytes read, idle time in front and SYN included.
#[derive(Clone, Copy, Debug, PartialEq, Eq)]
pub struct Judged {
    pub kind: Kind,
    pub command_attempts: u8,
    pub reply_attempts: u8,
    pub read: usize,
}

/// Where a reply's data stands: `length` bytes from `start` of the buffer of
/// attempt 1 or 2.
#[derive(Clone, Copy, Debug, PartialEq, Eq)]
pub struct Part {
    pub attempt: u8,
    pub start: usize,
    pub length: usize,
}

/// Judges a recorded run from its start, which may lie in idle time. At most
/// 2^31 bytes are read. The buffers are written only when the exchange is
/// accepted.
pub fn judge(
    run: &[u8],
    command: &mut [u8],
    reply_1: &mut [u8],
    reply_2: &mut [u8],
) -> Result<Judged, Refusal> {
    judge_first(MOST_READ, run, command, reply_1, reply_2)
}

/// Judges the first `most` bytes of a run. Any other number than [`MOST_READ`]
/// is for tests, since no exchange is that long and idle time seldom.
pub(crate) fn judge_first(
    most: usize,
    run: &[u8],
    command: &mut [u8],
    reply_1: &mut [u8],
    reply_2: &mut [u8],
) -> Result<Judged, Refusal> {
    enough_room(command, reply_1, reply_2)?;
    let run = &run[..run.len().min(most)];
    let mut accepted = Telegram::EMPTY;
    let (command_attempts, mut at) = read_command(run, &mut accepted)?;
    let kind = kind(accepted.bytes[1]);
    let mut replies = [Telegram::EMPTY; 2];
    let mut reply_attempts = 0;
    if kind == Kind::InitiatorTarget {
        (reply_attempts, at) = read_replies(run, at, &mut replies)?;
    }
    let read = behind_syn(run, at)?;
    copy(&accepted, command);
    copy(&replies[0], reply_1);
    copy(&replies[1], reply_2);
    Ok(Judged {
        kind,
        command_attempts,
        reply_attempts,
        read,
    })
}

/// The buffers are looked at before anything else.
pub(crate) fn enough_room(command: &[u8], reply_1: &[u8], reply_2: &[u8]) -> Result<(), Refusal> {
    if command.len() < MOST_COMMAND || reply_1.len() < MOST_REPLY || reply_2.len() < MOST_REPLY {
        return Err(Refusal::whole(OUTPUT_SHORT));
    }
    Ok(())
}

/// Where the data of the reply attempt asked for stands. Where there is none it
/// is the empty start of the first buffer.
pub fn reply_data(reply_1: &[u8], reply_2: &[u8], attempt: u8) -> Part {
    let reply = match attempt {
        1 => reply_1,
        2 => reply_2,
        _ => &[],
    };
    if let Some((&length, behind)) = reply.split_first() {
        let length = usize::from(length);
        if length <= MOST_DATA && length <= behind.len() {
            return Part {
                attempt,
                start: 1,
                length,
            };
        }
    }
    Part {
        attempt: 1,
        start: 0,
        length: 0,
    }
}

/// Steps 1 and 2: the attempts at the command, the last of which is left in the
/// telegram, and the position behind its acknowledge byte. "FF: the command is
/// read once more, standing for itself with its own kind; a second FF ends the
/// exchange."
fn read_command(run: &[u8], telegram: &mut Telegram) -> Result<(u8, usize), Refusal> {
    for attempt in 1..=2 {
        match attempt {
            1 => read_first_command(run, telegram)?,
            _ => telegram.read(run, true, telegram.next + 1)?,
        }
        let at = telegram.next;
        if kind(telegram.bytes[1]) == Kind::Broadcast {
            accept_check(telegram)?;
            return Ok((attempt, at));
        }
        if acknowledged(run, at)? {
            accept_check(telegram)?;
            return Ok((attempt, at + 1));
        }
    }
    Err(Refusal::at(COMMAND_NACKED, telegram.next))
}

/// The first attempt at the command. A SYN that comes before it has two logical
/// bytes is idle time: it is read afresh from behind that SYN.
fn read_first_command(run: &[u8], telegram: &mut Telegram) -> Result<(), Refusal> {
    let mut at = 0;
    loop {
        match telegram.read(run, true, at) {
            Err(Refusal {
                number: SYN_EARLY,
                place,
            }) if telegram.length < 2 => at = place + 1,
            read => return read,
        }
    }
}

/// Step 3: the attempts at the reply and the position behind the last one's
/// acknowledge byte. "FF: the reply is read once more; a second FF ends the
/// exchange." The reply of an attempt that did not happen stays empty.
fn read_replies(
    run: &[u8],
    mut at: usize,
    replies: &mut [Telegram; 2],
) -> Result<(u8, usize), Refusal> {
    for (attempt, reply) in (1..).zip(replies.iter_mut()) {
        reply.read(run, false, at)?;
        at = reply.next + 1;
        if acknowledged(run, reply.next)? {
            accept_check(reply)?;
            return Ok((attempt, at));
        }
    }
    Err(Refusal::at(REPLY_NACKED, replies[1].next))
}

/// The acknowledge byte: whether it is 00 and not FF. It is one raw byte, to
/// which no escape rule applies.
fn acknowledged(run: &[u8], at: usize) -> Result<bool, Refusal> {
    match run.get(at) {
        Some(&ACK) => Ok(true),
        Some(&NACK) => Ok(false),
        Some(&SYN) => Err(Refusal::at(SYN_EARLY, at)),
        Some(_) => Err(Refusal::at(BUS_ERROR, at)),
        None => Err(Refusal::at(RUN_ENDED, run.len())),
    }
}

/// "A wrong check byte is judged when the attempt is acknowledged by 00, or at
/// once for a broadcast."
fn accept_check(telegram: &Telegram) -> Result<(), Refusal> {
    if telegram.check_right() {
        Ok(())
    } else {
        Err(Refusal::at(CHECK_WRONG, telegram.last))
    }
}

/// Step 4: the position behind the SYN that is due.
fn behind_syn(run: &[u8], at: usize) -> Result<usize, Refusal> {
    match run.get(at) {
        Some(&SYN) => Ok(at + 1),
        Some(_) => Err(Refusal::at(BUS_ERROR, at)),
        None => Err(Refusal::at(RUN_ENDED, run.len())),
    }
}

/// Copies a telegram to the start of a buffer; the bytes behind it stay. An
/// empty one leaves the whole buffer.
fn copy(telegram: &Telegram, out: &mut [u8]) {
    out[..telegram.length].copy_from_slice(telegram.logical());
}
