//! eBUS on the byte level: addresses, escapes, and telegrams read from a raw
//! run or written as they go on the wire.

use crate::checks::ebus_check;
use crate::refusal::{
    Refusal, DESTINATION_WRONG, ESCAPE_WRONG, LENGTH_OVER, OUTPUT_SHORT, RUN_ENDED, SOURCE_WRONG,
    SYN_EARLY,
};

/// The raw byte that starts an escape.
pub const ESCAPE: u8 = 0xA9;
/// The raw byte that ends an exchange.
pub const SYN: u8 = 0xAA;
/// The destination of a broadcast.
pub const EVERYBODY: u8 = 0xFE;
/// The most data bytes of a telegram.
pub const MOST_DATA: usize = 16;
/// The most logical bytes of a command, check byte included.
pub const MOST_COMMAND: usize = 22;
/// The most logical bytes of a reply, check byte included.
pub const MOST_REPLY: usize = 18;

/// The kind of an exchange; the values are those of `moortinker.h`.
#[derive(Clone, Copy, Debug, PartialEq, Eq)]
pub enum Kind {
    Broadcast = 1,
    InitiatorInitiator = 2,
    InitiatorTarget = 3,
}

/// A logical byte of a raw run, and the position behind it.
#[derive(Clone, Copy, Debug, PartialEq, Eq)]
pub struct Logical {
    pub byte: u8,
    pub next: usize,
}

/// A telegram read from a raw run: the first `length` of `bytes`, the check
/// byte included, the others 0; `last` is the place of the check byte's first
/// raw byte, `next` the position behind the telegram.
#[derive(Clone, Copy, Debug, PartialEq, Eq)]
pub struct Telegram {
    pub bytes: [u8; MOST_COMMAND],
    pub length: usize,
    pub last: usize,
    pub next: usize,
}

impl Telegram {
    /// No telegram.
    pub(crate) const EMPTY: Telegram = Telegram {
        bytes: [0; MOST_COMMAND],
        length: 0,
        last: 0,
        next: 0,
    };

    /// The telegram's logical bytes, check byte included.
    pub fn logical(&self) -> &[u8] {
        &self.bytes[..self.length]
    }

    /// Whether its check byte is the right one.
    pub fn check_right(&self) -> bool {
        check_right(self.logical())
    }

    /// Reads a command or a reply from a position of a raw run in place of what
    /// was here. "A logical byte is judged once whole."
    pub(crate) fn read(&mut self, run: &[u8], command: bool, at: usize) -> Result<(), Refusal> {
        self.length = 0;
        self.next = at;
        if command {
            if !is_initiator(self.take(run)?) {
                return Err(Refusal::at(SOURCE_WRONG, self.last));
            }
            if is_reserved(self.take(run)?) {
                return Err(Refusal::at(DESTINATION_WRONG, self.last));
            }
            self.take(run)?;
            self.take(run)?;
        }
        let data = usize::from(self.take(run)?);
        if data > MOST_DATA {
            return Err(Refusal::at(LENGTH_OVER, self.last));
        }
        for _ in 0..=data {
            self.take(run)?;
        }
        Ok(())
    }

    /// Takes the next logical byte of the run into the telegram.
    #[inline]
    fn take(&mut self, run: &[u8]) -> Result<u8, Refusal> {
        let Logical { byte, next } = logical_at(run, self.next)?;
        self.bytes[self.length] = byte;
        self.length += 1;
        self.last = self.next;
        self.next = next;
        Ok(byte)
    }
}

/// Whether this is an initiator's address: both nibbles among 0, 1, 3, 7, F.
pub fn is_initiator(address: u8) -> bool {
    let among = |nibble| matches!(nibble, 0x0 | 0x1 | 0x3 | 0x7 | 0xF);
    among(address >> 4) && among(address & 0x0F)
}

/// Whether this is A9 or AA, which no destination may be.
pub fn is_reserved(address: u8) -> bool {
    matches!(address, ESCAPE | SYN)
}

/// The kind of an exchange with this destination.
pub fn kind(destination: u8) -> Kind {
    if destination == EVERYBODY {
        Kind::Broadcast
    } else if is_initiator(destination) {
        Kind::InitiatorInitiator
    } else {
        Kind::InitiatorTarget
    }
}

/// The logical byte at a position of a raw run. "A raw A9 followed by anything
/// but 00 or 01 is wrong. A raw AA is always SYN, also after A9."
#[inline]
pub fn logical_at(run: &[u8], at: usize) -> Result<Logical, Refusal> {
    match run.get(at) {
        None => Err(Refusal::at(RUN_ENDED, run.len())),
        Some(&SYN) => Err(Refusal::at(SYN_EARLY, at)),
        Some(&ESCAPE) => match run.get(at + 1) {
            None => Err(Refusal::at(RUN_ENDED, run.len())),
            Some(&SYN) => Err(Refusal::at(SYN_EARLY, at + 1)),
            Some(&code @ (0x00 | 0x01)) => Ok(Logical {
                byte: ESCAPE + code,
                next: at + 2,
            }),
            Some(_) => Err(Refusal::at(ESCAPE_WRONG, at + 1)),
        },
        Some(&byte) => Ok(Logical { byte, next: at + 1 }),
    }
}

/// Writes logical bytes as they go on the wire and gives the length written.
pub fn expand(logical: &[u8], out: &mut [u8]) -> Result<usize, Refusal> {
    let escapes = logical.iter().filter(|&&byte| is_reserved(byte)).count();
    let length = logical.len() + escapes;
    if length > out.len() {
        return Err(Refusal::whole(OUTPUT_SHORT));
    }
    if escapes == 0 {
        out[..length].copy_from_slice(logical);
        return Ok(length);
    }
    let mut at = 0;
    for &byte in logical {
        if is_reserved(byte) {
            out[at] = ESCAPE;
            out[at + 1] = byte - ESCAPE;
            at += 2;
        } else {
            out[at] = byte;
            at += 1;
        }
    }
    Ok(length)
}

/// Undoes the escapes of a raw input and gives the length written. The whole
/// input comes first: "3, 4 or 5 as met, at their places, then 1".
pub fn undo(raw: &[u8], out: &mut [u8]) -> Result<usize, Refusal> {
    let mut length = 0;
    let mut at = 0;
    while at < raw.len() {
        at = logical_at(raw, at)?.next;
        length += 1;
    }
    if length > out.len() {
        return Err(Refusal::whole(OUTPUT_SHORT));
    }
    let mut at = 0;
    for byte in &mut out[..length] {
        let logical = logical_at(raw, at)?;
        *byte = logical.byte;
        at = logical.next;
    }
    Ok(length)
}

/// The command (`command` true) or the reply at a position of a raw run, its
/// check byte not judged.
pub fn telegram_at(run: &[u8], command: bool, at: usize) -> Result<Telegram, Refusal> {
    let mut telegram = Telegram::EMPTY;
    telegram.read(run, command, at)?;
    Ok(telegram)
}

/// Whether the last of these logical bytes is the check byte of those before
/// it; false for no bytes.
pub fn check_right(telegram: &[u8]) -> bool {
    match telegram.split_last() {
        Some((&check, before)) => ebus_check(before) == check,
        None => false,
    }
}

/// Writes a command on the wire and gives its length. Order: 6, 7, 8, then 1;
/// every place is 0.
pub fn write_command(
    source: u8,
    destination: u8,
    primary: u8,
    secondary: u8,
    payload: &[u8],
    out: &mut [u8],
) -> Result<usize, Refusal> {
    if !is_initiator(source) {
        return Err(Refusal::whole(SOURCE_WRONG));
    }
    if is_reserved(destination) {
        return Err(Refusal::whole(DESTINATION_WRONG));
    }
    write_telegram(&[source, destination, primary, secondary], payload, out)
}

/// Writes a reply on the wire and gives its length. Order: 8, then 1. "A reply
/// starts at LEN."
pub fn write_reply(payload: &[u8], out: &mut [u8]) -> Result<usize, Refusal> {
    write_telegram(&[], payload, out)
}

/// Head, LEN, data and check byte, escaped: the check byte is escaped too.
fn write_telegram(head: &[u8], payload: &[u8], out: &mut [u8]) -> Result<usize, Refusal> {
    if payload.len() > MOST_DATA {
        return Err(Refusal::whole(LENGTH_OVER));
    }
    let data = head.len() + 1;
    let check = data + payload.len();
    let mut logical = [0; MOST_COMMAND];
    logical[..head.len()].copy_from_slice(head);
    logical[head.len()] = payload.len() as u8;
    logical[data..check].copy_from_slice(payload);
    logical[check] = ebus_check(&logical[..check]);
    expand(&logical[..=check], out)
}
