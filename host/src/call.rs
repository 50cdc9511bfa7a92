//! The calls of the archive over slices: the only place of this crate with
//! `unsafe` in it. Each function hands its slices on as pointer and length and
//! does nothing else.
//!
//! Why each call is sound: a slice's pointer is valid for the slice's length,
//! a `&mut` slice overlaps no other slice of the same call, and `sys` asks for
//! nothing more. A pointer of an empty slice is not read or written through.

use crate::events::{Columns, Event, Request};
use crate::railbus::Packet;
use crate::{railbus, sys};

pub(crate) fn ebus_check(logical: &[u8]) -> u8 {
    // SAFETY: pointer and length of one slice, which is only read.
    unsafe { sys::moor_ebus_check(logical.as_ptr(), logical.len()) }
}

pub(crate) fn modbus_check(bytes: &[u8]) -> u16 {
    // SAFETY: pointer and length of one slice, which is only read.
    unsafe { sys::moor_modbus_check(bytes.as_ptr(), bytes.len()) }
}

pub(crate) fn railbus_check(characters: &[u8]) -> u8 {
    // SAFETY: pointer and length of one slice, which is only read.
    unsafe { sys::moor_railbus_check(characters.as_ptr(), characters.len()) }
}

pub(crate) fn is_initiator(address: u8) -> bool {
    // SAFETY: no pointer is handed on.
    unsafe { sys::moor_is_initiator(address) }
}

pub(crate) fn is_reserved(address: u8) -> bool {
    // SAFETY: no pointer is handed on.
    unsafe { sys::moor_is_reserved(address) }
}

pub(crate) fn kind(destination: u8) -> u8 {
    // SAFETY: no pointer is handed on.
    unsafe { sys::moor_kind(destination) }
}

pub(crate) fn logical_at(run: &[u8], at: usize) -> sys::Logical {
    // SAFETY: pointer and length of one slice, which is only read; any
    // position may be asked for.
    unsafe { sys::moor_logical_at(run.as_ptr(), run.len(), at) }
}

pub(crate) fn expand(logical: &[u8], out: &mut [u8]) -> sys::Written {
    // SAFETY: pointer and length of each slice; `out` overlaps nothing.
    unsafe { sys::moor_expand(logical.as_ptr(), logical.len(), out.as_mut_ptr(), out.len()) }
}

pub(crate) fn undo(raw: &[u8], out: &mut [u8]) -> sys::Written {
    // SAFETY: pointer and length of each slice; `out` overlaps nothing.
    unsafe { sys::moor_undo(raw.as_ptr(), raw.len(), out.as_mut_ptr(), out.len()) }
}

pub(crate) fn telegram_at(run: &[u8], command: bool, at: usize) -> sys::Telegram {
    // SAFETY: pointer and length of one slice, which is only read; any
    // position may be asked for.
    unsafe { sys::moor_telegram_at(run.as_ptr(), run.len(), command, at) }
}

pub(crate) fn check_right(telegram: &[u8]) -> bool {
    // SAFETY: pointer and length of one slice, which is only read.
    unsafe { sys::moor_check_right(telegram.as_ptr(), telegram.len()) }
}

/// `head` is SRC, DST, PB and SB.
pub(crate) fn write_command(head: [u8; 4], payload: &[u8], out: &mut [u8]) -> sys::Written {
    let [source, destination, primary, secondary] = head;
    // SAFETY: pointer and length of each slice; `out` overlaps nothing.
    unsafe {
        sys::moor_write_command(
            source,
            destination,
            primary,
            secondary,
            payload.as_ptr(),
            payload.len(),
            out.as_mut_ptr(),
            out.len(),
        )
    }
}

pub(crate) fn write_reply(payload: &[u8], out: &mut [u8]) -> sys::Written {
    // SAFETY: pointer and length of each slice; `out` overlaps nothing.
    unsafe { sys::moor_write_reply(payload.as_ptr(), payload.len(), out.as_mut_ptr(), out.len()) }
}

pub(crate) fn judge(
    run: &[u8],
    command: &mut [u8],
    reply_1: &mut [u8],
    reply_2: &mut [u8],
) -> sys::Judged {
    // SAFETY: pointer and length of each slice; the three that are written
    // overlap nothing.
    unsafe {
        sys::moor_judge(
            run.as_ptr(),
            run.len(),
            command.as_mut_ptr(),
            command.len(),
            reply_1.as_mut_ptr(),
            reply_1.len(),
            reply_2.as_mut_ptr(),
            reply_2.len(),
        )
    }
}

pub(crate) fn listen() -> sys::Listening {
    // SAFETY: no pointer is handed on.
    unsafe { sys::moor_listen() }
}

pub(crate) fn feed(state: sys::Listening, run: &[u8]) -> sys::Fed {
    // SAFETY: pointer and length of one slice, which is only read; any state
    // may be handed in.
    unsafe { sys::moor_feed(state, run.as_ptr(), run.len()) }
}

pub(crate) fn has_answered(state: sys::Listening) -> bool {
    // SAFETY: no pointer is handed on; any state may be handed in.
    unsafe { sys::moor_has_answered(state) }
}

pub(crate) fn close(
    state: sys::Listening,
    command: &mut [u8],
    reply_1: &mut [u8],
    reply_2: &mut [u8],
) -> sys::Closed {
    // SAFETY: pointer and length of each slice; the three that are written
    // overlap nothing; any state may be handed in.
    unsafe {
        sys::moor_close(
            state,
            command.as_mut_ptr(),
            command.len(),
            reply_1.as_mut_ptr(),
            reply_1.len(),
            reply_2.as_mut_ptr(),
            reply_2.len(),
        )
    }
}

pub(crate) fn reply_data(reply_1: &[u8], reply_2: &[u8], attempt: u8) -> sys::Part {
    // SAFETY: pointer and length of each slice; both are only read.
    unsafe {
        sys::moor_reply_data(
            reply_1.as_ptr(),
            reply_1.len(),
            reply_2.as_ptr(),
            reply_2.len(),
            attempt,
        )
    }
}

pub(crate) fn next_exchange(capture: &[u8], at: usize) -> sys::Stretch {
    // SAFETY: pointer and length of one slice, which is only read; any
    // position may be asked for.
    unsafe { sys::moor_next_exchange(capture.as_ptr(), capture.len(), at) }
}

pub(crate) fn read_request(input: &[u8]) -> sys::RequestRead {
    // SAFETY: pointer and length of one slice, which is only read.
    unsafe { sys::moor_read_request(input.as_ptr(), input.len()) }
}

pub(crate) fn read_answer(input: &[u8]) -> sys::AnswerRead {
    // SAFETY: pointer and length of one slice, which is only read.
    unsafe { sys::moor_read_answer(input.as_ptr(), input.len()) }
}

pub(crate) fn write_request(request: u8, out: &mut [u8]) -> sys::Written {
    // SAFETY: pointer and length of one slice, which overlaps nothing.
    unsafe { sys::moor_write_request(request, out.as_mut_ptr(), out.len()) }
}

pub(crate) fn write_found(serial: u32, address: u8, out: &mut [u8]) -> sys::Written {
    // SAFETY: pointer and length of one slice, which overlaps nothing.
    unsafe { sys::moor_write_found(serial, address, out.as_mut_ptr(), out.len()) }
}

pub(crate) fn write_end(out: &mut [u8]) -> sys::Written {
    // SAFETY: pointer and length of one slice, which overlaps nothing.
    unsafe { sys::moor_write_end(out.as_mut_ptr(), out.len()) }
}

pub(crate) fn table_valid(serials: &[u32], addresses: &[u8], marks: &[u8]) -> bool {
    // SAFETY: pointer and length of each slice; all are only read.
    unsafe {
        sys::moor_table_valid(
            serials.as_ptr(),
            serials.len(),
            addresses.as_ptr(),
            addresses.len(),
            marks.as_ptr(),
            marks.len(),
        )
    }
}

pub(crate) fn contest(keys: &[u32]) -> sys::Decided {
    // SAFETY: pointer and length of one slice, which is only read.
    unsafe { sys::moor_contest(keys.as_ptr(), keys.len()) }
}

/// A call that asks the devices of a table and writes their answer.
type Asked = unsafe extern "C" fn(
    *const u32,
    usize,
    *const u8,
    usize,
    *mut u8,
    usize,
    *mut u8,
    usize,
) -> sys::Written;

fn ask(
    asked: Asked,
    serials: &[u32],
    addresses: &[u8],
    marks: &mut [u8],
    answer: &mut [u8],
) -> sys::Written {
    // SAFETY: pointer and length of each slice; the two that are written
    // overlap nothing.
    unsafe {
        asked(
            serials.as_ptr(),
            serials.len(),
            addresses.as_ptr(),
            addresses.len(),
            marks.as_mut_ptr(),
            marks.len(),
            answer.as_mut_ptr(),
            answer.len(),
        )
    }
}

pub(crate) fn start(
    serials: &[u32],
    addresses: &[u8],
    marks: &mut [u8],
    answer: &mut [u8],
) -> sys::Written {
    ask(sys::moor_start, serials, addresses, marks, answer)
}

pub(crate) fn resume(
    serials: &[u32],
    addresses: &[u8],
    marks: &mut [u8],
    answer: &mut [u8],
) -> sys::Written {
    ask(sys::moor_resume, serials, addresses, marks, answer)
}

pub(crate) fn offer(
    frame: &[u8],
    serials: &[u32],
    addresses: &[u8],
    marks: &mut [u8],
    answer: &mut [u8],
) -> sys::Written {
    // SAFETY: pointer and length of each slice; the two that are written
    // overlap nothing.
    unsafe {
        sys::moor_offer(
            frame.as_ptr(),
            frame.len(),
            serials.as_ptr(),
            serials.len(),
            addresses.as_ptr(),
            addresses.len(),
            marks.as_mut_ptr(),
            marks.len(),
            answer.as_mut_ptr(),
            answer.len(),
        )
    }
}

pub(crate) fn scan(
    serials: &[u32],
    addresses: &[u8],
    marks: &mut [u8],
    found_serials: &mut [u32],
    found_addresses: &mut [u8],
    cap: usize,
) -> sys::Scanned {
    // SAFETY: pointer and length of each slice; the three that are written
    // overlap nothing.
    unsafe {
        sys::moor_scan(
            serials.as_ptr(),
            serials.len(),
            addresses.as_ptr(),
            addresses.len(),
            marks.as_mut_ptr(),
            marks.len(),
            found_serials.as_mut_ptr(),
            found_serials.len(),
            found_addresses.as_mut_ptr(),
            found_addresses.len(),
            cap,
        )
    }
}

pub(crate) fn read_event_request(input: &[u8]) -> sys::EventRequestRead {
    // SAFETY: pointer and length of one slice, which is only read.
    unsafe { sys::moor_read_event_request(input.as_ptr(), input.len()) }
}

pub(crate) fn write_event_request(request: Request, out: &mut [u8]) -> sys::Written {
    // SAFETY: pointer and length of one slice, which overlaps nothing.
    unsafe {
        sys::moor_write_event_request(
            request.minimum,
            request.most,
            request.confirmed,
            request.flag,
            out.as_mut_ptr(),
            out.len(),
        )
    }
}

pub(crate) fn read_events(input: &[u8]) -> sys::EventsRead {
    // SAFETY: pointer and length of one slice, which is only read.
    unsafe { sys::moor_read_events(input.as_ptr(), input.len()) }
}

pub(crate) fn event_at(input: &[u8], at: usize) -> sys::Event {
    // SAFETY: pointer and length of one slice, which is only read; any
    // position may be asked for.
    unsafe { sys::moor_event_at(input.as_ptr(), input.len(), at) }
}

pub(crate) fn write_no_events(out: &mut [u8]) -> sys::Written {
    // SAFETY: pointer and length of one slice, which overlaps nothing.
    unsafe { sys::moor_write_no_events(out.as_mut_ptr(), out.len()) }
}

pub(crate) fn queues_valid(columns: &Columns<'_>) -> bool {
    // SAFETY: pointer and length of each slice; all are only read.
    unsafe {
        sys::moor_queues_valid(
            columns.serials.as_ptr(),
            columns.serials.len(),
            columns.addresses.as_ptr(),
            columns.addresses.len(),
            columns.marks.as_ptr(),
            columns.marks.len(),
            columns.flags.as_ptr(),
            columns.flags.len(),
            columns.lasts.as_ptr(),
            columns.lasts.len(),
            columns.counts.as_ptr(),
            columns.counts.len(),
            columns.slots.as_ptr(),
            columns.slots.len(),
        )
    }
}

pub(crate) fn add_event(
    columns: &mut Columns<'_>,
    id: u8,
    urgent: bool,
    event: Event<'_>,
) -> sys::Added {
    // SAFETY: pointer and length of each slice; the two that are written
    // overlap nothing.
    unsafe {
        sys::moor_add_event(
            columns.serials.as_ptr(),
            columns.serials.len(),
            columns.addresses.as_ptr(),
            columns.addresses.len(),
            columns.marks.as_ptr(),
            columns.marks.len(),
            columns.flags.as_ptr(),
            columns.flags.len(),
            columns.lasts.as_ptr(),
            columns.lasts.len(),
            columns.counts.as_mut_ptr(),
            columns.counts.len(),
            columns.slots.as_mut_ptr(),
            columns.slots.len(),
            id,
            u8::from(urgent),
            event.kind,
            event.identifier,
            event.data.as_ptr(),
            event.data.len(),
        )
    }
}

pub(crate) fn poll(request: Request, columns: &mut Columns<'_>, answer: &mut [u8]) -> sys::Polled {
    // SAFETY: pointer and length of each slice; the five that are written
    // overlap nothing.
    unsafe {
        sys::moor_poll(
            request.minimum,
            request.most,
            request.confirmed,
            request.flag,
            columns.serials.as_ptr(),
            columns.serials.len(),
            columns.addresses.as_ptr(),
            columns.addresses.len(),
            columns.marks.as_ptr(),
            columns.marks.len(),
            columns.flags.as_mut_ptr(),
            columns.flags.len(),
            columns.lasts.as_mut_ptr(),
            columns.lasts.len(),
            columns.counts.as_mut_ptr(),
            columns.counts.len(),
            columns.slots.as_mut_ptr(),
            columns.slots.len(),
            answer.as_mut_ptr(),
            answer.len(),
        )
    }
}

pub(crate) fn offer_poll(
    frame: &[u8],
    columns: &mut Columns<'_>,
    answer: &mut [u8],
) -> sys::Polled {
    // SAFETY: pointer and length of each slice; the five that are written
    // overlap nothing.
    unsafe {
        sys::moor_offer_poll(
            frame.as_ptr(),
            frame.len(),
            columns.serials.as_ptr(),
            columns.serials.len(),
            columns.addresses.as_ptr(),
            columns.addresses.len(),
            columns.marks.as_ptr(),
            columns.marks.len(),
            columns.flags.as_mut_ptr(),
            columns.flags.len(),
            columns.lasts.as_mut_ptr(),
            columns.lasts.len(),
            columns.counts.as_mut_ptr(),
            columns.counts.len(),
            columns.slots.as_mut_ptr(),
            columns.slots.len(),
            answer.as_mut_ptr(),
            answer.len(),
        )
    }
}

pub(crate) fn read_railbus(input: &[u8]) -> sys::RailbusRead {
    // SAFETY: pointer and length of one slice, which is only read.
    unsafe { sys::moor_read_railbus(input.as_ptr(), input.len()) }
}

pub(crate) fn write_railbus(packet: Packet, out: &mut [u8]) -> sys::Written {
    // SAFETY: pointer and length of one slice, which overlaps nothing.
    unsafe {
        sys::moor_write_railbus(
            packet.message.letter(),
            packet.address,
            packet.register,
            packet.message.data().unwrap_or(0),
            out.as_mut_ptr(),
            out.len(),
        )
    }
}

pub(crate) fn relay_valid(registers: &[u32], access: &[u8]) -> bool {
    // SAFETY: pointer and length of each slice; both are only read.
    unsafe {
        sys::moor_relay_valid(
            registers.as_ptr(),
            registers.len(),
            access.as_ptr(),
            access.len(),
        )
    }
}

pub(crate) fn offer_railbus(
    relay: &railbus::Columns<'_>,
    packet: &[u8],
    answer: &mut [u8],
) -> sys::Relayed {
    // SAFETY: pointer and length of each slice; the one that is written overlaps
    // nothing.
    unsafe {
        sys::moor_offer_railbus(
            relay.address,
            packet.as_ptr(),
            packet.len(),
            relay.registers.as_ptr(),
            relay.registers.len(),
            relay.access.as_ptr(),
            relay.access.len(),
            relay.write.for_archive(),
            answer.as_mut_ptr(),
            answer.len(),
        )
    }
}

pub(crate) fn finish_railbus(relay: &mut railbus::Columns<'_>, answer: &mut [u8]) -> sys::Relayed {
    // SAFETY: pointer and length of each slice; the two that are written overlap
    // nothing.
    unsafe {
        sys::moor_finish_railbus(
            relay.address,
            relay.registers.as_mut_ptr(),
            relay.registers.len(),
            relay.access.as_ptr(),
            relay.access.len(),
            relay.write.for_archive(),
            answer.as_mut_ptr(),
            answer.len(),
        )
    }
}
