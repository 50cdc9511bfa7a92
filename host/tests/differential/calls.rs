//! Each call of the C interface made on both sides: on the archive with lent
//! buffers, and on the second implementation. Answers, outputs with their
//! margins and inputs are compared. The calls on devices are in `board`, those
//! on their event queues in `polls`, those on a state of listening in `hearing`,
//! those on Railbus packets in `railbus` and on relay devices in `relay`.

use std::fmt::Debug;

use moortinker::sys;
use second::events::{EventRequest, Events};
use second::refusal::Refusal;
use second::{checks, ebus, events, exchange, frames};

use crate::fill::extent;
use crate::lent::{hex, Lent};
use crate::session::{same, Function, Session};

pub fn ebus_check(session: &mut Session, logical: &[u8]) {
    let second = checks::ebus_check(logical);
    // SAFETY: the pointer comes with its length.
    let archive = |at, length| unsafe { sys::moor_ebus_check(at, length) };
    read(
        session,
        Function::EbusCheck,
        logical,
        archive,
        0,
        second,
        String::new,
    );
}

pub fn modbus_check(session: &mut Session, bytes: &[u8]) {
    let second = checks::modbus_check(bytes);
    // SAFETY: the pointer comes with its length.
    let archive = |at, length| unsafe { sys::moor_modbus_check(at, length) };
    read(
        session,
        Function::ModbusCheck,
        bytes,
        archive,
        0,
        second,
        String::new,
    );
}

/// Initiator, reserved and kind of an address.
pub fn address(session: &mut Session, address: u8) {
    // SAFETY: no pointer is handed over.
    let (initiator, reserved, kind) = unsafe {
        (
            sys::moor_is_initiator(address),
            sys::moor_is_reserved(address),
            sys::moor_kind(address),
        )
    };
    let mut told = |function, archive: u8, second: u8| {
        let compared = same("answer", &archive, &second);
        session.settle(function, 0, compared, || hex(&[address]));
        session.note(function, [second, 0, 0]);
    };
    let second = ebus::is_initiator(address);
    told(Function::IsInitiator, initiator.into(), second.into());
    let second = ebus::is_reserved(address);
    told(Function::IsReserved, reserved.into(), second.into());
    told(Function::Kind, kind, ebus::kind(address) as u8);
}

pub fn logical_at(session: &mut Session, run: &[u8], at: usize) {
    let (number, place, byte, next) = match ebus::logical_at(run, at) {
        Ok(logical) => (0, 0, logical.byte, logical.next),
        Err(Refusal { number, place }) => (number, place, 0, 0),
    };
    let second = sys::Logical {
        number,
        byte,
        place,
        next,
    };
    // SAFETY: the pointer comes with its length.
    let archive = |run, length| unsafe { sys::moor_logical_at(run, length, at) };
    let text = || format!("at {at} of");
    read(
        session,
        Function::LogicalAt,
        run,
        archive,
        number,
        second,
        text,
    );
}

pub fn telegram_at(session: &mut Session, run: &[u8], command: bool, at: usize) {
    let mut second = sys::Telegram {
        number: 0,
        place: 0,
        length: 0,
        last: 0,
        next: 0,
        bytes: [0; 22],
    };
    match ebus::telegram_at(run, command, at) {
        Ok(telegram) => {
            (second.length, second.bytes) = (telegram.length, telegram.bytes);
            (second.last, second.next) = (telegram.last, telegram.next);
        }
        Err(Refusal { number, place }) => (second.number, second.place) = (number, place),
    }
    // SAFETY: the pointer comes with its length.
    let archive = |run, length| unsafe { sys::moor_telegram_at(run, length, command, at) };
    let number = second.number;
    let text = || format!("command {command} at {at} of");
    read(
        session,
        Function::TelegramAt,
        run,
        archive,
        number,
        second,
        text,
    );
}

pub fn check_right(session: &mut Session, telegram: &[u8]) {
    let second = ebus::check_right(telegram);
    // SAFETY: the pointer comes with its length.
    let archive = |at, length| unsafe { sys::moor_check_right(at, length) };
    read(
        session,
        Function::CheckRight,
        telegram,
        archive,
        0,
        second,
        String::new,
    );
    session.note(Function::CheckRight, [u8::from(second), 0, 0]);
}

pub fn read_request(session: &mut Session, input: &[u8]) {
    let (number, request, place) = match frames::read_request(input) {
        Ok(request) => (0, request as u8, 0),
        Err(Refusal { number, place }) => (number, 0, place),
    };
    let second = sys::RequestRead {
        number,
        request,
        place,
    };
    // SAFETY: the pointer comes with its length.
    let archive = |at, length| unsafe { sys::moor_read_request(at, length) };
    read(
        session,
        Function::ReadRequest,
        input,
        archive,
        number,
        second,
        String::new,
    );
    if number == 0 {
        session.note(Function::ReadRequest, [request, 0, 0]);
    }
}

/// An answer frame of which nothing is known.
pub const NO_ANSWER_READ: sys::AnswerRead = sys::AnswerRead {
    number: 0,
    answer: 0,
    address: 0,
    serial: 0,
    place: 0,
    skipped: 0,
};

/// Gives what both sides say.
pub fn read_answer(session: &mut Session, input: &[u8]) -> sys::AnswerRead {
    let mut second = NO_ANSWER_READ;
    match frames::read_answer(input) {
        Ok((skipped, frames::Answer::Found { serial, address })) => {
            (second.answer, second.serial, second.address) = (3, serial, address);
            second.skipped = skipped;
        }
        Ok((skipped, frames::Answer::End)) => (second.answer, second.skipped) = (4, skipped),
        Err(Refusal { number, place }) => (second.number, second.place) = (number, place),
    }
    let number = second.number;
    // SAFETY: the pointer comes with its length.
    let archive = |at, length| unsafe { sys::moor_read_answer(at, length) };
    read(
        session,
        Function::ReadAnswer,
        input,
        archive,
        number,
        second,
        String::new,
    );
    if number == 0 {
        let form = [second.answer, extent(second.skipped), 0];
        session.note(Function::ReadAnswer, form);
    }
    second
}

pub fn read_event_request(session: &mut Session, input: &[u8]) {
    let mut second = sys::EventRequestRead {
        number: 0,
        minimum: 0,
        most: 0,
        confirmed: 0,
        flag: 0,
        place: 0,
    };
    match events::read_event_request(input) {
        Ok(request) => {
            (second.minimum, second.most) = (request.minimum, request.most);
            (second.confirmed, second.flag) = (request.confirmed, request.flag);
        }
        Err(Refusal { number, place }) => (second.number, second.place) = (number, place),
    }
    let number = second.number;
    // SAFETY: the pointer comes with its length.
    let archive = |at, length| unsafe { sys::moor_read_event_request(at, length) };
    read(
        session,
        Function::ReadEventRequest,
        input,
        archive,
        number,
        second,
        String::new,
    );
}

/// What came back of which nothing is known.
pub const NO_EVENTS_READ: sys::EventsRead = sys::EventsRead {
    number: 0,
    answer: 0,
    sender: 0,
    flag: 0,
    queued: 0,
    size: 0,
    place: 0,
    listed: 0,
    first: 0,
    skipped: 0,
};

/// Gives what both sides say.
pub fn read_events(session: &mut Session, input: &[u8]) -> sys::EventsRead {
    let mut second = NO_EVENTS_READ;
    match events::read_events(input) {
        Ok((skipped, events)) => {
            second.skipped = skipped;
            lay_out(events, &mut second);
        }
        Err(Refusal { number, place }) => (second.number, second.place) = (number, place),
    }
    let number = second.number;
    // SAFETY: the pointer comes with its length.
    let archive = |at, length| unsafe { sys::moor_read_events(at, length) };
    read(
        session,
        Function::ReadEvents,
        input,
        archive,
        number,
        second,
        String::new,
    );
    if number == 0 {
        let listed = second.listed.min(2) as u8;
        let form = [second.answer, listed, extent(second.skipped)];
        session.note(Function::ReadEvents, form);
    }
    second
}

/// What came back, as the archive lays it out.
fn lay_out(events: Events, read: &mut sys::EventsRead) {
    match events {
        Events::Packet {
            sender,
            flag,
            queued,
            listed,
            first,
            size,
        } => {
            (read.answer, read.sender, read.flag) = (17, sender, flag);
            (read.queued, read.size) = (queued, size);
            (read.listed, read.first) = (listed, first);
        }
        Events::None => read.answer = 18,
    }
}

pub fn event_at(session: &mut Session, input: &[u8], at: usize) {
    let mut second = sys::Event {
        whole: 0,
        kind: 0,
        size: 0,
        identifier: 0,
        start: 0,
        next: 0,
    };
    if let Some(event) = events::event_at(input, at) {
        (second.whole, second.kind, second.size) = (1, event.kind, event.size);
        (second.identifier, second.start) = (event.identifier, event.start);
        second.next = event.next;
    }
    let whole = second.whole;
    // SAFETY: the pointer comes with its length.
    let archive = |input, length| unsafe { sys::moor_event_at(input, length, at) };
    let text = || format!("at {at} of");
    read(session, Function::EventAt, input, archive, 0, second, text);
    session.note(Function::EventAt, [whole, 0, 0]);
}

pub fn write_event_request(session: &mut Session, request: EventRequest, room: usize) {
    let second = |out: &mut [u8]| events::write_event_request(request, out);
    let EventRequest {
        minimum,
        most,
        confirmed,
        flag,
    } = request;
    let archive = |_, _, out| {
        // SAFETY: the pointer comes with its length.
        unsafe { sys::moor_write_event_request(minimum, most, confirmed, flag, out, room) }
    };
    let text = || format!("{request:?}");
    write(
        session,
        Function::WriteEventRequest,
        &[],
        room,
        archive,
        second,
        text,
    );
}

pub fn write_no_events(session: &mut Session, room: usize) {
    let second = |out: &mut [u8]| events::write_no_events(out);
    // SAFETY: the pointer comes with its length.
    let archive = |_, _, out| unsafe { sys::moor_write_no_events(out, room) };
    write(
        session,
        Function::WriteNoEvents,
        &[],
        room,
        archive,
        second,
        String::new,
    );
}

pub fn expand(session: &mut Session, logical: &[u8], room: usize) {
    let second = |out: &mut [u8]| ebus::expand(logical, out);
    // SAFETY: each pointer comes with its length, and the buffers lie apart.
    let archive = |at, length, out| unsafe { sys::moor_expand(at, length, out, room) };
    write(
        session,
        Function::Expand,
        logical,
        room,
        archive,
        second,
        String::new,
    );
}

pub fn undo(session: &mut Session, raw: &[u8], room: usize) {
    let second = |out: &mut [u8]| ebus::undo(raw, out);
    // SAFETY: each pointer comes with its length, and the buffers lie apart.
    let archive = |at, length, out| unsafe { sys::moor_undo(at, length, out, room) };
    write(
        session,
        Function::Undo,
        raw,
        room,
        archive,
        second,
        String::new,
    );
}

/// The head is SRC, DST, PB, SB.
pub fn write_command(session: &mut Session, head: [u8; 4], payload: &[u8], room: usize) {
    let [a, b, c, d] = head;
    let second = |out: &mut [u8]| ebus::write_command(a, b, c, d, payload, out);
    // SAFETY: each pointer comes with its length, and the buffers lie apart.
    let archive =
        |at, length, out| unsafe { sys::moor_write_command(a, b, c, d, at, length, out, room) };
    let text = || format!("SRC to SB {}", hex(&head));
    write(
        session,
        Function::WriteCommand,
        payload,
        room,
        archive,
        second,
        text,
    );
}

pub fn write_reply(session: &mut Session, payload: &[u8], room: usize) {
    let second = |out: &mut [u8]| ebus::write_reply(payload, out);
    // SAFETY: each pointer comes with its length, and the buffers lie apart.
    let archive = |at, length, out| unsafe { sys::moor_write_reply(at, length, out, room) };
    write(
        session,
        Function::WriteReply,
        payload,
        room,
        archive,
        second,
        String::new,
    );
}

pub fn write_request(session: &mut Session, request: u8, room: usize) {
    let second = |out: &mut [u8]| frames::write_request(request, out);
    // SAFETY: the pointer comes with its length.
    let archive = |_, _, out| unsafe { sys::moor_write_request(request, out, room) };
    let text = || format!("request {request}");
    write(
        session,
        Function::WriteRequest,
        &[],
        room,
        archive,
        second,
        text,
    );
}

pub fn write_found(session: &mut Session, serial: u32, address: u8, room: usize) {
    let second = |out: &mut [u8]| frames::write_found(serial, address, out);
    // SAFETY: the pointer comes with its length.
    let archive = |_, _, out| unsafe { sys::moor_write_found(serial, address, out, room) };
    let text = || format!("serial {serial:08X} address {address:02X}");
    write(
        session,
        Function::WriteFound,
        &[],
        room,
        archive,
        second,
        text,
    );
}

pub fn write_end(session: &mut Session, room: usize) {
    let second = |out: &mut [u8]| frames::write_end(out);
    // SAFETY: the pointer comes with its length.
    let archive = |_, _, out| unsafe { sys::moor_write_end(out, room) };
    write(
        session,
        Function::WriteEnd,
        &[],
        room,
        archive,
        second,
        String::new,
    );
}

/// Judges a run with buffers of these lengths: command, first and second reply.
/// Then asks for the data of an accepted reply.
pub fn judge(session: &mut Session, run: &[u8], rooms: [usize; 3]) {
    let lent = session.lend(run);
    let kept = lent.clone();
    let mut archive_buffers = rooms.map(|room| session.room(room));
    let mut second_buffers = archive_buffers.clone();
    let archive = judge_archive(&lent, &mut archive_buffers);
    let second = judge_second(run, &mut second_buffers);
    let compared = same("answer", &archive, &second)
        .and_then(|()| same("buffers", &archive_buffers, &second_buffers))
        .and_then(|()| same("input", &lent, &kept));
    session.settle(Function::Judge, second.number, compared, || {
        format!("{} rooms {rooms:?}", hex(run))
    });
    if second.number == 0 {
        let attempts = [second.kind, second.command_attempts, second.reply_attempts];
        session.note(Function::Judge, attempts);
        let [_, reply_1, reply_2] = &second_buffers;
        reply_data(
            session,
            reply_1.part(),
            reply_2.part(),
            second.reply_attempts,
        );
    }
}

pub fn judge_archive(run: &Lent<u8>, buffers: &mut [Lent<u8>; 3]) -> sys::Judged {
    let [command, reply_1, reply_2] = buffers;
    // SAFETY: each pointer comes with its length, and the buffers lie apart.
    unsafe {
        sys::moor_judge(
            run.pointer(),
            run.length(),
            command.pointer_mut(),
            command.length(),
            reply_1.pointer_mut(),
            reply_1.length(),
            reply_2.pointer_mut(),
            reply_2.length(),
        )
    }
}

fn judge_second(run: &[u8], buffers: &mut [Lent<u8>; 3]) -> sys::Judged {
    let [command, reply_1, reply_2] = buffers.each_mut().map(Lent::part_mut);
    judged(exchange::judge(run, command, reply_1, reply_2))
}

/// The second's answer to an exchange, as the archive lays it out.
pub fn judged(second: Result<exchange::Judged, Refusal>) -> sys::Judged {
    match second {
        Ok(judged) => sys::Judged {
            number: 0,
            kind: judged.kind as u8,
            command_attempts: judged.command_attempts,
            reply_attempts: judged.reply_attempts,
            place: 0,
            read: judged.read,
        },
        Err(Refusal { number, place }) => sys::Judged {
            number,
            kind: 0,
            command_attempts: 0,
            reply_attempts: 0,
            place,
            read: 0,
        },
    }
}

pub fn reply_data(session: &mut Session, reply_1: &[u8], reply_2: &[u8], attempt: u8) {
    let lent = [session.lend(reply_1), session.lend(reply_2)];
    let kept = lent.clone();
    // SAFETY: each pointer comes with its length.
    let archive = unsafe {
        sys::moor_reply_data(
            lent[0].pointer(),
            lent[0].length(),
            lent[1].pointer(),
            lent[1].length(),
            attempt,
        )
    };
    let part = exchange::reply_data(reply_1, reply_2, attempt);
    let second = sys::Part {
        attempt: part.attempt,
        start: part.start,
        length: part.length,
    };
    let compared = same("answer", &archive, &second).and_then(|()| same("input", &lent, &kept));
    session.settle(Function::ReplyData, 0, compared, || {
        format!("{} {} attempt {attempt}", hex(reply_1), hex(reply_2))
    });
    session.note(Function::ReplyData, [part.attempt, part.start as u8, 0]);
}

/// Makes a call that only reads. The archive gets the input's pointer and
/// length; the second's answer is there already.
pub fn read<T: PartialEq + Debug>(
    session: &mut Session,
    function: Function,
    input: &[u8],
    archive: impl FnOnce(*const u8, usize) -> T,
    number: u8,
    second: T,
    text: impl FnOnce() -> String,
) {
    let lent = session.lend(input);
    let kept = lent.clone();
    let archive = archive(lent.pointer(), lent.length());
    let compared = same("answer", &archive, &second).and_then(|()| same("input", &lent, &kept));
    session.settle(function, number, compared, || {
        format!("{} {}", text(), hex(input))
    });
}

/// Makes a call that writes into an output of this length. The archive gets the
/// input's pointer and length and the output's pointer.
pub fn write(
    session: &mut Session,
    function: Function,
    input: &[u8],
    room: usize,
    archive: impl FnOnce(*const u8, usize, *mut u8) -> sys::Written,
    second: impl FnOnce(&mut [u8]) -> Result<usize, Refusal>,
    text: impl FnOnce() -> String,
) {
    let lent = session.lend(input);
    let kept = lent.clone();
    let mut writing = Writing::new(session, room);
    let archive = archive(lent.pointer(), lent.length(), writing.archive.pointer_mut());
    let second = written(second(writing.second.part_mut()));
    let compared = writing
        .compare(&archive, &second)
        .and_then(|()| same("input", &lent, &kept));
    session.settle(function, second.number, compared, || {
        format!("{} {} room {room}", text(), hex(input))
    });
}

/// The second's answer of a call that writes, as the archive lays it out.
pub fn written(second: Result<usize, Refusal>) -> sys::Written {
    let (number, place, length) = match second {
        Ok(length) => (0, 0, length),
        Err(Refusal { number, place }) => (number, place, 0),
    };
    sys::Written {
        number,
        place,
        length,
    }
}

/// The output of a call that writes, once for each side, with equal content at
/// first.
pub struct Writing {
    pub archive: Lent<u8>,
    pub second: Lent<u8>,
}

impl Writing {
    pub fn new(session: &mut Session, room: usize) -> Self {
        let archive = session.room(room);
        let second = archive.clone();
        Writing { archive, second }
    }

    /// Compares the answers and the outputs.
    pub fn compare(&self, archive: &sys::Written, second: &sys::Written) -> Result<(), String> {
        same("answer", archive, second).and_then(|()| same("output", &self.archive, &self.second))
    }
}
