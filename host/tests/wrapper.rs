//! The wrapper held to the rules: the rows marked W, every number with its
//! place, what stays on a refusal, the edges, and empty inputs. States of
//! listening that no feeding makes are handed to the C interface itself.

#[path = "wrapper/captures.rs"]
mod captures;
#[path = "wrapper/railbus.rs"]
mod railbus;

use std::fmt::Debug;

use moortinker::devices::{
    contest, Columns, Decided, Device, ScanEnd, Scanned, Table, ANSWER_ROOM, MOST_DEVICES,
};
use moortinker::ebus::{
    self, Command, Kind, Listener, COMMAND_ROOM, COMMAND_WIRE, REPLY_ROOM, REPLY_WIRE,
};
use moortinker::events::{
    self, Event, Polled, Queues, Sent, MOST_DATA, MOST_QUEUED, POLL_ROOM, REQUEST_FRAME,
    SLOTS_LENGTH, SLOT_LENGTH,
};
use moortinker::modbus::{self, Answer, Request, MOST_FILL};
use moortinker::{sys, Reason, Refusal};

/// What lent outputs hold before a call.
const FILL: u8 = 0x5A;

/// The exchange of W7.
const EXCHANGE: [u8; 13] = [
    0x10, 0x08, 0xB5, 0x11, 0x01, 0x01, 0x89, 0x00, 0x01, 0x2A, 0xB1, 0x00, 0xAA,
];

const COMMAND: &[u8] = &[0x10, 0x08, 0xB5, 0x11, 0x01, 0x01, 0x89];
const COMMAND_WRONG: &[u8] = &[0x10, 0x08, 0xB5, 0x11, 0x01, 0x01, 0x88];
const REPLY: &[u8] = &[0x01, 0x2A, 0xB1];
const REPLY_WRONG: &[u8] = &[0x01, 0x2B, 0xB1];
const ACK: &[u8] = &[0x00];
const NACK: &[u8] = &[0xFF];
const SYN: &[u8] = &[0xAA];

const START: [u8; 5] = [0xFD, 0x46, 0x01, 0x13, 0x90];
const CONTINUE: [u8; 5] = [0xFD, 0x46, 0x02, 0x53, 0x91];
const END: [u8; 5] = [0xFD, 0x46, 0x04, 0xD3, 0x93];
const FOUND: [u8; 10] = [0xFD, 0x46, 0x03, 0x00, 0x01, 0xEB, 0x37, 0x0C, 0xCE, 0xDC];

/// The frames of events that document 000 prints, with their checks.
const EVENT_REQUEST: [u8; 9] = [0xFD, 0x46, 0x10, 0x00, 0x64, 0x0A, 0x01, 0x7E, 0x15];
const PACKET: [u8; 14] = [
    0x05, 0x46, 0x11, 0x01, 0x01, 0x06, 0x02, 0x04, 0x01, 0xD0, 0x04, 0x00, 0x2B, 0xAC,
];
const NO_EVENTS: [u8; 5] = [0xFD, 0x46, 0x12, 0x52, 0x5D];

/// Number and place of a refusal.
type Named = (u8, usize);

/// Number and place of what must be a refusal.
fn refused<T: Debug>(result: Result<T, Refusal>) -> Named {
    let refusal = result.unwrap_err();
    (refusal.number(), refusal.place())
}

/// An answer behind so many FF.
fn answered(answer: Answer, skipped: usize) -> Result<modbus::Heard, Refusal> {
    Ok(modbus::Heard { answer, skipped })
}

/// What came back behind so many FF that nobody has events.
fn nothing_back(skipped: usize) -> Result<events::Heard<'static>, Refusal> {
    let answer = events::Answer::NoEvents;
    Ok(events::Heard { answer, skipped })
}

/// So many FF, and a frame behind them.
fn behind_fill(fill: usize, frame: &[u8]) -> Vec<u8> {
    [&vec![0xFF; fill][..], frame].concat()
}

/// The command of W7, with other data.
fn command(data: &[u8]) -> Command<'_> {
    Command {
        source: 0x10,
        destination: 0x08,
        primary: 0xB5,
        secondary: 0x11,
        data,
    }
}

/// The table of W12, with these marks.
fn three(marks: [u8; 3]) -> Table {
    Table::new([0x0001EB37, 5, 9], [0x0C, 0x02, 0x03], marks).unwrap()
}

// ---- The rows marked W ------------------------------------------------------

#[test]
fn w1_to_w6() {
    assert_eq!(ebus::check(&[0x10, 0x08, 0xB5, 0x11, 0x01, 0x01]), 0x89);
    assert_eq!(ebus::check(&[0xAA]), 0xEC);
    assert_eq!(ebus::check(&[0xA9]), 0xED);
    assert_eq!(ebus::check(&[]), 0x00);
    assert_eq!(ebus::expand_to_vec(&[0xA9, 0xAA]), [0xA9, 0x00, 0xA9, 0x01]);
    assert_eq!(ebus::kind(0xFE), Kind::Broadcast);
    assert_eq!(ebus::kind(0x10), Kind::InitiatorInitiator);
    assert_eq!(ebus::kind(0x08), Kind::InitiatorTarget);
}

#[test]
fn w7_and_w8() {
    let exchange = ebus::judge(&EXCHANGE).unwrap();
    assert_eq!(exchange.kind(), Kind::InitiatorTarget);
    assert_eq!(exchange.command(), COMMAND);
    assert_eq!(exchange.reply(1), Some(REPLY));
    assert_eq!(exchange.data(), [0x2A]);
    assert_eq!(exchange.command_attempts(), 1);
    assert_eq!(exchange.reply_attempts(), 1);
    assert_eq!(exchange.bytes_read(), 13);

    let mut run = EXCHANGE;
    run[7] = 0x55;
    assert_eq!(refused(ebus::judge(&run)), (12, 7));
}

#[test]
fn w9_to_w11() {
    assert_eq!(Request::Start.frame(), START);
    assert_eq!(Request::Continue.frame(), CONTINUE);
    assert_eq!(modbus::read_request(&START), Ok(Request::Start));
    assert_eq!(modbus::read_request(&CONTINUE), Ok(Request::Continue));
    assert_eq!(modbus::read_answer(&END), answered(Answer::End, 0));
    let found = Answer::Found {
        serial: 0x0001EB37,
        address: 0x0C,
    };
    assert_eq!(modbus::read_answer(&FOUND), answered(found, 0));
    let mut out = [FILL; 12];
    assert_eq!(modbus::write_answer(found, &mut out), Ok(10));
    assert_eq!((&out[..10], &out[10..]), (&FOUND[..], &[FILL; 2][..]));
    let mut out = [FILL; 6];
    assert_eq!(modbus::write_answer(Answer::End, &mut out), Ok(5));
    assert_eq!((&out[..5], out[5]), (&END[..], FILL));
}

#[test]
fn w12_to_w14() {
    let scan = three([0, 0, 0]).scan(100);
    assert_eq!((scan.end(), scan.requests()), (ScanEnd::Complete, 4));
    assert_eq!(scan.serials(), [5, 9, 0x0001EB37]);
    assert_eq!(scan.addresses(), [0x02, 0x03, 0x0C]);

    let mut table = three([0, 0, 0]);
    let scan = table.scan(3);
    assert_eq!((scan.end(), scan.requests()), (ScanEnd::Unfinished, 3));
    assert_eq!(scan.serials(), [5, 9, 0x0001EB37]);
    assert_eq!(table.marks(), [1, 1, 1]);

    let scan = Table::default().scan(1);
    assert_eq!((scan.end(), scan.requests()), (ScanEnd::Nobody, 1));
    assert_eq!(scan.heard().len(), 0);
}

// ---- Refusals as values -----------------------------------------------------

#[test]
fn a_reason_and_its_number_name_each_other() {
    for number in 0..=u8::MAX {
        let reason = Reason::ALL.iter().find(|reason| reason.number() == number);
        assert_eq!(Reason::from_number(number), reason.copied());
    }
    assert_eq!(Reason::from_number(0), None);
}

#[test]
fn a_refusal_is_an_error_with_plain_text() {
    let error: Box<dyn std::error::Error + Send + Sync> =
        Box::new(ebus::judge(&EXCHANGE[..8]).unwrap_err());
    assert_eq!(
        error.to_string(),
        "refused with 3 at 8: the run ends too early"
    );
    let texts: std::collections::HashSet<String> =
        Reason::ALL.iter().map(Reason::to_string).collect();
    assert_eq!(texts.len(), Reason::ALL.len());
}

// ---- eBUS: escapes and addresses --------------------------------------------

#[test]
fn expanding_asks_for_the_exact_length() {
    let mut out = [FILL; 6];
    let logical = [0x10, 0xA9, 0xAA];
    assert_eq!(refused(ebus::expand(&logical, &mut out[..4])), (1, 0));
    assert_eq!(out, [FILL; 6]);
    assert_eq!(ebus::expand(&logical, &mut out[..5]), Ok(5));
    assert_eq!(out, [0x10, 0xA9, 0x00, 0xA9, 0x01, FILL]);
}

#[test]
fn undoing_refuses_a_fault_anywhere_before_a_short_output() {
    let mut out = [FILL; 4];
    let cases: [(&[u8], Named); 6] = [
        (&[0x10, 0xA9], (3, 2)),
        (&[0x10, 0xA9, 0x02], (4, 2)),
        (&[0x10, 0xA9, 0xAA], (5, 2)),
        (&[0x10, 0x11, 0x12, 0x13, 0x14, 0xAA], (5, 5)),
        (&[0x10, 0xAA, 0xA9], (5, 1)),
        (&[0x10, 0x11, 0x12, 0x13, 0x14], (1, 0)),
    ];
    for (raw, refusal) in cases {
        assert_eq!(refused(ebus::undo(raw, &mut out)), refusal, "{raw:02X?}");
        assert_eq!(out, [FILL; 4]);
    }
    assert_eq!(ebus::undo(&[0xA9, 0x01, 0x10], &mut out), Ok(2));
    assert_eq!(out, [0xAA, 0x10, FILL, FILL]);
}

#[test]
fn undoing_gives_back_what_was_expanded() {
    let logical: Vec<u8> = (0..=0xFF).collect();
    let raw = ebus::expand_to_vec(&logical);
    assert_eq!(raw.len(), 258);
    assert_eq!(ebus::undo_to_vec(&raw), Ok(logical));
}

#[test]
fn a_logical_byte_at_any_position() {
    let run = [0x10, 0xA9, 0x00, 0xA9, 0x01, 0xAA, 0xA9, 0x55, 0xA9];
    let at = |position| ebus::logical_at(&run, position);
    assert_eq!(
        at(0).map(|logical| (logical.byte, logical.next)),
        Ok((0x10, 1))
    );
    assert_eq!(
        at(1).map(|logical| (logical.byte, logical.next)),
        Ok((0xA9, 3))
    );
    assert_eq!(
        at(3).map(|logical| (logical.byte, logical.next)),
        Ok((0xAA, 5))
    );
    assert_eq!(refused(at(5)), (5, 5));
    assert_eq!(refused(at(6)), (4, 7));
    assert_eq!(refused(at(8)), (3, 9));
    assert_eq!(refused(at(9)), (3, 9));
    assert_eq!(refused(at(usize::MAX)), (3, 9));
}

#[test]
fn addresses() {
    let nibble = |nibble: u8| matches!(nibble, 0 | 1 | 3 | 7 | 0xF);
    for address in 0..=0xFF {
        let initiator = nibble(address >> 4) && nibble(address & 0xF);
        assert_eq!(ebus::is_initiator(address), initiator);
        assert_eq!(ebus::is_reserved(address), matches!(address, 0xA9 | 0xAA));
        let kind = match address {
            0xFE => Kind::Broadcast,
            _ if initiator => Kind::InitiatorInitiator,
            _ => Kind::InitiatorTarget,
        };
        assert_eq!(ebus::kind(address), kind);
    }
}

// ---- eBUS: telegrams --------------------------------------------------------

#[test]
fn telegrams_are_read_at_a_position() {
    let read = ebus::read_command(&EXCHANGE, 0).unwrap();
    assert_eq!((read.bytes(), read.data()), (COMMAND, &[0x01][..]));
    assert_eq!((read.check_place(), read.next()), (6, 7));
    assert!(read.is_check_right());
    let read = ebus::read_reply(&EXCHANGE, 8).unwrap();
    assert_eq!((read.bytes(), read.data()), (REPLY, &[0x2A][..]));
    assert_eq!((read.check_place(), read.next()), (10, 11));
    assert!(read.is_check_right());
    assert!(!ebus::read_reply(REPLY_WRONG, 0).unwrap().is_check_right());
    assert!(ebus::check_right(COMMAND) && !ebus::check_right(COMMAND_WRONG));
    assert!(!ebus::check_right(&[]));
}

#[test]
fn telegrams_refused() {
    let cases: [(&[u8], Named); 12] = [
        (&[], (3, 0)),
        (&[0x10, 0x08], (3, 2)),
        (&[0x10, 0x08, 0xB5, 0x11, 0x01, 0xA9, 0x02], (4, 6)),
        (&[0x10, 0xAA], (5, 1)),
        (&[0x12], (6, 0)),
        (&[0xA9, 0x00], (6, 0)),
        (&[0xA9, 0x55], (4, 1)),
        (&[0x10, 0xA9, 0x01], (7, 1)),
        (&[0x10, 0xA9, 0x00], (7, 1)),
        (&[0x10, 0x08, 0xB5, 0x11, 0x11], (8, 4)),
        (&[0x10, 0x08, 0xA9, 0x00, 0x11, 0xA9, 0x00], (8, 5)),
        (&[0x10, 0x08, 0xB5, 0x11, 0xA9, 0xAA], (5, 5)),
    ];
    for (run, refusal) in cases {
        assert_eq!(refused(ebus::read_command(run, 0)), refusal, "{run:02X?}");
    }
    assert_eq!(refused(ebus::read_reply(&[0x11], 0)), (8, 0));
    assert_eq!(refused(ebus::read_reply(&[0x01, 0xAA], 0)), (5, 1));
    assert_eq!(refused(ebus::read_reply(REPLY, 4)), (3, 3));
}

#[test]
fn writing_a_command() {
    let mut out = [FILL; 9];
    let wrong = |source, destination, data| Command {
        source,
        destination,
        ..command(data)
    };
    let long = [0; 17];
    let cases = [
        (wrong(0x12, 0xAA, &long[..]), (6, 0)),
        (wrong(0x10, 0xAA, &long[..]), (7, 0)),
        (wrong(0x10, 0xA9, &[]), (7, 0)),
        (wrong(0x10, 0x08, &long[..]), (8, 0)),
        (wrong(0x10, 0x08, &[0x01, 0x02, 0x03, 0x04]), (1, 0)),
    ];
    for (command, refusal) in cases {
        assert_eq!(refused(ebus::write_command(&command, &mut out)), refusal);
        assert_eq!(out, [FILL; 9]);
    }
    assert_eq!(ebus::write_command(&command(&[0x01]), &mut out), Ok(7));
    assert_eq!((&out[..7], &out[7..]), (COMMAND, &[FILL; 2][..]));
}

#[test]
fn writing_a_reply() {
    let mut out = [FILL; 4];
    assert_eq!(refused(ebus::write_reply(&[0; 17], &mut out)), (8, 0));
    assert_eq!(refused(ebus::write_reply(&[0; 3], &mut out)), (1, 0));
    assert_eq!(refused(ebus::write_reply(&[0x2A], &mut out[..2])), (1, 0));
    assert_eq!(out, [FILL; 4]);
    assert_eq!(ebus::write_reply(&[0x2A], &mut out), Ok(3));
    assert_eq!((&out[..3], out[3]), (REPLY, FILL));
}

#[test]
fn the_longest_telegrams_on_the_wire() {
    let longest = Command {
        source: 0x10,
        destination: 0x07,
        primary: 0xA9,
        secondary: 0xAA,
        data: &[0xAA; 16],
    };
    let raw = ebus::write_command_to_vec(&longest).unwrap();
    assert_eq!(raw.len(), COMMAND_WIRE);
    let read = ebus::read_command(&raw, 0).unwrap();
    assert_eq!((read.data(), read.next()), (&[0xAA; 16][..], COMMAND_WIRE));

    let mut data = [0xAA; 16];
    (data[0], data[1], data[4]) = (0xA9, 0xA9, 0xA9);
    let raw = ebus::write_reply_to_vec(&data).unwrap();
    assert_eq!(raw.len(), REPLY_WIRE);
    assert_eq!(ebus::read_reply(&raw, 0).unwrap().data(), data);
}

// ---- eBUS: exchanges --------------------------------------------------------

#[test]
fn exchanges_refused() {
    let cases: [(&[&[u8]], Named); 20] = [
        (&[], (3, 0)),
        (&[SYN, SYN], (3, 2)),
        (&[COMMAND, ACK, REPLY, ACK], (3, 12)),
        (&[&[0xA9, 0x10], SYN], (4, 1)),
        (&[&[0x10, 0x08], SYN], (5, 2)),
        (&[COMMAND, NACK, SYN], (5, 8)),
        (&[&[0x02], SYN], (6, 0)),
        (&[COMMAND, SYN], (5, 7)),
        (&[COMMAND, ACK, SYN], (5, 8)),
        (&[COMMAND, ACK, REPLY, SYN], (5, 11)),
        (&[COMMAND_WRONG, ACK], (9, 6)),
        (&[COMMAND_WRONG, SYN], (5, 7)),
        (&[COMMAND_WRONG, &[0x55]], (12, 7)),
        (&[COMMAND, ACK, REPLY_WRONG, ACK, SYN], (9, 10)),
        (&[COMMAND, NACK, COMMAND, NACK], (10, 15)),
        (&[COMMAND, ACK, REPLY, NACK, REPLY, NACK], (11, 15)),
        (&[COMMAND, &[0xA9]], (12, 7)),
        (&[COMMAND, ACK, REPLY, &[0x01]], (12, 11)),
        (&[COMMAND, ACK, REPLY, ACK, &[0x00]], (12, 12)),
        (&[&[0x10, 0xFE, 0xB5, 0x11, 0x01, 0x01, 0x11]], (9, 6)),
    ];
    for (parts, refusal) in cases {
        let run = parts.concat();
        assert_eq!(refused(ebus::judge(&run)), refusal, "{run:02X?}");
    }
}

#[test]
fn a_refusal_leaves_the_buffers() {
    let (mut command, mut reply_1, mut reply_2) =
        ([FILL; COMMAND_ROOM], [FILL; REPLY_ROOM], [FILL; REPLY_ROOM]);
    let run = [COMMAND, ACK, REPLY, NACK, REPLY, NACK].concat();
    let judged = ebus::judge_into(&run, &mut command, &mut reply_1, &mut reply_2);
    assert_eq!(refused(judged), (11, 15));
    let rooms = [(21, 18, 18), (22, 17, 18), (22, 18, 17), (0, 0, 0)];
    for (first, second, third) in rooms {
        let judged = ebus::judge_into(
            &EXCHANGE,
            &mut command[..first],
            &mut reply_1[..second],
            &mut reply_2[..third],
        );
        assert_eq!(refused(judged), (1, 0));
    }
    assert_eq!(command, [FILL; COMMAND_ROOM]);
    assert_eq!((reply_1, reply_2), ([FILL; REPLY_ROOM], [FILL; REPLY_ROOM]));
}

#[test]
fn lent_buffers_keep_what_is_behind_a_telegram() {
    let (mut command, mut reply_1, mut reply_2) = ([FILL; 30], [FILL; 20], [FILL; 18]);
    let judged = ebus::judge_into(&EXCHANGE, &mut command, &mut reply_1, &mut reply_2).unwrap();
    assert_eq!(judged, ebus::judge(&EXCHANGE).unwrap().judged());
    assert_eq!((&command[..7], &command[7..]), (COMMAND, &[FILL; 23][..]));
    assert_eq!((&reply_1[..3], &reply_1[3..]), (REPLY, &[FILL; 17][..]));
    assert_eq!(reply_2, [FILL; 18]);
    assert_eq!(ebus::reply_data(&reply_1, &reply_2, 1), [0x2A]);
}

#[test]
fn both_are_nacked_once() {
    let run = [
        COMMAND_WRONG,
        NACK,
        COMMAND,
        ACK,
        REPLY_WRONG,
        NACK,
        REPLY,
        ACK,
        SYN,
        NACK,
    ]
    .concat();
    let exchange = ebus::judge(&run).unwrap();
    assert_eq!(exchange.command(), COMMAND);
    assert_eq!(exchange.command_attempts(), 2);
    assert_eq!(exchange.reply_attempts(), 2);
    assert_eq!(exchange.reply(0), None);
    assert_eq!(exchange.reply(1), Some(REPLY_WRONG));
    assert_eq!(exchange.reply(2), Some(REPLY));
    assert_eq!(exchange.reply(3), None);
    assert_eq!(exchange.data(), [0x2A]);
    assert_eq!(exchange.bytes_read(), run.len() - 1);
}

#[test]
fn an_exchange_without_a_reply() {
    let broadcast = [0x10, 0xFE, 0xB5, 0x11, 0x01, 0x01, 0x10, 0xAA];
    let to_initiator = [0x10, 0x03, 0xB5, 0x11, 0x01, 0x01, 0x3A, 0x00, 0xAA];
    let runs: [(&[u8], Kind); 2] = [
        (&broadcast, Kind::Broadcast),
        (&to_initiator, Kind::InitiatorInitiator),
    ];
    for (run, kind) in runs {
        let exchange = ebus::judge(run).unwrap();
        assert_eq!(exchange.kind(), kind);
        assert_eq!(exchange.command(), &run[..7]);
        assert_eq!(exchange.reply_attempts(), 0);
        assert_eq!((exchange.reply(1), exchange.reply(2)), (None, None));
        assert!(exchange.data().is_empty());
        assert_eq!(exchange.bytes_read(), run.len());
    }
}

#[test]
fn a_recording_that_starts_in_idle_time() {
    let pieces: [&[u8]; 4] = [SYN, &[0xA9, 0xAA], &[0x10, 0xAA], &[0xFF, 0xA9, 0xAA]];
    let once = ebus::judge(&EXCHANGE).unwrap();
    for idle in pieces
        .into_iter()
        .chain([&pieces.concat()[..], &[0xAA; 1000]])
    {
        assert_eq!(refused(ebus::judge(idle)), (3, idle.len()));
        let exchange = ebus::judge(&[idle, &EXCHANGE].concat()).unwrap();
        assert_eq!(exchange.bytes_read(), idle.len() + EXCHANGE.len());
        assert_eq!(exchange.command(), once.command());
        assert_eq!(exchange.command_attempts(), 1);
        assert_eq!(exchange.reply(1), once.reply(1));
        let wrong = [idle, COMMAND, &[0x55]].concat();
        assert_eq!(refused(ebus::judge(&wrong)), (12, idle.len() + 7));
    }
}

#[test]
fn every_prefix_ends_too_early() {
    for length in 0..EXCHANGE.len() {
        assert_eq!(refused(ebus::judge(&EXCHANGE[..length])), (3, length));
    }
}

#[test]
fn written_telegrams_are_judged_as_what_went_in() {
    for length in 0..=16u8 {
        let sent: Vec<u8> = (0..length).map(|index| 0xA0 + index).collect();
        let answered: Vec<u8> = sent.iter().rev().copied().collect();
        let mut run = ebus::write_command_to_vec(&command(&sent)).unwrap();
        run.push(0x00);
        run.extend(ebus::write_reply_to_vec(&answered).unwrap());
        run.extend([0x00, 0xAA]);
        let exchange = ebus::judge(&run).unwrap();
        let command = exchange.command();
        assert_eq!(command[..5], [0x10, 0x08, 0xB5, 0x11, length]);
        assert_eq!(command[5..command.len() - 1], sent);
        assert_eq!(exchange.data(), answered);
        assert_eq!(exchange.bytes_read(), run.len());
    }
}

#[test]
fn reply_data_looks_at_length_and_buffer_only() {
    let sixteen = [0x10; 17];
    assert_eq!(ebus::reply_data(&sixteen, &[], 1), [0x10; 16]);
    assert_eq!(ebus::reply_data(&[], &sixteen, 2), [0x10; 16]);
    assert!(ebus::reply_data(&sixteen[..16], &[], 1).is_empty());
    assert!(ebus::reply_data(&[0x11; 20], &[], 1).is_empty());
    assert!(ebus::reply_data(&[0x00, 0x2A], &[], 1).is_empty());
    for attempt in [0, 3, 0xFF] {
        assert!(ebus::reply_data(&sixteen, &sixteen, attempt).is_empty());
    }
}

// ---- eBUS: bytes as they arrive ---------------------------------------------

/// A listener that was fed with these runs, and how many bytes it used.
fn heard(runs: &[&[u8]]) -> (Listener, usize) {
    let mut listener = Listener::new();
    let used = runs.iter().map(|run| listener.feed(run)).sum();
    (listener, used)
}

/// A run, and how many of its bytes are used.
type Used<'a> = (&'a [u8], usize);

/// A listener that was fed with these runs.
fn fed(runs: &[Used]) -> Listener {
    let mut listener = Listener::new();
    for &(run, used) in runs {
        assert_eq!(listener.feed(run), used, "{run:02X?} of {runs:02X?}");
    }
    listener
}

/// Every way to cut a run into three.
fn three_runs(run: &[u8]) -> impl Iterator<Item = [&[u8]; 3]> + '_ {
    let cuts = (0..=run.len()).flat_map(|second| (0..=second).map(move |first| (first, second)));
    cuts.map(|(first, second)| [&run[..first], &run[first..second], &run[second..]])
}

#[test]
fn w7_and_w8_in_three_runs() {
    for runs in three_runs(&EXCHANGE) {
        let (mut listener, used) = heard(&runs);
        assert_eq!((used, listener.has_answered()), (13, true));
        assert_eq!(listener.close(), ebus::judge(&EXCHANGE));
    }
    let mut wrong = EXCHANGE;
    wrong[7] = 0x55;
    for runs in three_runs(&wrong) {
        let (mut listener, used) = heard(&runs);
        assert_eq!((used, listener.has_answered()), (8, true));
        assert_eq!(refused(listener.close()), (12, 7));
    }
}

#[test]
fn the_byte_that_decides_is_the_last_used() {
    let cases: [(&[&[u8]], Named); 10] = [
        (&[&[0x10, 0xA9, 0x02]], (4, 2)),
        (&[COMMAND, SYN], (5, 7)),
        (&[&[0xA9, 0x00]], (6, 0)),
        (&[&[0x10, 0xA9, 0x01]], (7, 1)),
        (&[COMMAND, ACK, &[0xA9, 0x00]], (8, 8)),
        (&[COMMAND_WRONG, ACK], (9, 6)),
        (&[&[0x10, 0xFE, 0xB5, 0x11, 0x00, 0xA9, 0x00]], (9, 5)),
        (&[COMMAND, NACK, COMMAND, NACK], (10, 15)),
        (&[COMMAND, ACK, REPLY, NACK, REPLY, NACK], (11, 15)),
        (&[COMMAND, ACK, REPLY, ACK, ACK], (12, 12)),
    ];
    for (parts, refusal) in cases {
        let run = parts.concat();
        let (&last, before) = run.split_last().unwrap();
        let (mut listener, used) = heard(&[before]);
        assert_eq!((used, listener.has_answered()), (before.len(), false));
        assert_eq!(listener.feed(&[last, 0xAA, 0xAA]), 1, "{run:02X?}");
        assert!(listener.has_answered());
        assert_eq!(refused(listener.close()), refusal, "{run:02X?}");
    }
}

#[test]
fn an_input_may_be_closed_at_any_time() {
    for length in 0..EXCHANGE.len() {
        let (mut listener, used) = heard(&[&EXCHANGE[..length]]);
        assert_eq!((used, listener.has_answered()), (length, false));
        assert_eq!(refused(listener.close()), (3, length));
        assert!(listener.has_answered());
        assert_eq!(listener.feed(&EXCHANGE[length..]), 0);
        assert_eq!(refused(listener.close()), (3, length));
    }
}

#[test]
fn short_buffers_leave_the_listener() {
    let (mut command, mut reply_1, mut reply_2) =
        ([FILL; COMMAND_ROOM], [FILL; REPLY_ROOM], [FILL; REPLY_ROOM]);
    let mut listener = Listener::default();
    for byte in EXCHANGE.chunks(1) {
        for (first, second, third) in [(21, 18, 18), (22, 17, 18), (22, 18, 17), (0, 0, 0)] {
            let closed = listener.close_into(
                &mut command[..first],
                &mut reply_1[..second],
                &mut reply_2[..third],
            );
            assert_eq!(refused(closed), (1, 0));
        }
        assert_eq!(listener.feed(byte), 1);
    }
    assert_eq!(command, [FILL; COMMAND_ROOM]);
    assert_eq!((reply_1, reply_2), ([FILL; REPLY_ROOM], [FILL; REPLY_ROOM]));
    let judged = listener.close_into(&mut command, &mut reply_1, &mut reply_2);
    assert_eq!(judged, Ok(ebus::judge(&EXCHANGE).unwrap().judged()));
    assert_eq!((&command[..7], &command[7..]), (COMMAND, &[FILL; 15][..]));
    assert_eq!((&reply_1[..3], &reply_1[3..]), (REPLY, &[FILL; 15][..]));
    assert_eq!(reply_2, [FILL; REPLY_ROOM]);
}

#[test]
fn short_buffers_come_before_a_refusal_that_is_held() {
    let (mut listener, used) = heard(&[&[0x12, 0x08]]);
    assert_eq!((used, listener.has_answered()), (1, true));
    let short = listener.close_into(&mut [0; 21], &mut [0; 18], &mut [0; 18]);
    assert_eq!(refused(short), (1, 0));
    assert_eq!(refused(listener.close()), (6, 0));
}

#[test]
fn an_answer_is_given_again() {
    let runs = [
        COMMAND,
        NACK,
        COMMAND,
        ACK,
        REPLY_WRONG,
        NACK,
        REPLY,
        ACK,
        SYN,
    ];
    let (mut listener, used) = heard(&runs);
    assert_eq!(used, runs.concat().len());
    let exchange = listener.close().unwrap();
    assert_eq!(exchange, ebus::judge(&runs.concat()).unwrap());
    assert_eq!(exchange.reply(1), Some(REPLY_WRONG));
    assert_eq!(exchange.reply(2), Some(REPLY));
    assert_eq!(listener.feed(&EXCHANGE), 0);
    assert_eq!(listener.close(), Ok(exchange));
}

#[test]
fn a_broadcast_behind_a_nacked_command() {
    let nacked = [COMMAND, NACK].concat();
    let broadcast = [0x10, 0xFE, 0xB5, 0x05, 0x01, 0x18, 0xA9];
    let within_escape = fed(&[(&nacked, 8), (&broadcast, 7)]);

    let mut listener = within_escape.clone();
    assert_eq!(listener.feed(&[0x01]), 1);
    assert!(!listener.has_answered());
    assert_eq!(refused(listener.clone().close()), (3, 16));
    assert_eq!(listener.feed(&[0xAA, 0x10]), 1);
    assert!(listener.has_answered());
    let exchange = listener.close().unwrap();
    assert_eq!(exchange.kind(), Kind::Broadcast);
    assert_eq!(exchange.command_attempts(), 2);
    assert_eq!(exchange.reply_attempts(), 0);
    assert_eq!(exchange.bytes_read(), 17);
    assert_eq!(
        exchange.command(),
        [0x10, 0xFE, 0xB5, 0x05, 0x01, 0x18, 0xAA]
    );

    for (byte, refusal) in [(0x00, (9, 14)), (0x55, (4, 15)), (0xAA, (5, 15))] {
        let mut listener = within_escape.clone();
        assert_eq!(listener.feed(&[byte]), 1);
        assert!(listener.has_answered());
        assert_eq!(listener.feed(&[0xAA, 0x10]), 0);
        assert_eq!(refused(listener.close()), refusal, "{byte:02X}");
    }
}

#[test]
fn a_wrong_check_byte_waits_for_its_acknowledge_byte() {
    let (mut command, mut reply_1, mut reply_2) =
        ([FILL; COMMAND_ROOM], [FILL; REPLY_ROOM], [FILL; REPLY_ROOM]);
    let mut listener = fed(&[(COMMAND_WRONG, 7), (&[], 0), (&[0x00, 0x01, 0x2A], 1)]);
    let short = listener.close_into(&mut command, &mut reply_1, &mut reply_2[..17]);
    assert_eq!(refused(short), (1, 0));
    let closed = listener.close_into(&mut command, &mut reply_1, &mut reply_2);
    assert_eq!(refused(closed), (9, 6));
    assert_eq!(command, [FILL; COMMAND_ROOM]);
    assert_eq!((reply_1, reply_2), ([FILL; REPLY_ROOM], [FILL; REPLY_ROOM]));
    assert_eq!(listener.feed(&[0x01, 0x2A]), 0);
    assert_eq!(refused(listener.close()), (9, 6));

    let mut listener = fed(&[(COMMAND_WRONG, 7), (&[], 0)]);
    assert_eq!(refused(listener.close()), (3, 7));
    assert_eq!(listener.feed(ACK), 0);
    assert_eq!(refused(listener.close()), (3, 7));
}

#[test]
fn a_reply_is_nacked_between_runs() {
    let first = [COMMAND, ACK, &[0x01, 0x2A, 0xB0]].concat();
    let second = [NACK, REPLY, ACK].concat();
    let mut listener = fed(&[(&first, 11), (&second, 5), (&[0xAA, 0xAA], 1)]);
    let exchange = listener.close().unwrap();
    assert_eq!(exchange.command_attempts(), 1);
    assert_eq!(exchange.reply_attempts(), 2);
    assert_eq!(exchange.bytes_read(), 17);
    assert_eq!(exchange.reply(1), Some(&[0x01, 0x2A, 0xB0][..]));
    assert_eq!(exchange.reply(2), Some(REPLY));

    let mut listener = fed(&[(&first, 11), (&[0xFF, 0xA9], 2), (&[0x00, 0xAA], 1)]);
    assert_eq!(refused(listener.close()), (8, 12));
    let twice = [NACK, REPLY, NACK, ACK].concat();
    let mut listener = fed(&[(&first, 11), (&twice, 5)]);
    assert_eq!(refused(listener.close()), (11, 15));
}

#[test]
fn wrong_bytes_at_the_start_of_a_command() {
    let cases: [(&[Used], Named); 9] = [
        (&[(&[0xA9], 1), (&[0x01], 1)], (6, 0)),
        (&[(&[0x02, 0xAA], 1)], (6, 0)),
        (&[(&[0xAA, 0x10, 0xAA], 3), (&[0x02, 0xAA], 1)], (6, 3)),
        (&[(&[0xA9], 1), (&[0x10, 0xAA], 1)], (4, 1)),
        (&[(&[0x10, 0xA9], 2), (&[0x00, 0x55], 1)], (7, 1)),
        (&[(&[0x10, 0x08], 2), (&[0xAA], 1)], (5, 2)),
        (&[(&[0x10, 0x08, 0xA9], 3), (&[0xAA], 1)], (5, 3)),
        (&[(COMMAND, 7), (NACK, 1), (&[0xAA, 0x10], 1)], (5, 8)),
        (&[(&[0x10, 0x08, 0xB5, 0x11, 0x11, 0x00], 5)], (8, 4)),
    ];
    for (runs, refusal) in cases {
        let mut listener = fed(runs);
        assert!(listener.has_answered());
        assert_eq!(refused(listener.close()), refusal, "{runs:02X?}");
    }
}

#[test]
fn idle_time_before_a_command_is_used_and_no_answer() {
    let cases: [&[Used]; 5] = [
        &[(&[0xAA], 1)],
        &[(&[0xAA, 0xAA], 2)],
        &[(&[0xA9], 1), (&[0xAA], 1)],
        &[(&[0x10, 0xA9], 2), (&[0xAA], 1)],
        &[(&[0x10], 1), (&[0xAA, 0x31, 0xAA], 3), (&[], 0)],
    ];
    for runs in cases {
        let mut listener = fed(runs);
        assert!(!listener.has_answered(), "{runs:02X?}");
        let used = runs.iter().map(|(_, used)| used).sum();
        assert_eq!(refused(listener.clone().close()), (3, used), "{runs:02X?}");
        assert_eq!(listener.feed(&EXCHANGE), EXCHANGE.len());
        let exchange = listener.close().unwrap();
        assert_eq!(
            (exchange.command(), exchange.data()),
            (COMMAND, &[0x2A][..])
        );
        assert_eq!(exchange.command_attempts(), 1);
        assert_eq!(exchange.bytes_read(), used + EXCHANGE.len());
    }
}

#[test]
fn a_clone_goes_on_by_itself() {
    let (mut listener, _) = heard(&[COMMAND]);
    let mut other = listener.clone();
    assert_eq!(listener.feed(&[0x55]), 1);
    assert_eq!(other.feed(&EXCHANGE[7..]), 6);
    assert_eq!(refused(listener.close()), (12, 7));
    assert_eq!(other.close(), ebus::judge(&EXCHANGE));
}

// ---- eBUS: states of listening made by hand ---------------------------------

/// So many bytes of a recording are used at most.
const MOST_USED: usize = 0x8000_0000;

/// A state that has heard nothing.
fn fresh() -> sys::Listening {
    // SAFETY: no pointer is handed over.
    unsafe { sys::moor_listen() }
}

/// A state of which one more byte is used. Before it was a command to 08, and
/// its number and place mean nothing, since it has not answered.
fn one_byte_left(due: u8) -> sys::Listening {
    let mut state = sys::Listening {
        start: MOST_USED - 1,
        place: 9,
        due,
        number: 7,
        command_attempts: 1,
        ..fresh()
    };
    state.kept[1] = 0x08;
    state
}

/// The state that a run makes of another, and how many of its bytes are used.
fn feed(state: sys::Listening, run: &[u8]) -> (sys::Listening, usize) {
    // SAFETY: the pointer comes with its length.
    let fed = unsafe { sys::moor_feed(state, run.as_ptr(), run.len()) };
    (fed.state, fed.used)
}

fn has_answered(state: sys::Listening) -> bool {
    // SAFETY: no pointer is handed over.
    unsafe { sys::moor_has_answered(state) }
}

/// Closes a state into buffers of which the second reply's has this length.
/// None of the three changes: no telegram is kept.
fn close_within(state: sys::Listening, room: usize) -> sys::Closed {
    let (mut command, mut reply_1, mut reply_2) =
        ([FILL; COMMAND_ROOM], [FILL; REPLY_ROOM], [FILL; REPLY_ROOM]);
    let lent = &mut reply_2[..room];
    // SAFETY: each pointer comes with its length, and the buffers lie apart.
    let closed = unsafe {
        sys::moor_close(
            state,
            command.as_mut_ptr(),
            command.len(),
            reply_1.as_mut_ptr(),
            reply_1.len(),
            lent.as_mut_ptr(),
            lent.len(),
        )
    };
    assert_eq!(command, [FILL; COMMAND_ROOM]);
    assert_eq!((reply_1, reply_2), ([FILL; REPLY_ROOM], [FILL; REPLY_ROOM]));
    closed
}

/// Closes a state into buffers with room enough. It has then answered, and
/// gives the same again.
fn close(state: sys::Listening) -> sys::Judged {
    let closed = close_within(state, REPLY_ROOM);
    assert!(has_answered(closed.state));
    assert_eq!(close_within(closed.state, REPLY_ROOM), closed);
    closed.judged
}

/// A refusal as the C interface has it.
fn refusal(number: u8, place: usize) -> sys::Judged {
    sys::Judged {
        number,
        kind: 0,
        command_attempts: 0,
        reply_attempts: 0,
        place,
        read: 0,
    }
}

#[test]
fn a_closing_that_is_too_short_gives_back_the_state() {
    let (state, used) = feed(fresh(), &[COMMAND_WRONG, ACK].concat());
    assert_eq!(used, 8);
    let short = close_within(state, REPLY_ROOM - 1);
    assert_eq!((short.judged, short.state), (refusal(1, 0), state));
    assert_eq!(close(state), refusal(9, 6));
}

#[test]
fn the_last_byte_that_is_used_decides() {
    let (state, used) = feed(one_byte_left(4), &[0xAA, 0xAA]);
    assert_eq!((used, has_answered(state)), (1, true));
    let accepted = sys::Judged {
        kind: sys::MOOR_INITIATOR_TARGET,
        command_attempts: 1,
        read: MOST_USED,
        ..refusal(0, 0)
    };
    assert_eq!(close(state), accepted);

    let (state, used) = feed(one_byte_left(4), &[0x55]);
    assert_eq!((used, has_answered(state)), (1, true));
    assert_eq!(close(state), refusal(12, MOST_USED - 1));
}

#[test]
fn nothing_is_used_behind_the_last_byte() {
    for run in [[0x10, 0x08], [0xAA, 0xAA]] {
        let (state, used) = feed(one_byte_left(0), &run);
        assert_eq!((used, has_answered(state)), (1, false));
        assert_eq!(feed(state, &run), (state, 0));
        assert_eq!(close(state), refusal(3, MOST_USED));
    }

    let state = sys::Listening {
        start: usize::MAX,
        ..fresh()
    };
    assert_eq!(feed(state, &EXCHANGE), (state, 0));
    assert_eq!(close(state), refusal(3, MOST_USED));
}

#[test]
fn at_most_46_bytes_are_in_hand() {
    let state = sys::Listening {
        due: 4,
        held: 0xFF,
        ..fresh()
    };
    let (state, used) = feed(state, SYN);
    assert_eq!((used, has_answered(state)), (1, true));
    let accepted = sys::Judged {
        kind: sys::MOOR_INITIATOR_INITIATOR,
        read: 47,
        ..refusal(0, 0)
    };
    assert_eq!(close(state), accepted);
}

/// A fresh state, but with these bytes in hand.
fn holding(hand: &[u8]) -> sys::Listening {
    let held = hand.len() as u8;
    let mut state = sys::Listening { held, ..fresh() };
    state.raw[..hand.len()].copy_from_slice(hand);
    state
}

#[test]
fn a_wrong_byte_in_hand_is_refused_by_the_next_byte() {
    let cases: [(&[u8], Named); 4] = [
        (&[0x02], (6, 0)),
        (&[0xAA], (5, 0)),
        (&[0xA9, 0xAA], (5, 1)),
        (&[0x10, 0xAA], (5, 1)),
    ];
    for (hand, (number, place)) in cases {
        let state = holding(hand);
        assert_eq!(close(state), refusal(3, hand.len()));
        for byte in [0x55, 0xAA] {
            let (state, used) = feed(state, &[byte]);
            assert_eq!((used, state.start), (1, hand.len() + 1));
            assert_eq!(close(state), refusal(number, place));
        }
    }
}

#[test]
fn syn_throws_away_what_is_in_hand() {
    for hand in [&[][..], &[0xA9], &[0x10], &[0x10, 0xA9]] {
        let (state, used) = feed(holding(hand), &[0xAA, 0x10]);
        assert_eq!((used, has_answered(state)), (2, false));
        assert_eq!((state.start, state.held), (hand.len() + 1, 1));
        assert_eq!(close(state), refusal(3, hand.len() + 2));
    }
}

// ---- Fast Modbus: frames ----------------------------------------------------

#[test]
fn requests_refused() {
    let cases: [(&[u8], Named); 9] = [
        (&[], (13, 0)),
        (&START[..4], (13, 0)),
        (&[0xFF, 0xFD, 0x46, 0x01, 0x13, 0x90], (14, 0)),
        (&[0xFC, 0x46, 0x01, 0x13, 0x90], (14, 0)),
        (&[0xFD, 0x47, 0x01, 0x13, 0x90], (14, 1)),
        (&[0xFD, 0x46, 0x03, 0x92, 0x51], (15, 2)),
        (&[0xFD, 0x46, 0x01, 0x13, 0x90, 0x00], (13, 0)),
        (&[0xFD, 0x46, 0x01, 0x14, 0x90], (16, 3)),
        (&[0xFD, 0x46, 0x01, 0x13, 0x91], (16, 3)),
    ];
    for (frame, refusal) in cases {
        assert_eq!(refused(modbus::read_request(frame)), refusal);
    }
}

/// Number and place of a frame behind so many FF: places count them, but for
/// that of 13, and more than 32 are refused at the 33rd before all else.
fn named_behind(fill: usize, (number, place): Named) -> Named {
    match number {
        _ if fill > 32 => (19, 32),
        13 => (13, 0),
        _ => (number, place + fill),
    }
}

#[test]
fn answers_refused() {
    let cases: [(&[u8], Named); 8] = [
        (&[], (13, 0)),
        (&[0xFE, 0x46, 0x04, 0xD3, 0x93], (14, 0)),
        (&[0xFD, 0x47, 0x04, 0xD3, 0x93], (14, 1)),
        (&START, (15, 2)),
        (&FOUND[..9], (13, 0)),
        (&[0xFD, 0x46, 0x04, 0xD3, 0x94], (16, 3)),
        (
            &[0xFD, 0x46, 0x03, 0x00, 0x01, 0xEB, 0x37, 0x0C, 0xCE, 0xDD],
            (16, 8),
        ),
        (
            &[0xFD, 0x46, 0x03, 0x10, 0x00, 0x00, 0x00, 0x01, 0xA9, 0x22],
            (17, 3),
        ),
    ];
    for (frame, refusal) in cases {
        for fill in [0, 1, 2, 31, 32, 33, 34, 1000] {
            let read = modbus::read_answer(&behind_fill(fill, frame));
            assert_eq!(refused(read), named_behind(fill, refusal), "{fill} FF");
        }
    }
}

#[test]
fn at_most_32_leading_ff_are_passed_over_and_counted() {
    assert_eq!(MOST_FILL, 32);
    let found = Answer::Found {
        serial: 0x0001EB37,
        address: 0x0C,
    };
    for fill in 0..=32 {
        let end = modbus::read_answer(&behind_fill(fill, &END));
        assert_eq!(end, answered(Answer::End, fill));
        let device = modbus::read_answer(&behind_fill(fill, &FOUND));
        assert_eq!(device, answered(found, fill));
    }
    for fill in [33, 34, 41, 1000] {
        for frame in [&END[..], &FOUND, &[]] {
            let read = modbus::read_answer(&behind_fill(fill, frame));
            assert_eq!(refused(read), (19, 32));
        }
    }
}

#[test]
fn writing_frames() {
    let mut out = [FILL; 10];
    assert_eq!(
        refused(modbus::write_request(Request::Start, &mut out[..4])),
        (1, 0)
    );
    assert_eq!(refused(modbus::write_end(&mut out[..4])), (1, 0));
    assert_eq!(refused(modbus::write_found(5, 1, &mut out[..9])), (1, 0));
    assert_eq!(
        refused(modbus::write_found(1 << 28, 1, &mut out[..9])),
        (17, 0)
    );
    assert_eq!(refused(modbus::write_found(u32::MAX, 1, &mut out)), (17, 0));
    assert_eq!(out, [FILL; 10]);
    for serial in [0, 5, 0x0FFFFFFF] {
        assert_eq!(modbus::write_found(serial, 0xA9, &mut out), Ok(10));
        let address = 0xA9;
        let found = Answer::Found { serial, address };
        assert_eq!(modbus::read_answer(&out), answered(found, 0));
    }
}

// ---- Devices ----------------------------------------------------------------

#[test]
fn tables_that_are_not_valid() {
    let serials: Vec<u32> = (0..=MOST_DEVICES as u32).collect();
    let (addresses, marks) = (vec![1; 248], vec![0; 248]);
    assert!(Table::new(&serials[..247], &addresses[..247], &marks[..247]).is_ok());
    let refusals = [
        refused(Table::new(&serials[..], &addresses[..], &marks[..])),
        refused(Table::new([5, 5], [1, 2], [0, 0])),
        refused(Table::new([1 << 28], [1], [0])),
        refused(Table::new([5], [1], [2])),
        refused(Table::new([5], [1], [])),
        refused(Table::new([5], [], [0])),
        refused(Table::new([], [1], [0])),
    ];
    assert_eq!(refusals, [(2, 0); 7]);
    assert!(Table::new([0x0FFFFFFF], [0xFF], [1]).is_ok());
}

#[test]
fn a_table_shows_its_columns() {
    let table = three([0, 1, 0]);
    assert_eq!((table.len(), table.is_empty()), (3, false));
    assert_eq!(table.serials(), [0x0001EB37, 5, 9]);
    assert_eq!(table.addresses(), [0x0C, 0x02, 0x03]);
    assert_eq!(table.marks(), [0, 1, 0]);
    let again = Table::unscanned(table.devices()).unwrap();
    assert_eq!(again, three([0, 0, 0]));
    assert!(Table::default().is_empty());
}

/// How many FF these bytes begin with.
fn leading_ff(bytes: &[u8]) -> usize {
    bytes.iter().take_while(|&&byte| byte == 0xFF).count()
}

#[test]
fn a_start_then_continues() {
    let mut table = three([1, 1, 1]);
    let mut replies = vec![table.start().unwrap()];
    replies.extend((0..4).map(|_| table.resume().unwrap()));
    let answers: Vec<_> = replies
        .iter()
        .map(|reply| modbus::read_answer(reply.bytes()))
        .collect();
    let found = |serial, address| Answer::Found { serial, address };
    // One FF for each zero bit of the winner's key; a scanned one has four
    // ones before its serial.
    let expected = [
        answered(found(5, 0x02), 30),
        answered(found(9, 0x03), 30),
        answered(found(0x0001EB37, 0x0C), 20),
        answered(Answer::End, 26),
        answered(Answer::End, 26),
    ];
    assert_eq!(answers, expected);
    let fill: Vec<usize> = replies
        .iter()
        .map(|reply| leading_ff(reply.bytes()))
        .collect();
    assert_eq!(fill, [30, 30, 20, 26, 26]);
    assert_eq!(table.marks(), [1, 1, 1]);
}

#[test]
fn offered_frames() {
    let mut table = three([1, 1, 1]);
    let mut called = table.clone();
    assert_eq!(table.offer(&CONTINUE), Ok(called.resume()));
    assert_eq!(table.offer(&START), Ok(called.start()));
    assert_eq!(table, called);
    assert_eq!(refused(table.offer(&END)), (15, 2));
    assert_eq!(refused(table.offer(&[])), (13, 0));
    assert_eq!(
        refused(table.offer(&[0xFD, 0x46, 0x02, 0x53, 0x90])),
        (16, 3)
    );
    assert_eq!(table, called);
    assert_eq!(Table::default().offer(&START), Ok(None));
    assert_eq!(Table::default().resume(), None);
}

#[test]
fn lent_columns_answer_as_the_table_does() {
    let mut table = three([0, 1, 0]);
    let mut marks = [0, 1, 0];
    let mut lent = Columns {
        serials: &[0x0001EB37, 5, 9],
        addresses: &[0x0C, 0x02, 0x03],
        marks: &mut marks,
    };
    let mut answer = [FILL; ANSWER_ROOM + 1];
    let length = lent.resume(&mut answer).unwrap();
    assert_eq!(&answer[..length], table.resume().unwrap().as_ref());
    assert!(answer[length..].iter().all(|&byte| byte == FILL));
    assert_eq!(lent.marks, table.marks());
    let length = lent.offer(&START, &mut answer).unwrap();
    assert_eq!(&answer[..length], table.start().unwrap().as_ref());
    assert_eq!(lent.marks, table.marks());
}

#[test]
fn lent_columns_refuse_short_answers_then_the_table_then_the_frame() {
    let mut marks = [2, 0];
    let mut lent = Columns {
        serials: &[5, 9],
        addresses: &[1, 2],
        marks: &mut marks,
    };
    let mut answer = [FILL; ANSWER_ROOM];
    for room in [0, 41] {
        assert_eq!(refused(lent.start(&mut answer[..room])), (1, 0));
        assert_eq!(refused(lent.resume(&mut answer[..room])), (1, 0));
        assert_eq!(refused(lent.offer(&[], &mut answer[..room])), (1, 0));
    }
    assert_eq!(refused(lent.start(&mut answer)), (2, 0));
    assert_eq!(refused(lent.resume(&mut answer)), (2, 0));
    assert_eq!(refused(lent.offer(&[], &mut answer)), (2, 0));
    assert_eq!(refused(lent.scan(&mut [0; 1], &mut [0; 2], 9)), (1, 0));
    assert_eq!(refused(lent.scan(&mut [0; 2], &mut [0; 1], 9)), (1, 0));
    assert_eq!(refused(lent.scan(&mut [0; 2], &mut [0; 2], 0)), (2, 0));
    assert_eq!(lent.marks, [2, 0]);
    lent.marks[0] = 0;
    assert_eq!(refused(lent.offer(&[], &mut answer)), (13, 0));
    assert_eq!((answer, marks), ([FILL; ANSWER_ROOM], [0, 0]));
}

#[test]
fn a_scan_keeps_entries_behind_those_heard() {
    let mut marks = [1, 1, 1];
    let mut lent = Columns {
        serials: &[7, 5, 9],
        addresses: &[0x0C, 0x02, 0x03],
        marks: &mut marks,
    };
    let (mut serials, mut addresses) = ([1000; 4], [FILL; 5]);
    let unfinished = |requests, found, skipped| Scanned {
        end: ScanEnd::Unfinished,
        requests,
        found,
        skipped,
    };
    let none = lent.scan(&mut serials, &mut addresses, 0);
    assert_eq!(none, Ok(unfinished(0, 0, 0)));
    assert_eq!((&*lent.marks, serials), (&[1, 1, 1][..], [1000; 4]));
    // 5 has 30 zero bits and 7 has 29.
    let two = lent.scan(&mut serials, &mut addresses, 2);
    assert_eq!(two, Ok(unfinished(2, 2, 59)));
    assert_eq!(lent.marks, [1, 1, 0]);
    assert_eq!(serials, [5, 7, 1000, 1000]);
    assert_eq!(addresses, [0x02, 0x0C, FILL, FILL, FILL]);
}

#[test]
fn a_scan_counts_the_ff_of_every_answer() {
    // 30 zero bits in 00000005 and in 00000009, 20 in 0001EB37, and 26 in
    // F0000005, whose device says the end.
    for (cap, skipped) in [(0, 0), (1, 30), (2, 60), (3, 80), (4, 106), (100, 106)] {
        for marks in [[0, 0, 0], [1, 0, 1], [1, 1, 1]] {
            assert_eq!(three(marks).scan(cap).skipped(), skipped, "cap {cap}");
        }
    }
    // The most that a device puts on the bus, and the fewest: 00000000 and
    // F0000000, 0FFFFFFF and FFFFFFFF.
    let alone = |serial| Table::new([serial], [1], [0]).unwrap();
    assert_eq!(alone(0).scan(100).skipped(), 32 + 28);
    assert_eq!(alone(0x0FFFFFFF).scan(100).skipped(), 4);
    for cap in [0, 1, 100] {
        assert_eq!(Table::default().scan(cap).skipped(), 0);
    }
}

#[test]
fn the_largest_table_is_scanned() {
    let devices = (0..MOST_DEVICES as u32).rev().map(|index| Device {
        serial: 0x0FFFFFFF - 1000 * index,
        address: index as u8,
    });
    let mut table = Table::unscanned(devices).unwrap();
    let scan = table.scan(usize::MAX);
    assert_eq!((scan.end(), scan.requests()), (ScanEnd::Complete, 248));
    // The end comes from the smallest serial, whose key has ones before it now.
    let zeros = table.serials().iter().map(|serial| serial.count_zeros());
    let end = (table.serials()[0] | 0xF0000000).count_zeros();
    assert_eq!(scan.skipped(), (zeros.sum::<u32>() + end) as usize);
    assert!(scan.heard().eq(table.devices()));
    assert!(table.marks().iter().all(|&mark| mark == 1));
}

#[test]
fn heard_is_an_iterator_of_exact_size() {
    let scan = three([0, 0, 0]).scan(100);
    let mut heard = scan.heard();
    assert_eq!((heard.len(), heard.size_hint()), (3, (3, Some(3))));
    let device = |serial, address| Some(Device { serial, address });
    assert_eq!(heard.next(), device(5, 0x02));
    assert_eq!((heard.len(), heard.clone().count()), (2, 2));
    assert_eq!(heard.next_back(), device(0x0001EB37, 0x0C));
    assert_eq!(heard.next(), device(9, 0x03));
    assert_eq!(
        (heard.next(), heard.next_back(), heard.len()),
        (None, None, 0)
    );
    let all: Vec<Device> = (&scan).into_iter().collect();
    assert_eq!(all.len(), 3);
}

#[test]
fn contests() {
    assert_eq!(contest(&[]), None);
    let decided = |key, dominant| Some(Decided { key, dominant });
    assert_eq!(contest(&[0]), decided(0, 32));
    assert_eq!(contest(&[u32::MAX]), decided(u32::MAX, 0));
    assert_eq!(contest(&[0xF001EB37, 0x0001EB37]), decided(0x0001EB37, 20));
    assert_eq!(contest(&[7; 300]), decided(7, 29));
}

// ---- Fast Modbus: event frames ----------------------------------------------

/// The bytes with their check behind them.
fn checked(bytes: &[u8]) -> Vec<u8> {
    [bytes, &modbus::check(bytes).to_le_bytes()].concat()
}

/// The packet in what must be one.
fn packet(input: &[u8]) -> events::Packet<'_> {
    match events::read_answer(input).map(|heard| heard.answer) {
        Ok(events::Answer::Packet(packet)) => packet,
        other => panic!("{input:02X?} is no packet: {other:02X?}"),
    }
}

#[test]
fn the_printed_event_frames() {
    let request = asking(0, 100, 0x0A, 1);
    assert_eq!(events::read_request(&EVENT_REQUEST), Ok(request));
    assert_eq!(request.frame(), EVENT_REQUEST);

    let read = packet(&PACKET);
    assert_eq!((read.sender(), read.flag(), read.queued()), (0x05, 1, 1));
    assert_eq!((read.len(), read.is_empty()), (1, false));
    assert_eq!(read.bytes(), &PACKET[6..12]);
    let change = Event {
        kind: 4,
        identifier: 0x01D0,
        data: &[0x04, 0x00],
    };
    assert!(read.events().eq([change]));

    assert_eq!(events::read_answer(&NO_EVENTS), nothing_back(0));
    let mut out = [FILL; 6];
    assert_eq!(events::write_no_events(&mut out), Ok(5));
    assert_eq!((&out[..5], out[5]), (&NO_EVENTS[..], FILL));
}

#[test]
fn event_requests_refused() {
    let longer = [&EVENT_REQUEST[..], &[0x00]].concat();
    let filled = [&[0xFF], &EVENT_REQUEST[..]].concat();
    let mut wrong = EVENT_REQUEST;
    wrong[8] ^= 0x01;
    let cases: [(&[u8], Named); 10] = [
        (&[], (13, 0)),
        (&EVENT_REQUEST[..4], (13, 0)),
        (&EVENT_REQUEST[..8], (13, 0)),
        (&longer, (13, 0)),
        (&filled, (14, 0)),
        (&[0xFD, 0x47, 0x10, 0x00, 0x00], (14, 1)),
        (&START, (15, 2)),
        (&NO_EVENTS, (15, 2)),
        (&[0xFD, 0x46, 0x11, 0x00, 0x00, 0x00], (15, 2)),
        (&wrong, (16, 7)),
    ];
    for (frame, refusal) in cases {
        assert_eq!(refused(events::read_request(frame)), refusal);
    }
    // The scan's readers go on refusing them.
    assert_eq!(refused(modbus::read_request(&EVENT_REQUEST)), (15, 2));
    assert_eq!(refused(modbus::read_answer(&NO_EVENTS)), (15, 2));
}

#[test]
fn what_comes_back_refused() {
    let longer = [&NO_EVENTS[..], &[0x00]].concat();
    let more_than_queued = checked(&[0x05, 0x46, 0x11, 0x01, 0x00, 0x04, 0x00, 0x0F, 0x00, 0x00]);
    let uneven = checked(&[0x05, 0x46, 0x11, 0x01, 0x01, 0x04, 0x01, 0x0F, 0x00, 0x00]);
    let mut wrong = PACKET;
    wrong[13] ^= 0x01;
    let cases: [(&[u8], Named); 15] = [
        (&[], (13, 0)),
        (&NO_EVENTS[..4], (13, 0)),
        (&longer, (13, 0)),
        (&PACKET[..5], (13, 0)),
        (&PACKET[..13], (13, 0)),
        (&more_than_queued, (13, 0)),
        (&uneven, (13, 0)),
        (&[0x00, 0x46, 0x11, 0x00, 0x00], (14, 0)),
        (&[0xF8, 0x46, 0x11, 0x00, 0x00], (14, 0)),
        (&[0xF7, 0x47, 0x11, 0x00, 0x00], (14, 1)),
        (&[0xF7, 0x46, 0x12, 0x00, 0x00], (15, 2)),
        (&[0xFD, 0x46, 0x11, 0x00, 0x00], (15, 2)),
        (&EVENT_REQUEST, (15, 2)),
        (&wrong, (16, 12)),
        (&[0xFD, 0x46, 0x12, 0x52, 0x5E], (16, 3)),
    ];
    for (frame, refusal) in cases {
        for fill in [0, 1, 3, 31, 32, 33, 34, 1000] {
            let input = behind_fill(fill, frame);
            let due = named_behind(fill, refusal);
            assert_eq!(refused(events::read_answer(&input)), due, "{input:02X?}");
        }
    }
}

#[test]
fn at_most_32_ff_before_what_comes_back() {
    for fill in 0..=32 {
        let nothing = behind_fill(fill, &NO_EVENTS);
        assert_eq!(events::read_answer(&nothing), nothing_back(fill));
        let input = behind_fill(fill, &PACKET);
        let heard = events::read_answer(&input).unwrap();
        let answer = events::Answer::Packet(packet(&PACKET));
        assert_eq!((heard.answer, heard.skipped), (answer, fill));
    }
    for fill in [33, 34, 41, 1000] {
        for frame in [&NO_EVENTS[..], &PACKET, &[]] {
            let input = behind_fill(fill, frame);
            assert_eq!(refused(events::read_answer(&input)), (19, 32));
        }
    }
}

#[test]
fn packets_are_reported_as_sent() {
    // No event at all, and 63 of them; any flag and any number queued.
    let none = checked(&[0xF7, 0x46, 0x11, 0xAA, 0x00, 0x00]);
    let read = packet(&none);
    assert_eq!((read.flag(), read.queued(), read.len()), (0xAA, 0, 0));
    assert!(read.is_empty() && read.events().next().is_none());
    let head = [0x01, 0x46, 0x11, 0x00, 0xFF, 252];
    let many = checked(&[&head[..], &[0; 252]].concat());
    let read = packet(&many);
    assert_eq!((read.queued(), read.len()), (0xFF, 63));
    let nothing = Event {
        kind: 0,
        identifier: 0,
        data: &[],
    };
    assert!(read.events().eq([nothing; 63]));
    // One event that fills a packet.
    let head = [0x01, 0x46, 0x11, 0x00, 0x01, 0xFF, 0xFB, 0x0F, 0x12, 0x34];
    let long = checked(&[&head[..], &[0x5A; 251]].concat());
    let event = packet(&long).events().next().unwrap();
    assert_eq!((event.kind, event.identifier), (0x0F, 0x1234));
    assert_eq!(event.data, [0x5A; 251]);
}

#[test]
fn events_of_a_packet_are_an_iterator_of_exact_size() {
    let input = checked(&[
        0x05, 0x46, 0x11, 0x00, 0x03, 0x0F, 0x00, 0x0F, 0x00, 0x00, 0x02, 0x03, 0x00, 0x07, 0xAB,
        0xCD, 0x01, 0x02, 0x00, 0x04, 0x01,
    ]);
    let read = packet(&input);
    let mut heard = read.events();
    assert_eq!((heard.len(), heard.size_hint()), (3, (3, Some(3))));
    assert_eq!(heard.next().map(|event| event.kind), Some(0x0F));
    assert_eq!((heard.len(), heard.clone().count()), (2, 2));
    let data: Vec<&[u8]> = heard.by_ref().map(|event| event.data).collect();
    assert_eq!(data, [&[0xAB, 0xCD][..], &[0x01]]);
    assert_eq!((heard.next(), heard.next(), heard.len()), (None, None, 0));
    assert_eq!((&read).into_iter().count(), 3);
}

#[test]
fn an_event_at_any_position() {
    let bytes = [0x00, 0x01, 0x02, 0x03, 0x02, 0x05, 0x06, 0x07, 0x08, 0x09];
    let event = |kind, identifier, from: usize, next| {
        let data = &bytes[from..next];
        let event = Event {
            kind,
            identifier,
            data,
        };
        Some((event, next))
    };
    assert_eq!(events::event_at(&bytes, 0), event(1, 0x0203, 4, 4));
    assert_eq!(events::event_at(&bytes, 1), event(2, 0x0302, 5, 6));
    assert_eq!(events::event_at(&bytes, 4), event(5, 0x0607, 8, 10));
    assert_eq!(events::event_at(&bytes[..9], 4), None);
    for at in [6, 7, 10, 11, usize::MAX] {
        assert_eq!(events::event_at(&bytes, at), None);
    }
    assert_eq!(events::event_at(&[], 0), None);
}

#[test]
fn writing_event_frames() {
    let mut out = [FILL; 10];
    let request = asking(1, 2, 3, 4);
    let short = events::write_request(request, &mut out[..REQUEST_FRAME - 1]);
    assert_eq!(refused(short), (1, 0));
    assert_eq!(refused(events::write_no_events(&mut out[..4])), (1, 0));
    assert_eq!(out, [FILL; 10]);
    assert_eq!(events::write_request(request, &mut out), Ok(REQUEST_FRAME));
    assert_eq!(out[..7], [0xFD, 0x46, 0x10, 1, 2, 3, 4]);
    assert_eq!(out[9], FILL);
    for byte in 0..=0xFF {
        let request = asking(byte, !byte, byte ^ 0x55, byte ^ 0xAA);
        assert_eq!(events::read_request(&request.frame()), Ok(request));
    }
}

// ---- Events: queues and polls -----------------------------------------------

fn asking(minimum: u8, most: u8, confirmed: u8, flag: u8) -> events::Request {
    events::Request {
        minimum,
        most,
        confirmed,
        flag,
    }
}

/// An event of input register 1 and so on.
fn change(identifier: u16, data: &[u8]) -> Event<'_> {
    Event {
        kind: 4,
        identifier,
        data,
    }
}

/// A table of devices with these ids.
fn devices(ids: &[u8]) -> Table {
    let device = |(&address, serial)| Device { serial, address };
    Table::unscanned(ids.iter().zip(1..).map(device)).unwrap()
}

/// Fresh queues, and what their polls give.
struct Polling {
    table: Table,
    queues: Queues,
}

impl Polling {
    fn of(ids: &[u8]) -> Polling {
        let table = devices(ids);
        let queues = Queues::fresh(&table).unwrap();
        Polling { table, queues }
    }

    fn add(&mut self, id: u8, urgent: bool, event: Event<'_>) -> Result<(), Refusal> {
        self.queues.add(&self.table, id, urgent, event)
    }

    /// What is sent, `None` for silence. The bytes on the bus are read back.
    fn sent(&mut self, request: events::Request) -> Option<Sent> {
        let mut offered = self.queues.clone();
        let reply = self.queues.poll(&self.table, request).unwrap();
        assert_eq!(offered.offer(&self.table, &request.frame()), Ok(reply));
        assert_eq!(offered, self.queues);
        let reply = reply?;
        let heard = events::read_answer(reply.bytes()).unwrap();
        assert_eq!(reply.skipped(), leading_ff(reply.bytes()));
        assert_eq!(heard.skipped, reply.skipped());
        match (reply.sent(), heard.answer) {
            (Sent::NoEvents { .. }, events::Answer::NoEvents) => {}
            (
                Sent::Packet {
                    sender,
                    flag,
                    events,
                },
                events::Answer::Packet(read),
            ) => {
                assert_eq!((read.sender(), read.flag()), (sender, flag));
                assert_eq!(read.len(), usize::from(events));
            }
            other => panic!("{other:02X?}"),
        }
        Some(reply.sent())
    }
}

fn sent(sender: u8, flag: u8, events: u8) -> Option<Sent> {
    Some(Sent::Packet {
        sender,
        flag,
        events,
    })
}

fn no_events(sender: u8) -> Option<Sent> {
    Some(Sent::NoEvents { sender })
}

#[test]
fn queues_that_are_not_valid() {
    let table = devices(&[1, 247]);
    let slots = [0; 2 * SLOTS_LENGTH];
    let none = [0, 0];
    assert!(Queues::new(&table, [0, 1], none, none, slots).is_ok());
    let mut urgent_2 = slots;
    urgent_2[SLOTS_LENGTH] = 2;
    let mut data_9 = slots;
    data_9[SLOTS_LENGTH + 7 * SLOT_LENGTH + 1] = 9;
    let refusals = [
        refused(Queues::fresh(&devices(&[1, 0]))),
        refused(Queues::fresh(&devices(&[1, 248]))),
        refused(Queues::fresh(&devices(&[7, 7]))),
        refused(Queues::new(&table, [0, 2], none, none, slots)),
        refused(Queues::new(&table, none, [0, 1], none, slots)),
        refused(Queues::new(&table, none, [0, 3], [0, 2], slots)),
        refused(Queues::new(&table, none, none, [0, 9], slots)),
        refused(Queues::new(&table, none, none, [0, 1], urgent_2)),
        refused(Queues::new(&table, none, none, [0, 8], data_9)),
        refused(Queues::new(&table, [0], none, none, slots)),
        refused(Queues::new(&table, none, [0; 3], none, slots)),
        refused(Queues::new(&table, none, none, [], slots)),
        refused(Queues::new(&table, none, none, none, &slots[1..])),
        refused(Queues::new(&table, none, none, none, [])),
    ];
    assert_eq!(refusals, [(2, 0); 14]);
    // Slots behind those queued are not looked at.
    assert!(Queues::new(&table, none, none, [8, 7], data_9).is_ok());
    assert!(Queues::new(&table, none, [8, 0], [8, 0], urgent_2).is_ok());
    assert!(Queues::fresh(&Table::default()).is_ok());
}

#[test]
fn new_events_stand_behind_those_queued() {
    let mut polling = Polling::of(&[9, 5]);
    let data = [1, 2, 3, 4, 5, 6, 7, 8];
    polling.add(5, false, change(0x01D0, &[4, 0])).unwrap();
    polling.add(5, true, change(0xFFFE, &data)).unwrap();
    let Polling { queues, .. } = polling;
    assert_eq!(
        (queues.counts(), queues.lasts()),
        (&[0, 2][..], &[0, 0][..])
    );
    let slots = queues.slots()[SLOTS_LENGTH..].chunks(SLOT_LENGTH);
    let slots: Vec<&[u8]> = slots.collect();
    assert_eq!(slots[0][..7], [0, 2, 4, 0x01, 0xD0, 4, 0]);
    assert_eq!(slots[1], [1, 8, 4, 0xFF, 0xFE, 1, 2, 3, 4, 5, 6, 7, 8]);
    assert!(queues.slots()[..SLOTS_LENGTH].iter().all(|&byte| byte == 0));
}

#[test]
fn new_events_refused() {
    let mut polling = Polling::of(&[9, 5]);
    for identifier in 0..MOST_QUEUED as u16 {
        polling
            .add(9, false, change(identifier, &[0; MOST_DATA]))
            .unwrap();
    }
    let before = polling.queues.clone();
    let nine = [0; MOST_DATA + 1];
    assert_eq!(refused(polling.add(9, false, change(8, &[]))), (18, 0));
    assert_eq!(refused(polling.add(9, false, change(8, &nine))), (13, 0));
    assert_eq!(refused(polling.add(5, false, change(8, &nine))), (13, 0));
    for id in [0, 4, 6, 248, 255] {
        assert_eq!(refused(polling.add(id, false, change(8, &[]))), (13, 0));
    }
    let other = devices(&[9]);
    let added = polling.queues.add(&other, 4, false, change(8, &nine));
    assert_eq!(refused(added), (2, 0));
    let polled = polling.queues.poll(&other, asking(0, 255, 0, 0));
    assert_eq!(refused(polled), (2, 0));
    assert_eq!(refused(polling.queues.offer(&other, &[])), (2, 0));
    assert_eq!(polling.queues, before);
}

#[test]
fn the_printed_packet_is_sent() {
    let table = devices(&[5]);
    let mut queues = Queues::new(&table, [1], [0], [0], [0; SLOTS_LENGTH]).unwrap();
    queues
        .add(&table, 5, false, change(0x01D0, &[4, 0]))
        .unwrap();
    let reply = queues.offer(&table, &EVENT_REQUEST).unwrap().unwrap();
    // The key 105 has nine zero bits.
    assert_eq!(reply.bytes(), [&[0xFF; 9], &PACKET[..]].concat());
    assert_eq!((reply.as_ref(), reply.skipped()), (reply.bytes(), 9));
    assert_eq!(Some(reply.sent()), sent(5, 1, 1));
    let reply = queues.poll(&table, asking(0, 0, 5, 1)).unwrap().unwrap();
    // The key F05 has six.
    assert_eq!(reply.bytes(), [&[0xFF; 6], &NO_EVENTS[..]].concat());
    assert_eq!(reply.skipped(), 6);
    assert_eq!(Some(reply.sent()), no_events(5));
}

#[test]
fn a_poll_counts_the_zero_bits_of_its_key() {
    let skipped = |polling: &mut Polling| {
        let polled = polling.queues.poll(&polling.table, asking(0, 4, 0, 0));
        polled.unwrap().expect("the device answers").skipped()
    };
    // Four bits are the marker, 15, then 1, then 0, and eight are the id.
    for (id, ones) in [(1, 1), (0x55, 4), (127, 7), (128, 1), (247, 7)] {
        let mut polling = Polling::of(&[id]);
        assert_eq!(skipped(&mut polling), 8 - ones);
        polling.add(id, false, change(1, &[])).unwrap();
        assert_eq!(skipped(&mut polling), 3 + 8 - ones);
        polling.add(id, true, change(2, &[])).unwrap();
        assert_eq!(skipped(&mut polling), 4 + 8 - ones);
    }
}

#[test]
fn urgent_events_then_others_then_none() {
    let mut polling = Polling::of(&[200, 3, 100]);
    assert_eq!(polling.sent(asking(0, 255, 0, 0)), no_events(3));
    polling.add(200, false, change(1, &[])).unwrap();
    assert_eq!(polling.sent(asking(0, 255, 0, 0)), sent(200, 0, 1));
    polling.add(100, false, change(1, &[])).unwrap();
    assert_eq!(polling.sent(asking(0, 255, 0, 0)), sent(100, 0, 1));
    polling.add(200, true, change(2, &[])).unwrap();
    assert_eq!(polling.sent(asking(0, 255, 0, 0)), sent(200, 0, 2));
    // The marker looks at the whole queue, also where only its oldest fits.
    assert_eq!(polling.sent(asking(0, 4, 0, 0)), sent(200, 0, 1));
    // Below the minimum, and above all.
    assert_eq!(polling.sent(asking(4, 255, 0, 0)), sent(200, 0, 2));
    assert_eq!(polling.sent(asking(201, 255, 0, 0)), None);
    assert_eq!(polling.queues.lasts(), [2, 0, 1]);
}

#[test]
fn as_many_of_the_oldest_as_fit() {
    let mut polling = Polling::of(&[6, 7]);
    for (identifier, size) in [(1, 0), (2, 8), (3, 0)] {
        let data = &[0x11; 8][..size];
        polling.add(6, false, change(identifier, data)).unwrap();
    }
    for (most, events) in [(4, 1), (15, 1), (16, 2), (19, 2), (20, 3), (255, 3)] {
        assert_eq!(polling.sent(asking(0, most, 0, 0)), sent(6, 0, events));
        assert_eq!(polling.queues.lasts(), [events, 0]);
    }
    // Who has nothing that fits sits out; if all do, there is silence.
    assert_eq!(polling.sent(asking(0, 3, 0, 0)), no_events(7));
    polling.add(7, true, change(4, &[1])).unwrap();
    assert_eq!(polling.sent(asking(0, 4, 0, 0)), sent(6, 0, 1));
    assert_eq!(polling.sent(asking(0, 3, 0, 0)), None);
    assert_eq!(polling.queues.lasts(), [1, 0]);
}

#[test]
fn a_confirmation_drops_a_packet_once() {
    let mut polling = Polling::of(&[6]);
    for identifier in 1..=3 {
        polling.add(6, false, change(identifier, &[])).unwrap();
    }
    // Nothing was sent, so that nothing is confirmed.
    assert_eq!(polling.sent(asking(0, 4, 6, 0)), sent(6, 0, 1));
    for (id, flag) in [(6, 1), (6, 2), (6, 255), (5, 0), (0, 0)] {
        assert_eq!(polling.sent(asking(0, 8, id, flag)), sent(6, 0, 2));
        assert_eq!(polling.queues.counts(), [3]);
    }
    assert_eq!(polling.sent(asking(0, 8, 6, 0)), sent(6, 1, 1));
    assert_eq!(polling.queues.slots()[..5], [0, 0, 4, 0, 3]);
    assert_eq!(polling.sent(asking(0, 8, 6, 0)), sent(6, 1, 1));
    assert_eq!(polling.queues.counts(), [1]);
    // It reaches a device below the minimum, and comes before silence.
    assert_eq!(polling.sent(asking(7, 8, 6, 1)), None);
    assert_eq!(polling.queues.counts(), [0]);
    assert_eq!(polling.queues.flags(), [0]);
    assert_eq!(polling.sent(asking(0, 8, 6, 0)), no_events(6));
    assert_eq!(polling.queues.flags(), [0]);
}

#[test]
fn room_freed_by_a_confirmation_is_used_again() {
    let mut polling = Polling::of(&[6]);
    for identifier in 0..8 {
        polling.add(6, false, change(identifier, &[])).unwrap();
    }
    assert_eq!(polling.sent(asking(0, 12, 0, 0)), sent(6, 0, 3));
    assert_eq!(refused(polling.add(6, false, change(8, &[]))), (18, 0));
    assert_eq!(polling.sent(asking(0, 12, 6, 0)), sent(6, 1, 3));
    for identifier in 8..11 {
        polling.add(6, false, change(identifier, &[])).unwrap();
    }
    assert_eq!(refused(polling.add(6, false, change(11, &[]))), (18, 0));
    let slots = polling.queues.slots().chunks(SLOT_LENGTH);
    let identifiers: Vec<u8> = slots.map(|slot| slot[4]).collect();
    assert_eq!(identifiers, [3, 4, 5, 6, 7, 8, 9, 10]);
}

#[test]
fn scans_and_polls_leave_each_other_alone() {
    let mut polling = Polling::of(&[6, 5]);
    polling.add(6, true, change(1, &[])).unwrap();
    let before = polling.queues.clone();
    assert_eq!(polling.table.scan(100).requests(), 3);
    assert_eq!(polling.queues, before);
    assert_eq!(polling.sent(asking(0, 4, 0, 0)), sent(6, 0, 1));
    assert_eq!(polling.table.marks(), [1, 1]);
}

#[test]
fn lent_queues_refuse_short_answers_then_the_table_then_the_frame() {
    let (mut flags, mut lasts, mut counts) = ([0, 2], [1, 0], [1, 0]);
    let mut slots = [0; 2 * SLOTS_LENGTH];
    let mut lent = events::Columns {
        serials: &[5, 9],
        addresses: &[1, 2],
        marks: &[0, 1],
        flags: &mut flags,
        lasts: &mut lasts,
        counts: &mut counts,
        slots: &mut slots,
    };
    let mut answer = [FILL; POLL_ROOM + 1];
    let confirming = asking(0, 100, 1, 0);
    for room in [0, POLL_ROOM - 1] {
        assert_eq!(refused(lent.poll(confirming, &mut answer[..room])), (1, 0));
        assert_eq!(refused(lent.offer(&[], &mut answer[..room])), (1, 0));
    }
    assert!(!lent.is_valid());
    assert_eq!(refused(lent.poll(confirming, &mut answer)), (2, 0));
    assert_eq!(refused(lent.offer(&[], &mut answer)), (2, 0));
    assert_eq!(refused(lent.add(7, true, change(1, &[0; 9]))), (2, 0));
    lent.flags[1] = 1;
    assert!(lent.is_valid());
    assert_eq!(refused(lent.offer(&[], &mut answer)), (13, 0));
    assert_eq!(refused(lent.offer(&START, &mut answer)), (15, 2));
    assert_eq!((&*lent.flags, &*lent.counts), (&[0, 1][..], &[1, 0][..]));
    assert_eq!(answer, [FILL; POLL_ROOM + 1]);
    // The key F01 has seven zero bits.
    let polled = Polled {
        sent: Sent::NoEvents { sender: 1 },
        length: 12,
        skipped: 7,
    };
    let answered = lent.poll(confirming, &mut answer[..POLL_ROOM]);
    assert_eq!(answered, Ok(Some(polled)));
    assert_eq!(answer[..12], [&[0xFF; 7], &NO_EVENTS[..]].concat());
    assert!(answer[12..].iter().all(|&byte| byte == FILL));
    assert_eq!((&*lent.flags, &*lent.counts), (&[1, 1][..], &[0, 0][..]));
    assert_eq!(lent.lasts, [0, 0]);
}

#[test]
fn the_most_devices_with_full_queues() {
    let ids: Vec<u8> = (1..=MOST_DEVICES as u8).rev().collect();
    let mut polling = Polling::of(&ids);
    for &id in &ids {
        for identifier in 0..8 {
            polling
                .add(id, false, change(identifier, &[id; 8]))
                .unwrap();
        }
    }
    assert_eq!(polling.sent(asking(0, 96, 0, 0)), sent(1, 0, 8));
    assert_eq!(polling.sent(asking(247, 95, 0, 0)), sent(247, 0, 7));
    // Each in turn, until nobody has events.
    for id in 1..247 {
        assert_eq!(polling.sent(asking(0, 96, id, 0)), sent(id + 1, 0, 8));
    }
    assert_eq!(polling.sent(asking(0, 96, 247, 0)), no_events(1));
}
