//! The rows W1 to W14 of the rules, run, and the frames that document 000
//! prints.

use second::checks::{ebus_check, modbus_check};
use second::devices::{scan, ScanEnd, Scanned};
use second::ebus::{expand, kind, Kind};
use second::exchange::{judge, reply_data, Judged, Part};
use second::frames::{
    read_answer, read_request, write_end, write_found, write_request, Answer, Request,
};
use second::Refusal;

/// W7's exchange.
const EXCHANGE: [u8; 13] = [
    0x10, 0x08, 0xB5, 0x11, 0x01, 0x01, 0x89, 0x00, 0x01, 0x2A, 0xB1, 0x00, 0xAA,
];

#[test]
fn w1_to_w4_check_bytes() {
    assert_eq!(ebus_check(&EXCHANGE[..6]), 0x89);
    assert_eq!(ebus_check(&[0xAA]), 0xEC);
    assert_eq!(ebus_check(&[0xA9]), 0xED);
    assert_eq!(ebus_check(&[]), 0x00);
}

#[test]
fn w5_escapes() {
    let mut out = [0x77; 6];
    assert_eq!(expand(&[0xA9, 0xAA], &mut out), Ok(4));
    assert_eq!(out, [0xA9, 0x00, 0xA9, 0x01, 0x77, 0x77]);
}

#[test]
fn w6_kinds() {
    assert_eq!(kind(0xFE), Kind::Broadcast);
    assert_eq!(kind(0x10), Kind::InitiatorInitiator);
    assert_eq!(kind(0x08), Kind::InitiatorTarget);
}

#[test]
fn w7_accepted_exchange() {
    let (mut command, mut reply_1, mut reply_2) = ([0x77; 22], [0x77; 18], [0x77; 18]);
    let judged = judge(&EXCHANGE, &mut command, &mut reply_1, &mut reply_2);
    let expected = Judged {
        kind: Kind::InitiatorTarget,
        command_attempts: 1,
        reply_attempts: 1,
        read: 13,
    };
    assert_eq!(judged, Ok(expected));
    assert_eq!(command[..7], EXCHANGE[..7]);
    assert_eq!(command[7..], [0x77; 15]);
    assert_eq!(reply_1[..3], [0x01, 0x2A, 0xB1]);
    assert_eq!(reply_1[3..], [0x77; 15]);
    assert_eq!(reply_2, [0x77; 18]);
    let part = reply_data(&reply_1, &reply_2, 1);
    let data = Part {
        attempt: 1,
        start: 1,
        length: 1,
    };
    assert_eq!(part, data);
    assert_eq!(reply_1[1..2], [0x2A]);
}

#[test]
fn w8_bus_error() {
    let mut run = EXCHANGE;
    run[7] = 0x55;
    let (mut command, mut reply_1, mut reply_2) = ([0x77; 22], [0x77; 18], [0x77; 18]);
    let judged = judge(&run, &mut command, &mut reply_1, &mut reply_2);
    assert_eq!(judged, Err(Refusal::at(12, 7)));
    assert_eq!(command, [0x77; 22]);
    assert_eq!(reply_1, [0x77; 18]);
    assert_eq!(reply_2, [0x77; 18]);
}

#[test]
fn w9_requests() {
    let frames = [
        (1, Request::Start, [0xFD, 0x46, 0x01, 0x13, 0x90]),
        (2, Request::Continue, [0xFD, 0x46, 0x02, 0x53, 0x91]),
    ];
    for (number, request, frame) in frames {
        let mut out = [0; 5];
        assert_eq!(write_request(number, &mut out), Ok(5));
        assert_eq!(out, frame);
        assert_eq!(read_request(&frame), Ok(request));
        assert_eq!(request as u8, number);
    }
}

#[test]
fn w10_end_of_scan() {
    let frame = [0xFD, 0x46, 0x04, 0xD3, 0x93];
    let mut out = [0; 5];
    assert_eq!(write_end(&mut out), Ok(5));
    assert_eq!(out, frame);
    assert_eq!(read_answer(&frame), Ok((0, Answer::End)));
}

#[test]
fn w11_device_found() {
    let frame = [0xFD, 0x46, 0x03, 0x00, 0x01, 0xEB, 0x37, 0x0C, 0xCE, 0xDC];
    let found = Answer::Found {
        serial: 0x0001_EB37,
        address: 0x0C,
    };
    let mut out = [0; 10];
    assert_eq!(write_found(0x0001_EB37, 0x0C, &mut out), Ok(10));
    assert_eq!(out, frame);
    assert_eq!(read_answer(&frame), Ok((0, found)));
}

/// Scans the three devices of W12 and W13: the answer, the serials listed with
/// one entry behind them, and the marks.
fn scan_three(cap: usize) -> (Result<Scanned, Refusal>, [u32; 4], [u8; 3]) {
    let (mut marks, mut serials, mut addresses) = ([1, 1, 1], [7; 4], [7; 4]);
    let scanned = scan(
        &[0x0001_EB37, 5, 9],
        &[0x0C, 0x0D, 0x0D],
        &mut marks,
        &mut serials,
        &mut addresses,
        cap,
    );
    let heard = [0x0D, 0x0D, 0x0C, 7];
    assert_eq!(addresses, heard);
    (scanned, serials, marks)
}

#[test]
fn w12_complete_scan() {
    let (scanned, serials, marks) = scan_three(4);
    let expected = Scanned {
        end: ScanEnd::Complete,
        requests: 4,
        found: 3,
        // The zeros of 5, 9 and 0001EB37, and of F0000005, which says the end.
        skipped: 30 + 30 + 20 + 26,
    };
    assert_eq!(scanned, Ok(expected));
    assert_eq!(serials, [5, 9, 0x0001_EB37, 7]);
    assert_eq!(marks, [1, 1, 1]);
}

#[test]
fn w13_unfinished_scan() {
    let (scanned, serials, marks) = scan_three(3);
    let expected = Scanned {
        end: ScanEnd::Unfinished,
        requests: 3,
        found: 3,
        skipped: 30 + 30 + 20,
    };
    assert_eq!(scanned, Ok(expected));
    assert_eq!(serials, [5, 9, 0x0001_EB37, 7]);
    assert_eq!(marks, [1, 1, 1]);
}

#[test]
fn w14_nobody() {
    let expected = Scanned {
        end: ScanEnd::Nobody,
        requests: 1,
        found: 0,
        skipped: 0,
    };
    let scanned = scan(&[], &[], &mut [], &mut [], &mut [], 1);
    assert_eq!(scanned, Ok(expected));
}

#[test]
fn printed_frames_of_document_000() {
    let fill = [0xFF; 9];
    let found = [0xFD, 0x46, 0x03, 0x00, 0x01, 0xEB, 0x37, 0x0C, 0xCE, 0xDC];
    let end = [0xFD, 0x46, 0x04, 0xD3, 0x93];
    assert_eq!(
        read_answer(&[&fill[..], &found[..]].concat()),
        Ok((
            9,
            Answer::Found {
                serial: 0x0001_EB37,
                address: 0x0C,
            }
        ))
    );
    assert_eq!(
        read_answer(&[&fill[..], &end[..]].concat()),
        Ok((9, Answer::End))
    );
    let by_serial = [
        0xFD, 0x46, 0x08, 0x00, 0x01, 0xEB, 0x37, 0x03, 0x00, 0xC8, 0x00, 0x14,
    ];
    assert_eq!(modbus_check(&by_serial).to_le_bytes(), [0x5B, 0x07]);
}
