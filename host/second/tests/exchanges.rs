//! The judge at its edges: escapes in every field, acknowledge bytes, wrong
//! check bytes, both NACK paths, and the order of refusals.

use second::ebus::{check_right, write_command, write_reply, Kind};
use second::exchange::{judge, reply_data, Judged, Part};
use second::Refusal;

const FILL: u8 = 0x77;

/// What a run is judged to be, with the three buffers afterwards.
struct Outcome {
    judged: Result<Judged, Refusal>,
    command: [u8; 24],
    reply_1: [u8; 20],
    reply_2: [u8; 20],
}

/// Judges with buffers that are larger than needed. A refusal must leave them.
fn judged(run: &[u8]) -> Outcome {
    let (mut command, mut reply_1, mut reply_2) = ([FILL; 24], [FILL; 20], [FILL; 20]);
    let judged = judge(run, &mut command, &mut reply_1, &mut reply_2);
    if judged.is_err() {
        assert_eq!(command, [FILL; 24]);
        assert_eq!(reply_1, [FILL; 20]);
        assert_eq!(reply_2, [FILL; 20]);
    }
    Outcome {
        judged,
        command,
        reply_1,
        reply_2,
    }
}

fn refused(run: &[u8], number: u8, place: usize) {
    assert_eq!(
        judged(run).judged,
        Err(Refusal::at(number, place)),
        "{run:02X?}"
    );
}

fn accepted(run: &[u8], kind: Kind, command_attempts: u8, reply_attempts: u8) -> Outcome {
    let outcome = judged(run);
    let expected = Judged {
        kind,
        command_attempts,
        reply_attempts,
        read: run.len(),
    };
    assert_eq!(outcome.judged, Ok(expected), "{run:02X?}");
    outcome
}

/// A command on the wire from 10, with 07 04 and this data.
fn command_to(destination: u8, data: &[u8]) -> Vec<u8> {
    let mut out = [0; 41];
    let length = write_command(0x10, destination, 0x07, 0x04, data, &mut out).unwrap();
    out[..length].to_vec()
}

fn reply(data: &[u8]) -> Vec<u8> {
    let mut out = [0; 35];
    let length = write_reply(data, &mut out).unwrap();
    out[..length].to_vec()
}

/// The telegram with another check byte. Its last raw byte must be no part of
/// an escape.
fn broken(mut telegram: Vec<u8>) -> Vec<u8> {
    let last = telegram.last_mut().unwrap();
    *last ^= 0x10;
    assert!(!matches!(*last, 0xA9 | 0xAA));
    telegram
}

fn run(parts: &[&[u8]]) -> Vec<u8> {
    parts.concat()
}

#[test]
fn escapes_in_source() {
    refused(&[0xA9, 0x00, 0x08], 6, 0);
    refused(&[0xA9, 0x01, 0x08], 6, 0);
    refused(&[0xA9, 0x55], 4, 1);
    refused(&[0xA9, 0xA9], 4, 1);
    refused(&[0xA9], 3, 1);
    refused(&[0x08], 6, 0);
    refused(&[], 3, 0);
}

#[test]
fn escapes_in_destination() {
    refused(&[0x10, 0xA9, 0x00], 7, 1);
    refused(&[0x10, 0xA9, 0x01], 7, 1);
    refused(&[0x10, 0xA9, 0x55], 4, 2);
    refused(&[0x10, 0xA9], 3, 2);
    refused(&[0x10], 3, 1);
}

#[test]
fn escapes_in_length() {
    refused(&[0x10, 0x08, 0xB5, 0x11, 0xA9, 0x00], 8, 4);
    refused(&[0x10, 0x08, 0xB5, 0x11, 0xA9, 0x01], 8, 4);
    refused(&[0x10, 0x08, 0xB5, 0x11, 0xA9, 0x55], 4, 5);
    refused(&[0x10, 0x08, 0xB5, 0x11, 0xA9, 0xAA], 5, 5);
    refused(&[0x10, 0x08, 0xB5, 0x11, 0xA9], 3, 5);
    refused(&[0x10, 0x08, 0xB5, 0x11, 0xAA], 5, 4);
    let start = run(&[&command_to(0x08, &[]), &[0x00]]);
    refused(&run(&[&start, &[0xA9, 0x00]]), 8, start.len());
    refused(&run(&[&start, &[0xA9, 0x02]]), 4, start.len() + 1);
    refused(&run(&[&start, &[0xA9, 0xAA]]), 5, start.len() + 1);
}

#[test]
fn escapes_in_commands_and_data_move_later_places() {
    let shifted = [0x10, 0xFE, 0xA9, 0x00, 0xA9, 0x01, 0x11];
    refused(&shifted, 8, 6);
    let data = [0xA9; 16];
    let long = command_to(0xFE, &data);
    let outcome = accepted(&run(&[&long, &[0xAA]]), Kind::Broadcast, 1, 0);
    assert_eq!(outcome.command[5..21], data);
    assert!(check_right(&outcome.command[..22]));
    assert_eq!(outcome.command[22..], [FILL; 2]);
}

#[test]
fn acknowledge_byte_has_no_escape() {
    let command = command_to(0x08, &[1]);
    let at = command.len();
    refused(&run(&[&command, &[0xA9, 0x00]]), 12, at);
    refused(&run(&[&command, &[0xA9]]), 12, at);
    refused(&run(&[&command, &[0x55]]), 12, at);
    refused(&run(&[&command, &[0x01]]), 12, at);
    refused(&run(&[&command, &[0xAA]]), 5, at);
    refused(&command, 3, at);
    let start = run(&[&command, &[0x00], &reply(&[2])]);
    let at = start.len();
    refused(&run(&[&start, &[0xA9, 0x00]]), 12, at);
    refused(&run(&[&start, &[0x55]]), 12, at);
    refused(&run(&[&start, &[0xAA]]), 5, at);
    refused(&start, 3, at);
}

#[test]
fn wrong_check_byte_is_judged_at_the_acknowledge() {
    let command = broken(command_to(0x08, &[1]));
    let (check, at) = (command.len() - 1, command.len());
    refused(&run(&[&command, &[0x00]]), 9, check);
    refused(&run(&[&command, &[0x55]]), 12, at);
    refused(&run(&[&command, &[0xAA]]), 5, at);
    refused(&command, 3, at);
    let start = run(&[&command_to(0x08, &[1]), &[0x00]]);
    let reply = run(&[&start, &broken(reply(&[2]))]);
    let (check, at) = (reply.len() - 1, reply.len());
    refused(&run(&[&reply, &[0x00]]), 9, check);
    refused(&run(&[&reply, &[0x55]]), 12, at);
    refused(&run(&[&reply, &[0xAA]]), 5, at);
    refused(&reply, 3, at);
}

#[test]
fn wrong_check_byte_of_a_broadcast_is_judged_at_once() {
    let broadcast = broken(command_to(0xFE, &[1]));
    refused(&broadcast, 9, broadcast.len() - 1);
    refused(&run(&[&broadcast, &[0x55]]), 9, broadcast.len() - 1);
    // An escaped check byte is named by its A9.
    let escaped = [0x10, 0xFE, 0x07, 0x04, 0x00, 0xA9, 0x00];
    refused(&escaped, 9, 5);
}

#[test]
fn wrong_check_byte_followed_by_nack_only_repeats() {
    let command = command_to(0x08, &[1]);
    let good = reply(&[3, 4]);
    let whole = run(&[
        &broken(command.clone()),
        &[0xFF],
        &command,
        &[0x00],
        &broken(good.clone()),
        &[0xFF],
        &good,
        &[0x00, 0xAA],
    ]);
    let outcome = accepted(&whole, Kind::InitiatorTarget, 2, 2);
    assert_eq!(outcome.command[..7], command[..]);
    assert_eq!(outcome.reply_1[..4], broken(good.clone())[..]);
    assert_eq!(outcome.reply_1[4..], [FILL; 16]);
    assert_eq!(outcome.reply_2[..4], good[..]);
    assert_eq!(outcome.reply_2[4..], [FILL; 16]);
}

#[test]
fn right_attempts_may_be_nacked() {
    let command = command_to(0x08, &[1]);
    let other = command_to(0x15, &[2, 3]);
    let (first, second) = (reply(&[4]), reply(&[5, 6, 7]));
    let whole = run(&[
        &command,
        &[0xFF],
        &other,
        &[0x00],
        &first,
        &[0xFF],
        &second,
        &[0x00, 0xAA],
    ]);
    let outcome = accepted(&whole, Kind::InitiatorTarget, 2, 2);
    assert_eq!(outcome.command[..8], other[..]);
    let part = reply_data(&outcome.reply_1, &outcome.reply_2, 2);
    let data = Part {
        attempt: 2,
        start: 1,
        length: 3,
    };
    assert_eq!(part, data);
}

#[test]
fn second_nack_refuses_on_the_spot() {
    let command = command_to(0x08, &[1]);
    let twice = run(&[&command, &[0xFF], &command, &[0xFF]]);
    refused(&twice, 10, twice.len() - 1);
    refused(&run(&[&twice, &[0x00, 0xAA]]), 10, twice.len() - 1);
    let once = run(&[&command, &[0xFF], &command, &[0x00]]);
    let answer = reply(&[1]);
    let twice = run(&[&once, &answer, &[0xFF], &answer, &[0xFF]]);
    refused(&twice, 11, twice.len() - 1);
    refused(&run(&[&twice, &[0xAA]]), 11, twice.len() - 1);
}

#[test]
fn wrong_check_bytes_nacked_twice_are_nacks() {
    let command = broken(command_to(0x31, &[1]));
    let twice = run(&[&command, &[0xFF], &command, &[0xFF]]);
    refused(&twice, 10, twice.len() - 1);
}

#[test]
fn second_command_may_be_of_another_kind() {
    let target = command_to(0x08, &[1]);
    let initiator = command_to(0x31, &[1, 2]);
    let broadcast = command_to(0xFE, &[]);
    let whole = run(&[&target, &[0xFF], &initiator, &[0x00, 0xAA]]);
    let outcome = accepted(&whole, Kind::InitiatorInitiator, 2, 0);
    assert_eq!(outcome.command[..8], initiator[..]);
    assert_eq!(outcome.reply_1, [FILL; 20]);
    let answer = reply(&[9]);
    let whole = run(&[
        &initiator,
        &[0xFF],
        &target,
        &[0x00],
        &answer,
        &[0x00, 0xAA],
    ]);
    accepted(&whole, Kind::InitiatorTarget, 2, 1);
    let whole = run(&[&target, &[0xFF], &broadcast, &[0xAA]]);
    let outcome = accepted(&whole, Kind::Broadcast, 2, 0);
    assert_eq!(outcome.command[..6], broadcast[..]);
    assert_eq!(outcome.command[6..], [FILL; 18]);
}

#[test]
fn broadcast_second_attempt_is_judged_at_once() {
    let start = run(&[&command_to(0x08, &[1]), &[0xFF]]);
    let whole = run(&[&start, &broken(command_to(0xFE, &[]))]);
    refused(&whole, 9, whole.len() - 1);
    let whole = run(&[&start, &command_to(0xFE, &[]), &[0x00, 0xAA]]);
    refused(&whole, 12, whole.len() - 2);
    let whole = run(&[&start, &command_to(0xFE, &[])]);
    refused(&whole, 3, whole.len());
    refused(&run(&[&start, &[0x02]]), 6, start.len());
    refused(&run(&[&start, &[0x10, 0xA9, 0x00]]), 7, start.len() + 1);
}

#[test]
fn initiator_sends_no_reply() {
    let command = command_to(0x10, &[1]);
    let whole = run(&[&command, &[0x00, 0xAA]]);
    let outcome = accepted(&whole, Kind::InitiatorInitiator, 1, 0);
    assert_eq!(outcome.reply_1, [FILL; 20]);
    let whole = run(&[&command, &[0x00], &reply(&[1]), &[0x00, 0xAA]]);
    refused(&whole, 12, command.len() + 1);
}

#[test]
fn syn_is_due_at_the_end() {
    let whole = run(&[&command_to(0x08, &[]), &[0x00], &reply(&[]), &[0x00]]);
    refused(&whole, 3, whole.len());
    refused(&run(&[&whole, &[0xA9, 0x01]]), 12, whole.len());
    refused(&run(&[&whole, &[0x00]]), 12, whole.len());
    accepted(&run(&[&whole, &[0xAA]]), Kind::InitiatorTarget, 1, 1);
}

#[test]
fn bytes_behind_syn_are_not_looked_at() {
    let whole = run(&[&command_to(0xFE, &[1]), &[0xAA, 0xA9, 0x55, 0xAA]]);
    let read = whole.len() - 3;
    assert_eq!(judged(&whole).judged.map(|judged| judged.read), Ok(read));
}

#[test]
fn length_16_and_17() {
    let whole = run(&[
        &command_to(0x08, &[0xAA; 16]),
        &[0x00],
        &reply(&[0xA9; 16]),
        &[0x00, 0xAA],
    ]);
    let outcome = accepted(&whole, Kind::InitiatorTarget, 1, 1);
    assert_eq!(outcome.command[..5], [0x10, 0x08, 0x07, 0x04, 16]);
    assert_eq!(outcome.command[5..21], [0xAA; 16]);
    assert_eq!(outcome.reply_1[..17], [&[16][..], &[0xA9; 16]].concat());
    refused(&[0x10, 0x08, 0x07, 0x04, 17], 8, 4);
    let start = run(&[&command_to(0x08, &[]), &[0x00]]);
    refused(&run(&[&start, &[17]]), 8, start.len());
}

#[test]
fn a_cut_run_ends_at_its_length() {
    let whole = run(&[
        &command_to(0x08, &[0xAA, 1]),
        &[0xFF],
        &command_to(0x08, &[0xAA, 1]),
        &[0x00],
        &reply(&[0xA9]),
        &[0xFF],
        &reply(&[0xA9]),
        &[0x00, 0xAA],
    ]);
    for cut in 0..whole.len() {
        refused(&whole[..cut], 3, cut);
    }
    accepted(&whole, Kind::InitiatorTarget, 2, 2);
}

#[test]
fn short_buffers_come_first() {
    let whole = run(&[&command_to(0xFE, &[]), &[0xAA]]);
    for (command, reply_1, reply_2) in [(21, 18, 18), (22, 17, 18), (22, 18, 17), (0, 0, 0)] {
        for run in [&whole[..], &[], &[0x02]] {
            let (mut command, mut reply_1, mut reply_2) =
                (vec![0; command], vec![0; reply_1], vec![0; reply_2]);
            let judged = judge(run, &mut command, &mut reply_1, &mut reply_2);
            assert_eq!(judged, Err(Refusal::whole(1)));
        }
    }
    let judged = judge(&whole, &mut [0; 22], &mut [0; 18], &mut [0; 18]);
    assert!(judged.is_ok());
}

#[test]
fn source_may_be_its_own_destination_and_ff() {
    let mut out = [0; 41];
    let length = write_command(0xFF, 0xFF, 0xAA, 0xA9, &[], &mut out).unwrap();
    let whole = run(&[&out[..length], &[0x00, 0xAA]]);
    let outcome = accepted(&whole, Kind::InitiatorInitiator, 1, 0);
    assert_eq!(outcome.command[..5], [0xFF, 0xFF, 0xAA, 0xA9, 0x00]);
}

#[test]
fn reply_data_falls_back_to_the_empty_start_of_the_first() {
    let nothing = Part {
        attempt: 1,
        start: 0,
        length: 0,
    };
    let part = |attempt, length| Part {
        attempt,
        start: 1,
        length,
    };
    assert_eq!(reply_data(&[1, 5], &[2, 6, 7], 1), part(1, 1));
    assert_eq!(reply_data(&[1, 5], &[2, 6, 7], 2), part(2, 2));
    assert_eq!(reply_data(&[1, 5], &[0, 0], 2), part(2, 0));
    assert_eq!(reply_data(&[0], &[2, 6, 7], 1), part(1, 0));
    for attempt in [0, 3, 255] {
        assert_eq!(reply_data(&[1, 5], &[2, 6, 7], attempt), nothing);
    }
    assert_eq!(reply_data(&[], &[2, 6, 7], 1), nothing);
    assert_eq!(reply_data(&[1, 5], &[], 2), nothing);
    assert_eq!(reply_data(&[2, 5], &[], 1), nothing);
    assert_eq!(reply_data(&[1, 5], &[3, 6, 7], 2), nothing);
    assert_eq!(reply_data(&[16; 17], &[], 1), part(1, 16));
    assert_eq!(reply_data(&[16; 16], &[], 1), nothing);
    assert_eq!(reply_data(&[17; 40], &[], 1), nothing);
}
