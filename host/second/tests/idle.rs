//! A recording that starts in idle time: SYN before the first command has two
//! logical bytes begins it afresh, for both judges and however it is cut.

use second::ebus::is_initiator;
use second::exchange::{judge, Judged};
use second::{Listener, Refusal};

/// The command and the reply of W7.
const COMMAND: &[u8] = &[0x10, 0x08, 0xB5, 0x11, 0x01, 0x01, 0x89];
const REPLY: &[u8] = &[0x01, 0x2A, 0xB1];
const BROADCAST: &[u8] = &[0x10, 0xFE, 0xB5, 0x11, 0x01, 0x01, 0x10];

/// What is thrown away: SYN alone, behind an A9, behind a source, behind both.
const IDLE: [&[u8]; 4] = [&[0xAA], &[0xA9, 0xAA], &[0x71, 0xAA], &[0xFF, 0xA9, 0xAA]];

type Buffers = ([u8; 22], [u8; 18], [u8; 18]);

/// The answer to a recording, on which the judge of the whole and the listener
/// agree for each cut into two; and the buffers.
fn judged(run: &[u8]) -> (Result<Judged, Refusal>, Buffers) {
    let mut buffers: Buffers = ([0x77; 22], [0x77; 18], [0x77; 18]);
    let kept = buffers;
    let answer = judge(run, &mut buffers.0, &mut buffers.1, &mut buffers.2);
    for cut in 0..=run.len() {
        let (mut listener, mut heard) = (Listener::new(), kept);
        let used = listener.feed(&run[..cut]) + listener.feed(&run[cut..]);
        assert!(used == run.len() || listener.has_answered(), "{run:02X?}");
        let closed = listener.close(&mut heard.0, &mut heard.1, &mut heard.2);
        assert_eq!(
            (closed, heard),
            (answer, buffers),
            "{run:02X?} cut at {cut}"
        );
    }
    (answer, buffers)
}

fn refused(parts: &[&[u8]], number: u8, place: usize) {
    let (answer, _) = judged(&parts.concat());
    assert_eq!(answer, Err(Refusal::at(number, place)), "{parts:02X?}");
}

/// Attempts at command and reply, and bytes read, of a recording that is
/// accepted.
fn accepted(parts: &[&[u8]]) -> (u8, u8, usize) {
    let judged = judged(&parts.concat()).0.unwrap();
    (judged.command_attempts, judged.reply_attempts, judged.read)
}

#[test]
fn idle_time_alone_ends_too_early() {
    refused(&[&[0xAA]], 3, 1);
    refused(&[&[0xAA, 0xAA]], 3, 2);
    refused(&[&[0xAA; 300]], 3, 300);
    refused(&IDLE, 3, 8);
    refused(&[&[0xA9, 0xAA]], 3, 2);
    refused(&[&[0xA9, 0xAA, 0xA9]], 3, 3);
    refused(&[&[0x10, 0xAA]], 3, 2);
    refused(&[&[0x10, 0xA9, 0xAA]], 3, 3);
    refused(&[&[0x10, 0xA9, 0xAA, 0x10]], 3, 4);
}

#[test]
fn a_wrong_source_comes_first() {
    refused(&[&[0x02, 0xAA]], 6, 0);
    refused(&[&[0x02, 0xA9, 0xAA]], 6, 0);
    refused(&[&[0xA9, 0x00, 0xAA]], 6, 0);
    refused(&[&[0xA9, 0x01, 0xAA]], 6, 0);
    refused(&[&[0xAA, 0x10, 0xAA, 0x02, 0xAA]], 6, 3);
}

#[test]
fn a_wrong_escape_comes_first() {
    refused(&[&[0xA9, 0x10]], 4, 1);
    refused(&[&[0xA9, 0x10, 0xAA]], 4, 1);
    refused(&[&[0xAA, 0xA9, 0xA9, 0xAA]], 4, 2);
    refused(&[&[0x10, 0xA9, 0x02, 0xAA]], 4, 2);
}

#[test]
fn two_logical_bytes_end_the_idle_time() {
    refused(&[&[0x10, 0x08, 0xAA]], 5, 2);
    refused(&[&[0x10, 0x08, 0xA9, 0xAA]], 5, 3);
    refused(&[&[0x10, 0x10, 0xAA]], 5, 2);
    refused(&[&[0x10, 0xFE, 0xAA]], 5, 2);
    refused(&[&[0xAA, 0x10, 0xA9, 0xAA, 0x10, 0x08, 0xAA, 0x10]], 5, 6);
    refused(&[&[0x10, 0xA9, 0x00, 0xAA]], 7, 1);
    refused(&[&[0xAA, 0x10, 0xA9, 0x01, 0xAA]], 7, 2);
    refused(&[&[0x10, 0xAA], COMMAND, &[0xAA]], 5, 9);
}

#[test]
fn only_the_first_command_may_begin_afresh() {
    for begun in [&[][..], &[0xA9], &[0x10], &[0x10, 0xA9]] {
        let place = 2 + COMMAND.len() + 1 + begun.len();
        refused(&[&[0xAA; 2], COMMAND, &[0xFF], begun, &[0xAA]], 5, place);
    }
    refused(&[&[0xAA; 2], COMMAND, &[0x00, 0xAA]], 5, 10);
    refused(&[&[0xAA; 2], COMMAND, &[0x00, 0xA9, 0xAA]], 5, 11);
    let nacked = [COMMAND, &[0x00], REPLY, &[0xFF, 0xAA]].concat();
    refused(&[&[0xAA; 2], &nacked], 5, 14);
}

#[test]
fn an_exchange_behind_idle_time() {
    let end: &[u8] = &[0x00, 0xAA];
    let exchange = [COMMAND, &[0x00], REPLY, end].concat();
    assert_eq!(accepted(&[&[0xAA; 5], &exchange]), (1, 1, 18));
    assert_eq!(
        accepted(&[&[0x10, 0xAA, 0x31, 0xAA], &exchange]),
        (1, 1, 17)
    );
    assert_eq!(accepted(&[&[0xA9, 0xAA], BROADCAST, &[0xAA]]), (1, 0, 10));
    assert_eq!(
        accepted(&[&[0x10, 0xA9, 0xAA], &exchange, &[0xAA]]),
        (1, 1, 16)
    );
}

#[test]
fn restarts_are_no_attempts() {
    let idle = [IDLE.concat(), vec![0xAA; 100], IDLE.concat()].concat();
    let wrong = [0x10, 0x08, 0xB5, 0x11, 0x01, 0x01, 0x88];
    let parts: [&[u8]; 8] = [
        &idle,
        &wrong,
        &[0xFF],
        COMMAND,
        &[0x00, 0x00, 0x55, 0xFF],
        REPLY,
        &[0x00],
        &[0xAA],
    ];
    assert_eq!(accepted(&parts), (2, 2, 116 + 24));
    let (_, buffers) = judged(&parts.concat());
    assert_eq!((&buffers.0[..7], buffers.0[7]), (COMMAND, 0x77));
    assert_eq!(buffers.1[..3], [0x00, 0x55, 0x77]);
    assert_eq!((&buffers.2[..3], buffers.2[3]), (REPLY, 0x77));
}

/// The answer to a recording is that to what is behind its idle time, with
/// places and bytes read counted from the start.
fn moved_by(idle: usize, run: &[u8]) {
    let (answer, buffers) = judged(&run[idle..]);
    let moved = match answer {
        Ok(judged) => Ok(Judged {
            read: judged.read + idle,
            ..judged
        }),
        Err(Refusal { number, place }) => Err(Refusal::at(number, place + idle)),
    };
    assert_eq!(judged(run), (moved, buffers), "{run:02X?}");
}

#[test]
fn idle_time_moves_places_and_nothing_else() {
    let exchange = [COMMAND, &[0x00], REPLY, &[0x00, 0xAA, 0x10]].concat();
    for at in 0..exchange.len() {
        for byte in [0x00, 0x01, 0x55, 0xA9, 0xAA, 0xFF] {
            let mut run = exchange.clone();
            run[at] = byte;
            for pieces in [&IDLE[..1], &IDLE[1..2], &IDLE[2..3], &IDLE] {
                let idle = pieces.concat();
                moved_by(idle.len(), &[&idle[..], &run].concat());
            }
        }
    }
}

/// How long the idle time at the start of a run is, taken piece by piece.
fn idle_length(run: &[u8]) -> usize {
    let piece = match *run {
        [0xAA, ..] => 1,
        [0xA9, 0xAA, ..] => 2,
        [source, 0xAA, ..] if is_initiator(source) => 2,
        [source, 0xA9, 0xAA, ..] if is_initiator(source) => 3,
        _ => return 0,
    };
    piece + idle_length(&run[piece..])
}

#[test]
fn every_short_run_of_telling_bytes() {
    let telling = [0xAA, 0xA9, 0x00, 0x10, 0x02, 0xFE];
    for number in 0..telling.len().pow(6) {
        let digits = (0..6).map(|digit| number / telling.len().pow(digit) % telling.len());
        let run: Vec<u8> = digits.map(|digit| telling[digit]).collect();
        let idle = idle_length(&run);
        moved_by(idle, &run);
        // No SYN but that behind two logical bytes is too early.
        if let (Err(Refusal { number: 5, place }), _) = judged(&run) {
            assert!(place >= idle + 2 && run[place] == 0xAA, "{run:02X?}");
        }
    }
}

#[test]
fn a_long_idle_time() {
    let mut run = vec![0xAA; 1 << 20];
    run.extend([COMMAND, &[0x00], REPLY, &[0x00, 0xAA]].concat());
    let (mut listener, mut buffers) = (Listener::new(), ([0; 22], [0; 18], [0; 18]));
    let answer = judge(&run, &mut buffers.0, &mut buffers.1, &mut buffers.2);
    assert_eq!(answer.unwrap().read, (1 << 20) + 13);
    assert_eq!(
        run.chunks(64)
            .map(|piece| listener.feed(piece))
            .sum::<usize>(),
        run.len()
    );
    let closed = listener.close(&mut buffers.0, &mut buffers.1, &mut buffers.2);
    assert_eq!(closed, answer);
}
