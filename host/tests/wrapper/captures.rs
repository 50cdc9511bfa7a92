//! Captures: every byte is idle time or of one exchange, and each exchange is
//! what `judge` says of its bytes.

use super::{Named, ACK, COMMAND, NACK, REPLY, REPLY_WRONG, SYN};
use moortinker::ebus::{exchanges, judge, write_command_to_vec, Command, Exchange};
use moortinker::{Reason, Refusal};

const BROADCAST: &[u8] = &[0x10, 0xFE, 0xB5, 0x11, 0x01, 0x01, 0x10, 0xAA];

/// Where an exchange starts, and how many bytes it read, or number and place of
/// its refusal.
type Answer = (usize, Result<usize, Named>);

fn walked(capture: &[u8]) -> Vec<Answer> {
    let short = |answer: Result<Exchange, Refusal>| match answer {
        Ok(exchange) => Ok(exchange.bytes_read()),
        Err(refusal) => Err((refusal.number(), refusal.place())),
    };
    exchanges(capture)
        .map(|(offset, answer)| (offset, short(answer)))
        .collect()
}

#[test]
fn no_exchange() {
    let idle: [&[u8]; 8] = [
        &[],
        &[0xAA],
        &[0xAA, 0xAA],
        &[0xA9, 0xAA],
        &[0x10, 0xAA],
        &[0x10, 0xA9, 0xAA],
        &[0xFF, 0xAA, 0xA9, 0xAA, 0x00, 0xA9, 0xAA, 0xAA],
        &[0xAA; 1000],
    ];
    for capture in idle {
        assert_eq!(walked(capture), [], "{capture:02X?}");
    }
}

#[test]
fn each_piece_of_idle_time_is_passed_over() {
    let pieces: [&[u8]; 4] = [&[0xAA], &[0xA9, 0xAA], &[0x31, 0xAA], &[0x31, 0xA9, 0xAA]];
    for one in pieces {
        for other in pieces {
            let before = one.len() + other.len();
            let capture = [one, other, BROADCAST, one].concat();
            assert_eq!(walked(&capture), [(before, Ok(8))], "{capture:02X?}");
        }
    }
}

#[test]
fn what_is_no_idle_time_is_an_exchange() {
    let cases: [(&[u8], Named); 8] = [
        (&[0x02, 0xAA], (6, 0)),       // no initiator
        (&[0xA9, 0x00, 0xAA], (6, 0)), // an escape that is whole
        (&[0xA9, 0x55, 0xAA], (4, 1)),
        (&[0x10, 0xA9, 0x01, 0xAA], (7, 1)),
        (&[0x10, 0x08, 0xAA], (5, 2)),
        (&[0x10, 0x31, 0xAA], (5, 2)), // two addresses
        (&[0x10], (3, 1)),             // no SYN behind it yet
        (&[0xAA, 0x10, 0xA9], (3, 2)),
    ];
    for (capture, refusal) in cases {
        let idle = usize::from(capture[0] == 0xAA);
        assert_eq!(walked(capture), [(idle, Err(refusal))], "{capture:02X?}");
    }
}

#[test]
fn what_stands_behind_a_refusal_belongs_to_no_exchange() {
    let refused: [(Vec<u8>, Named); 5] = [
        // The SYN decides itself.
        ([&[0x10, 0x08], SYN].concat(), (5, 2)),
        ([COMMAND, &[0x55], REPLY, ACK, SYN].concat(), (12, 7)),
        ([COMMAND, ACK, REPLY_WRONG, ACK, SYN].concat(), (9, 10)),
        (vec![0x10, 0xFE, 0xB5, 0x11, 0x01, 0x01, 0x11, 0xAA], (9, 6)),
        (
            [COMMAND, NACK, COMMAND, NACK, COMMAND, SYN].concat(),
            (10, 15),
        ),
    ];
    for (bytes, refusal) in refused {
        let capture = [SYN, BROADCAST, &bytes, BROADCAST].concat();
        let answers = [(1, Ok(8)), (9, Err(refusal)), (9 + bytes.len(), Ok(8))];
        assert_eq!(walked(&capture), answers, "{bytes:02X?}");
    }
}

#[test]
fn a_capture_may_end_anywhere() {
    let exchange = [COMMAND, ACK, REPLY, ACK, SYN].concat();
    for end in 1..exchange.len() {
        let capture = [SYN, SYN, &exchange[..end]].concat();
        assert_eq!(walked(&capture), [(2, Err((3, end)))]);
    }
    assert_eq!(walked(&exchange), [(0, Ok(exchange.len()))]);
}

#[test]
fn an_exchange_shows_the_parts_of_its_command() {
    let escaped = Command {
        source: 0x31,
        destination: 0x08,
        primary: 0xAA,
        secondary: 0xA9,
        data: &[0xAA, 0x2A],
    };
    let raw = write_command_to_vec(&escaped).unwrap();
    let exchange = judge(&[&raw, ACK, REPLY, ACK, SYN].concat()).unwrap();
    assert_eq!((exchange.source(), exchange.destination()), (0x31, 0x08));
    assert_eq!(exchange.service(), (0xAA, 0xA9));
    assert_eq!(exchange.command_data(), [0xAA, 0x2A]);
    let exchange = judge(&[0x10, 0xFE, 0xB5, 0x11, 0x00, 0x2F, 0xAA]).unwrap();
    assert_eq!((exchange.source(), exchange.destination()), (0x10, 0xFE));
    assert!(exchange.command_data().is_empty() && exchange.data().is_empty());
}

#[test]
fn exchanges_end_once_and_for_all() {
    let mut walk = exchanges(BROADCAST);
    assert!(walk.next().is_some());
    let mut again = walk.clone();
    for _ in 0..3 {
        assert!(walk.next().is_none() && again.next().is_none());
    }
}

/// The captures of up to seven bytes over the bytes that mean something to idle
/// time: SYN, the escape, an initiator, an address that is none, and 00, which is
/// both an initiator and an acknowledge byte.
fn short_captures() -> impl Iterator<Item = Vec<u8>> {
    const ALPHABET: [u8; 5] = [0xAA, 0xA9, 0x10, 0x02, 0x00];
    (0..=7u32).flat_map(|length| {
        (0..5usize.pow(length)).map(move |mut code| {
            let mut next = |_| {
                let byte = ALPHABET[code % 5];
                code /= 5;
                byte
            };
            (0..length).map(&mut next).collect()
        })
    })
}

#[test]
fn every_byte_is_of_one_exchange_or_passed_over() {
    for capture in short_captures() {
        let mut at = 0;
        for (offset, answer) in exchanges(&capture) {
            assert!(at <= offset && offset < capture.len(), "{capture:02X?}");
            assert_idle(&capture[at..offset], &capture);
            let syn = capture[offset..].iter().position(|&byte| byte == 0xAA);
            at = syn.map_or(capture.len(), |syn| offset + syn + 1);
            assert_eq!(answer, judge(&capture[offset..at]), "{capture:02X?}");
        }
        assert_idle(&capture[at..], &capture);
    }
}

/// What is passed over ends with SYN, and `judge` finds nothing in it.
fn assert_idle(passed: &[u8], capture: &[u8]) {
    let ended = Err(Refusal::new(Reason::RunEnded, passed.len()));
    assert_eq!(judge(passed), ended, "{capture:02X?}");
    assert!(matches!(passed.last(), None | Some(0xAA)), "{capture:02X?}");
}
