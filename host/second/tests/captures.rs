//! The next exchange of a capture, walks over whole captures, and what a report
//! counts. Offsets of the last two are those of the capture, places those of the
//! exchange.

use second::capture::{classify, next_exchange, report, walk, Belongs, Found, Report, Stretch};
use second::ebus::is_initiator;
use second::Refusal;

/// W7, a broadcast, and an exchange between two initiators.
const TARGET: &[u8] = &[
    0x10, 0x08, 0xB5, 0x11, 0x01, 0x01, 0x89, 0x00, 0x01, 0x2A, 0xB1, 0x00, 0xAA,
];
const BROADCAST: &[u8] = &[0x10, 0xFE, 0xB5, 0x11, 0x01, 0x01, 0x10, 0xAA];
const INITIATOR: &[u8] = &[0x10, 0x31, 0xB5, 0x11, 0x00, 0xBC, 0x00, 0xAA];

/// The pieces of idle time: SYN alone, behind an A9, behind a source, behind both.
const PIECES: [&[u8]; 4] = [&[0xAA], &[0xA9, 0xAA], &[0x71, 0xAA], &[0xFF, 0xA9, 0xAA]];

/// Start and end of the next exchange.
fn next(capture: &[u8], at: usize) -> (usize, usize) {
    let Stretch { start, end } = next_exchange(capture, at);
    (start, end)
}

/// Start, bytes through the deciding one, and number of each exchange; and how
/// many bytes are skipped.
fn walked(parts: &[&[u8]]) -> (Vec<(usize, usize, u8)>, usize) {
    let capture = parts.concat();
    assert_walk_and_belongings_agree(&capture);
    let told = |found: &Found| {
        let number = found.answer.map_or_else(|refusal| refusal.number, |_| 0);
        (found.start, found.decided - found.start, number)
    };
    let all = walk(&capture).iter().map(told).collect();
    (all, report(&capture).skipped)
}

/// Both tellings give each byte to the same: the exchanges that are found one
/// behind the other, and the listener that hears every byte.
fn assert_walk_and_belongings_agree(capture: &[u8]) {
    let mut told = vec![Belongs::Idle; capture.len()];
    for found in walk(capture) {
        told[found.start..found.decided].fill(Belongs::Exchange);
        told[found.decided..found.end].fill(Belongs::Rest);
        if let Ok(judged) = found.answer {
            assert_eq!(found.start + judged.read, found.end, "{capture:02X?}");
            assert_eq!(found.decided, found.end, "{capture:02X?}");
        }
    }
    assert_eq!(told, classify(capture), "{capture:02X?}");
}

#[test]
fn an_empty_capture() {
    assert_eq!(next(&[], 0), (0, 0));
    assert_eq!(next(&[], usize::MAX), (0, 0));
    assert_eq!(walked(&[]), (vec![], 0));
    assert_eq!(report(&[]), Report::default());
}

#[test]
fn idle_time_alone() {
    for piece in PIECES {
        for count in [1, 2, 30] {
            let idle = piece.repeat(count);
            assert_eq!(next(&idle, 0), (idle.len(), idle.len()));
            assert_eq!(walked(&[&idle]), (vec![], idle.len()));
        }
    }
    assert_eq!(walked(&PIECES), (vec![], 8));
}

#[test]
fn a_position_behind_the_capture() {
    for at in [13, 14, 1 << 31, 1 << 63, usize::MAX] {
        assert_eq!(next(TARGET, at), (13, 13));
    }
}

#[test]
fn an_exchange_behind_each_piece() {
    for piece in PIECES {
        let capture = [piece, TARGET].concat();
        let idle = piece.len();
        assert_eq!(next(&capture, 0), (idle, idle + 13));
        assert_eq!(walked(&[piece, TARGET]), (vec![(idle, 13, 0)], idle));
    }
    let capture = [&PIECES.concat()[..], TARGET].concat();
    assert_eq!(next(&capture, 0), (8, 21));
}

#[test]
fn a_position_in_the_middle() {
    // Behind S of S A9 AA the rest is idle time; within an exchange its rest is
    // looked at as if it began there.
    let capture = [&[0x71, 0xA9, 0xAA], TARGET].concat();
    for at in 0..=3 {
        assert_eq!(next(&capture, at), (3, 16));
    }
    assert_eq!(next(&capture, 4), (4, 16));
    assert_eq!(next(&capture, 13), (13, 16));
    // 00 AA at its end are then an initiator's address and SYN.
    assert_eq!(next(&capture, 14), (16, 16));
    assert_eq!(next(&capture, 15), (16, 16));
}

#[test]
fn a_wrong_source_before_syn_is_an_exchange() {
    assert_eq!(walked(&[&[0x02, 0xAA]]), (vec![(0, 1, 6)], 1));
    assert_eq!(
        walked(&[&[0xAA, 0x02, 0xA9, 0xAA], TARGET]),
        (vec![(1, 1, 6), (4, 13, 0)], 3)
    );
    // A9 00 and A9 01 are sources of two raw bytes.
    assert_eq!(walked(&[&[0xA9, 0x01, 0xAA]]), (vec![(0, 2, 6)], 1));
}

#[test]
fn near_pieces_are_exchanges() {
    assert_eq!(walked(&[&[0xA9, 0x10, 0xAA]]), (vec![(0, 2, 4)], 1));
    assert_eq!(walked(&[&[0xA9, 0xA9, 0xAA]]), (vec![(0, 2, 4)], 1));
    assert_eq!(walked(&[&[0x10, 0xA9, 0x00, 0xAA]]), (vec![(0, 3, 7)], 1));
    assert_eq!(walked(&[&[0x10, 0x10, 0xAA]]), (vec![(0, 3, 5)], 0));
}

#[test]
fn a_capture_that_ends_within_a_piece_or_an_exchange() {
    for begun in [&[0x10][..], &[0xA9], &[0x10, 0xA9]] {
        let length = begun.len();
        assert_eq!(next(begun, 0), (0, length));
        assert_eq!(walked(&[begun]), (vec![(0, length, 3)], 0));
        assert_eq!(walked(&[&[0xAA], begun]), (vec![(1, length, 3)], 1));
    }
    for length in 1..TARGET.len() {
        let all = (vec![(2, length, 3)], 2);
        assert_eq!(walked(&[&[0xAA; 2], &TARGET[..length]]), all);
    }
    // What was refused before the capture ends has no SYN behind it.
    assert_eq!(walked(&[&[0x02, 0x03, 0x04]]), (vec![(0, 1, 6)], 2));
}

#[test]
fn a_syn_too_early_decides_and_is_not_skipped() {
    assert_eq!(walked(&[&[0x10, 0x08, 0xAA]]), (vec![(0, 3, 5)], 0));
    for length in 2..12 {
        let early = [&TARGET[..length], &[0xAA]].concat();
        let all = (vec![(0, length + 1, 5), (length + 1, 13, 0)], 0);
        assert_eq!(walked(&[&early, TARGET]), all);
    }
    // That behind half an escape is so too.
    let early = [&TARGET[..3], &[0xA9, 0xAA]].concat();
    assert_eq!(walked(&[&early]), (vec![(0, 5, 5)], 0));
}

#[test]
fn a_wrong_check_byte_is_decided_by_what_acknowledges_it() {
    let mut wrong = TARGET.to_vec();
    wrong[6] ^= 1;
    // The place is that of the check byte, but the 00 behind it decides.
    let found = walk(&wrong)[0];
    assert_eq!(found.answer, Err(Refusal::at(9, 6)));
    assert_eq!(walked(&[&wrong]), (vec![(0, 8, 9)], 5));
    // Nobody acknowledges a broadcast, so that a 00 behind it is skipped.
    let wrong = [&BROADCAST[..6], &[0x11, 0x00, 0xAA]].concat();
    assert_eq!(walked(&[&wrong]), (vec![(0, 7, 9)], 2));
    let wrong = [&BROADCAST[..6], &[0xA9, 0x01, 0x00, 0xAA]].concat();
    assert_eq!(walked(&[&wrong]), (vec![(0, 8, 9)], 2));
}

#[test]
fn exchanges_with_nothing_between_them() {
    let all = (vec![(0, 13, 0), (13, 8, 0), (21, 8, 0), (29, 13, 0)], 0);
    assert_eq!(walked(&[TARGET, BROADCAST, INITIATOR, TARGET]), all);
}

#[test]
fn every_refusal_skips_through_syn() {
    let command = &TARGET[..7];
    for (bytes, used, number) in [
        (&[0x10, 0xA9, 0x02, 0x55, 0xAA][..], 3, 4),
        (&[0x02, 0x55, 0xAA], 1, 6),
        (&[0x10, 0xA9, 0x00, 0x55, 0xAA], 3, 7),
        (&[0x10, 0x08, 0xB5, 0x11, 0x11, 0x55, 0xAA], 5, 8),
        (
            &[command, &[0xFF], command, &[0xFF, 0x55, 0xAA]].concat(),
            16,
            10,
        ),
        (&[command, &[0x55, 0xA9, 0x01, 0xAA]].concat(), 8, 12),
    ] {
        let all = vec![(1, used, number), (1 + bytes.len(), 13, 0)];
        let skipped = 1 + bytes.len() - used;
        assert_eq!(walked(&[&[0xAA], bytes, TARGET]), (all, skipped));
    }
    let nacked = [&TARGET[..11], &[0xFF], &TARGET[8..11], &[0xFF, 0xAA]].concat();
    assert_eq!(
        walked(&[&nacked, TARGET]),
        (vec![(0, 16, 11), (17, 13, 0)], 1)
    );
}

#[test]
fn a_report_counts_each_kind_and_number() {
    let (command, reply) = (&TARGET[..7], &TARGET[8..11]);
    let capture = [
        &[0xAA, 0x31, 0xAA], // three idle bytes
        BROADCAST,
        TARGET,
        INITIATOR,
        &[0xA9, 0xAA],
        // Command and reply come twice.
        &[command, &[0xFF], command, &[0x00]].concat(),
        &[reply, &[0xFF], reply, &[0x00, 0xAA]].concat(),
        // A broadcast in place of a command that was NACKed.
        &[command, &[0xFF], BROADCAST].concat(),
        // Refused: a retry of these is not counted.
        &[command, &[0xFF], command, &[0xFF, 0xAA]].concat(),
        &[0x02, 0x55, 0xAA],
        &[0x04, 0xAA],
        &[0x10, 0x08],
    ]
    .concat();
    assert_walk_and_belongings_agree(&capture);
    let due = Report {
        exchanges: 9,
        broadcasts: 2,
        initiator_initiator: 1,
        initiator_target: 2,
        retries: 3,
        refused: [(3, 1), (6, 2), (10, 1)].into(),
        skipped: 3 + 2 + 1 + 2 + 1,
    };
    assert_eq!(report(&capture), due);
}

/// The header's words: pieces of idle time one behind the other, then all bytes
/// through SYN.
fn by_pieces(capture: &[u8], at: usize) -> (usize, usize) {
    let mut start = at.min(capture.len());
    loop {
        start += match capture[start..] {
            [0xAA, ..] => 1,
            [0xA9, 0xAA, ..] => 2,
            [source, 0xAA, ..] if is_initiator(source) => 2,
            [source, 0xA9, 0xAA, ..] if is_initiator(source) => 3,
            _ => break,
        }
    }
    let syn = capture[start..].iter().position(|&byte| byte == 0xAA);
    let end = syn.map_or(capture.len(), |syn| start + syn + 1);
    (start, end)
}

#[test]
fn every_short_capture_of_telling_bytes() {
    let telling = [0xAA, 0xA9, 0x00, 0x10, 0x02, 0xFE];
    for length in 0..=6 {
        for number in 0..telling.len().pow(length) {
            let digits = (0..length).map(|digit| number / telling.len().pow(digit));
            let byte = |digit| telling[digit % telling.len()];
            let capture: Vec<u8> = digits.map(byte).collect();
            assert_walk_and_belongings_agree(&capture);
            for at in 0..=capture.len() + 1 {
                let due = by_pieces(&capture, at);
                assert_eq!(next(&capture, at), due, "{capture:02X?} at {at}");
            }
        }
    }
}
