//! Wrong versions of `moor_next_exchange`, each of which a run must notice.

use moortinker::sys;
use second::capture::next_exchange;
use second::ebus::is_initiator;

use crate::captures::{laid_out, Next};
use crate::lent::Lent;

/// Those that are wrong within a capture, by name.
pub const WRONG: &[(&str, Next)] = &[
    ("SYN is not included", without_syn),
    ("S AA is an exchange", source_as_exchange),
    ("A9 AA is an exchange", half_escape_as_exchange),
    ("S A9 AA is an exchange", both_as_exchange),
    ("any byte before SYN is idle time", any_source),
    ("at most 24 pieces are idle time", few_pieces),
    ("a piece that has begun is idle time", begun_piece),
    ("AA behind A9 ends no exchange", escaped_syn),
];

/// Wrong where the position is none of the capture.
pub fn position_kept(capture: &Lent<u8>, at: usize) -> sys::Stretch {
    match right(capture, at) {
        _ if at > capture.length() => sys::Stretch { start: at, end: at },
        found => found,
    }
}

pub fn right(capture: &Lent<u8>, at: usize) -> sys::Stretch {
    laid_out(next_exchange(capture.part(), at))
}

fn without_syn(capture: &Lent<u8>, at: usize) -> sys::Stretch {
    let mut found = right(capture, at);
    if capture.part()[found.start..found.end].ends_with(&[0xAA]) {
        found.end -= 1;
    }
    found
}

fn source_as_exchange(capture: &Lent<u8>, at: usize) -> sys::Stretch {
    by_pieces(capture, at, usize::MAX, |bytes| match bytes {
        [source, 0xAA, ..] if is_initiator(*source) => 0,
        _ => piece(bytes),
    })
}

fn half_escape_as_exchange(capture: &Lent<u8>, at: usize) -> sys::Stretch {
    by_pieces(capture, at, usize::MAX, |bytes| match bytes {
        [0xA9, 0xAA, ..] => 0,
        _ => piece(bytes),
    })
}

fn both_as_exchange(capture: &Lent<u8>, at: usize) -> sys::Stretch {
    by_pieces(capture, at, usize::MAX, |bytes| match bytes {
        [_, 0xA9, 0xAA, ..] => 0,
        _ => piece(bytes),
    })
}

fn any_source(capture: &Lent<u8>, at: usize) -> sys::Stretch {
    by_pieces(capture, at, usize::MAX, |bytes| match bytes {
        [0xAA, ..] => 1,
        [_, 0xAA, ..] => 2,
        _ => piece(bytes),
    })
}

fn few_pieces(capture: &Lent<u8>, at: usize) -> sys::Stretch {
    by_pieces(capture, at, 24, piece)
}

fn begun_piece(capture: &Lent<u8>, at: usize) -> sys::Stretch {
    by_pieces(capture, at, usize::MAX, |bytes| match bytes {
        [0xA9] => 1,
        [source] | [source, 0xA9] if is_initiator(*source) => bytes.len(),
        _ => piece(bytes),
    })
}

fn escaped_syn(capture: &Lent<u8>, at: usize) -> sys::Stretch {
    let mut found = right(capture, at);
    let bytes = capture.part();
    while bytes[found.start..found.end].ends_with(&[0xA9, 0xAA]) {
        let behind = bytes[found.end..].iter().position(|&byte| byte == 0xAA);
        found.end = behind.map_or(bytes.len(), |syn| found.end + syn + 1);
    }
    found
}

/// How long the piece of idle time is that these bytes begin with; 0 where there
/// is none.
fn piece(bytes: &[u8]) -> usize {
    match *bytes {
        [0xAA, ..] => 1,
        [0xA9, 0xAA, ..] => 2,
        [source, 0xAA, ..] if is_initiator(source) => 2,
        [source, 0xA9, 0xAA, ..] if is_initiator(source) => 3,
        _ => 0,
    }
}

/// The exchange behind so many pieces of idle time at most.
fn by_pieces(
    capture: &Lent<u8>,
    at: usize,
    most: usize,
    piece: impl Fn(&[u8]) -> usize,
) -> sys::Stretch {
    let bytes = capture.part();
    let mut start = at.min(bytes.len());
    for _ in 0..most {
        match piece(&bytes[start..]) {
            0 => break,
            length => start += length,
        }
    }
    let syn = bytes[start..].iter().position(|&byte| byte == 0xAA);
    let end = syn.map_or(bytes.len(), |syn| start + syn + 1);
    sys::Stretch { start, end }
}
