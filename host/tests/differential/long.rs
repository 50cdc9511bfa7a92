//! Idle time of a million bytes, and of more than are read of a recording; and
//! captures that are longer than that.

use std::ffi::{c_char, c_int, c_uint};
use std::fs::File;
use std::io::Write;
use std::os::fd::{AsRawFd, FromRawFd};
use std::ptr;
use std::slice;

use moortinker::ebus::{judge, Exchange, Listener};
use moortinker::{sys, Refusal};

use crate::edges::EXCHANGE;
use crate::hearing::{MOST_USED, PROMISE};
use crate::lent::{mmap, MAP_PRIVATE, MAP_PRIVATE_ANONYMOUS, PROT_NONE, PROT_READ_WRITE};
use crate::session::{same_between, Function, Session};

/// So many bytes of memory hold a longer idle time.
const PIECE: usize = 1 << 24;

const MAP_FIXED: c_int = 0x10;

extern "C" {
    fn memfd_create(name: *const c_char, flags: c_uint) -> c_int;
}

/// The bytes read of W7 behind idle time, or number and place.
type Told = Result<usize, (u8, usize)>;

pub fn run_all(session: &mut Session) {
    let million = [&[0xAA; 1 << 20], &EXCHANGE[..]].concat();
    let read = Ok(million.len());
    judged(session, &million, read);
    for length in [64, 4096, million.len()] {
        heard(session, &million, length, read);
    }
    let longest = longer_than_is_read(0xAA);
    judged(session, longest, Err((3, MOST_USED)));
    // A capture may be longer.
    let end = longest.len();
    longest[end - EXCHANGE.len()..].copy_from_slice(&EXCHANGE);
    found(session, longest, 0, (end - EXCHANGE.len(), end));
    found(session, longer_than_is_read(0x55), 0, (0, end));
    // The exchange's SYN is the last byte that is used.
    let last = MOST_USED - EXCHANGE.len()..MOST_USED;
    longest[last].copy_from_slice(&EXCHANGE);
    heard(session, longest, longest.len(), Ok(MOST_USED));
    found(session, longest, MOST_USED, (end - EXCHANGE.len(), end));
}

/// Judges a recording at once.
fn judged(session: &mut Session, recording: &[u8], promised: Told) {
    let told = told(judge(recording));
    let compared = same_between(PROMISE, "answer", &told, &promised);
    settle(session, Function::Judge, recording, promised, compared);
}

/// Listens to a recording in runs of this length.
fn heard(session: &mut Session, recording: &[u8], length: usize, promised: Told) {
    let mut listener = Listener::new();
    let runs = recording.chunks(length);
    let used: usize = runs.map(|run| listener.feed(run)).sum();
    let told = (used, told(listener.close()));
    let read = promised.unwrap_or_else(|(_, place)| place);
    let compared = same_between(PROMISE, "use and answer", &told, &(read, promised));
    settle(session, Function::Close, recording, promised, compared);
}

/// Looks for an exchange from a position of a capture on.
fn found(session: &mut Session, capture: &[u8], at: usize, promised: (usize, usize)) {
    // SAFETY: the pointer comes with its length.
    let told = unsafe { sys::moor_next_exchange(capture.as_ptr(), capture.len(), at) };
    let compared = same_between(PROMISE, "answer", &(told.start, told.end), &promised);
    session.settle(Function::NextExchange, 0, compared, || {
        let length = capture.len();
        format!("{length} bytes that begin with {:02X}, at {at}", capture[0])
    });
}

fn settle(
    session: &mut Session,
    function: Function,
    recording: &[u8],
    promised: Told,
    compared: Result<(), String>,
) {
    let number = promised.map_or_else(|(number, _)| number, |_| 0);
    session.settle(function, number, compared, || {
        let length = recording.len();
        format!("{length} bytes of idle time, at times with W7 in it")
    });
}

fn told(answer: Result<Exchange, Refusal>) -> Told {
    let exchange = answer.map_err(|refusal| (refusal.number(), refusal.place()))?;
    assert_eq!(
        (exchange.command(), exchange.data()),
        (&EXCHANGE[..7], &[0x2A][..])
    );
    assert_eq!(
        (exchange.command_attempts(), exchange.reply_attempts()),
        (1, 1)
    );
    Ok(exchange.bytes_read())
}

/// This byte, and a little more of it than is read of any recording. All pieces
/// are the same memory until they are written to.
fn longer_than_is_read(byte: u8) -> &'static mut [u8] {
    let length = MOST_USED + PIECE;
    // SAFETY: the name ends with 0, and the file is this function's alone.
    let mut file = unsafe {
        let number = memfd_create(c"piece".as_ptr(), 0);
        assert_ne!(number, -1, "memfd_create refused");
        File::from_raw_fd(number)
    };
    file.write_all(&vec![byte; PIECE])
        .expect("room for a piece");
    // SAFETY: a fresh mapping touches nothing of the program. Every piece of it
    // is then mapped to the file, which has a piece's length; they stay until
    // the program ends, and nobody else has their addresses.
    unsafe {
        let (closed, anywhere) = (MAP_PRIVATE_ANONYMOUS, ptr::null_mut());
        let all = mmap(anywhere, length, PROT_NONE, closed, -1, 0);
        assert_ne!(all as isize, -1, "mmap refused");
        for at in (0..length).step_by(PIECE) {
            let (there, fixed) = (all.byte_add(at), MAP_PRIVATE | MAP_FIXED);
            let piece = mmap(there, PIECE, PROT_READ_WRITE, fixed, file.as_raw_fd(), 0);
            assert_eq!(piece, there, "mmap refused");
        }
        slice::from_raw_parts_mut(all.cast(), length)
    }
}
