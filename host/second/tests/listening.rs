//! The listener: however a recording is cut into runs, it answers as the judge
//! of the whole does; the byte that decides; and what a closing leaves.

use std::collections::BTreeSet;

use second::ebus::{write_command, write_reply};
use second::exchange::{judge, Judged};
use second::{Listener, Refusal};

const FILL: u8 = 0x77;

/// W7, and its parts.
const EXCHANGE: [u8; 13] = [
    0x10, 0x08, 0xB5, 0x11, 0x01, 0x01, 0x89, 0x00, 0x01, 0x2A, 0xB1, 0x00, 0xAA,
];
const COMMAND: &[u8] = &[0x10, 0x08, 0xB5, 0x11, 0x01, 0x01, 0x89];
const COMMAND_WRONG: &[u8] = &[0x10, 0x08, 0xB5, 0x11, 0x01, 0x01, 0x88];
const TO_INITIATOR: &[u8] = &[0x10, 0x03, 0xB5, 0x11, 0x01, 0x01, 0x3A];
const BROADCAST: &[u8] = &[0x10, 0xFE, 0xB5, 0x11, 0x01, 0x01, 0x10];
const BROADCAST_WRONG: &[u8] = &[0x10, 0xFE, 0xB5, 0x11, 0x01, 0x01, 0x11];
const REPLY: &[u8] = &[0x01, 0x2A, 0xB1];
const REPLY_WRONG: &[u8] = &[0x01, 0x2B, 0xB1];
const ACK: &[u8] = &[0x00];
const NACK: &[u8] = &[0xFF];
const SYN: &[u8] = &[0xAA];

/// An answer with the three buffers afterwards, which are larger than needed.
#[derive(Debug, PartialEq)]
struct Outcome {
    answer: Result<Judged, Refusal>,
    command: [u8; 24],
    reply_1: [u8; 20],
    reply_2: [u8; 20],
}

/// Lends fresh buffers.
fn lend(call: impl FnOnce(&mut [u8], &mut [u8], &mut [u8]) -> Result<Judged, Refusal>) -> Outcome {
    let (mut command, mut reply_1, mut reply_2) = ([FILL; 24], [FILL; 20], [FILL; 20]);
    let answer = call(&mut command, &mut reply_1, &mut reply_2);
    Outcome {
        answer,
        command,
        reply_1,
        reply_2,
    }
}

/// What the judge says of the whole.
fn whole(run: &[u8]) -> Outcome {
    lend(|command, reply_1, reply_2| judge(run, command, reply_1, reply_2))
}

fn close(listener: &mut Listener) -> Outcome {
    lend(|command, reply_1, reply_2| listener.close(command, reply_1, reply_2))
}

/// Closes with each buffer in turn one byte too short. The state must stay.
fn close_short(listener: &mut Listener) {
    let before = *listener;
    for rooms in [[21, 18, 18], [22, 17, 18], [22, 18, 17], [0; 3]] {
        let [mut command, mut reply_1, mut reply_2] = rooms.map(|room| vec![FILL; room]);
        let answer = listener.close(&mut command, &mut reply_1, &mut reply_2);
        assert_eq!(answer, Err(Refusal::whole(1)));
        assert_eq!(*listener, before);
        let kept = |buffer: &[u8]| buffer.iter().all(|&byte| byte == FILL);
        assert!(kept(&command) && kept(&reply_1) && kept(&reply_2));
    }
}

/// Feeds the pieces and gives how many bytes were used of all.
fn feed_all(listener: &mut Listener, pieces: &[&[u8]]) -> usize {
    let mut used = 0;
    for piece in pieces {
        let answered = listener.has_answered();
        let of_piece = listener.feed(piece);
        assert!(!answered || of_piece == 0);
        assert!(of_piece == piece.len() || listener.has_answered());
        used += of_piece;
    }
    used
}

/// Listens to the pieces and holds the answer to the judge of the whole, and
/// the bytes used to the place of the byte that decides.
fn same_as_whole(pieces: &[&[u8]], decided: usize) -> Outcome {
    let run = pieces.concat();
    let mut listener = Listener::new();
    assert_eq!(feed_all(&mut listener, pieces), decided.min(run.len()));
    let outcome = close(&mut listener);
    assert_eq!(outcome, whole(&run), "{pieces:02X?}");
    outcome
}

/// How many bytes of a recording decide its answer: every cut before them ends
/// too early.
fn deciding(run: &[u8]) -> usize {
    let ended = |length: usize| whole(&run[..length]).answer == Err(Refusal::at(3, length));
    let mut lengths = 0..=run.len();
    lengths.find(|&length| !ended(length)).unwrap_or(run.len())
}

/// A command and a reply with escapes in their data, each NACKed once with a
/// wrong check byte, and bytes behind SYN.
fn long_exchange() -> Vec<u8> {
    let (mut command, mut reply) = ([0; 41], [0; 35]);
    let data = [0xA9, 0xAA, 0x00, 0x01, 0xFF, 0xA9, 0x7F, 0xAA];
    let length = write_command(0x10, 0x08, 0xAA, 0xA9, &data, &mut command).unwrap();
    let command = &command[..length];
    let length = write_reply(&data, &mut reply).unwrap();
    let reply = &reply[..length];
    let wrong = |telegram: &[u8]| [&telegram[..telegram.len() - 1], &[0x55]].concat();
    [
        &wrong(command),
        NACK,
        command,
        ACK,
        &wrong(reply),
        NACK,
        reply,
        ACK,
        SYN,
        &[0xAA, 0xA9, 0x55],
    ]
    .concat()
}

#[test]
fn the_long_exchange_is_long_and_right() {
    let run = long_exchange();
    let judged = whole(&run).answer.unwrap();
    assert_eq!((judged.command_attempts, judged.reply_attempts), (2, 2));
    assert_eq!((judged.read, run.len()), (73, 76));
}

#[test]
fn every_prefix_is_answered_as_the_judge_answers_it() {
    let run = long_exchange();
    let decided = deciding(&run);
    assert_eq!(decided, run.len() - 3);
    for length in 0..=run.len() {
        let prefix = &run[..length];
        let at_once = same_as_whole(&[prefix], decided);
        let bytes: Vec<&[u8]> = prefix.chunks(1).collect();
        assert_eq!(same_as_whole(&bytes, decided), at_once);
        assert_eq!(at_once.answer.is_ok(), length >= decided);
    }
}

#[test]
fn every_pair_of_cuts_gives_the_answer_of_the_whole() {
    let run = long_exchange();
    let decided = deciding(&run);
    for second in 0..=run.len() {
        for first in 0..=second {
            let (start, end) = (&run[..first], &run[second..]);
            same_as_whole(&[start, &run[first..second], end], decided);
        }
    }
}

/// The splitmix64 generator.
struct Random(u64);

impl Random {
    fn draw(&mut self) -> u64 {
        self.0 = self.0.wrapping_add(0x9E37_79B9_7F4A_7C15);
        let mut mixed = self.0;
        mixed = (mixed ^ (mixed >> 30)).wrapping_mul(0xBF58_476D_1CE4_E5B9);
        mixed = (mixed ^ (mixed >> 27)).wrapping_mul(0x94D0_49BB_1331_11EB);
        mixed ^ (mixed >> 31)
    }

    fn below(&mut self, bound: usize) -> usize {
        (self.draw() % bound as u64) as usize
    }

    fn pick<T: Copy>(&mut self, from: &[T]) -> T {
        from[self.below(from.len())]
    }

    /// A byte that mostly means something on the bus.
    fn byte(&mut self) -> u8 {
        let any = self.draw() as u8;
        self.pick(&[0x00, 0x01, 0xFF, 0xA9, 0xAA, 0x10, 0x08, 0xFE, 0x55, any])
    }
}

/// An exchange, at times with a few bytes wrong, or any bytes; at times idle time
/// goes before it.
fn recording(random: &mut Random) -> Vec<u8> {
    let idle: [&[u8]; 5] = [SYN, &[0xA9, 0xAA], &[0x10, 0xAA], &[0xFF, 0xA9, 0xAA], &[]];
    let pieces = random.pick(&[0, 0, 1, 2, 20]);
    let mut run: Vec<u8> = (0..pieces)
        .flat_map(|_| random.pick(&idle))
        .copied()
        .collect();
    run.extend(behind_idle_time(random));
    run
}

fn behind_idle_time(random: &mut Random) -> Vec<u8> {
    let mut run = match random.below(6) {
        0 => return (0..random.below(30)).map(|_| random.byte()).collect(),
        1 | 2 => long_exchange(),
        _ => exchange(random),
    };
    for _ in 0..random.below(3) {
        damage(random, &mut run);
    }
    run
}

/// Attempts at a command and at a reply, right or not, and SYN.
fn exchange(random: &mut Random) -> Vec<u8> {
    let commands = [
        COMMAND,
        COMMAND_WRONG,
        TO_INITIATOR,
        BROADCAST,
        BROADCAST_WRONG,
    ];
    let mut run = Vec::new();
    while random.below(3) == 0 {
        run.extend(random.pick(&commands));
        run.extend(NACK);
    }
    run.extend(random.pick(&commands));
    run.extend(random.pick(&[ACK, ACK, &[]]));
    while random.below(2) == 0 {
        run.extend(random.pick(&[REPLY, REPLY_WRONG]));
        run.extend(random.pick(&[ACK, NACK]));
    }
    run.extend(SYN);
    run
}

/// Changes a byte, puts one in or leaves one out.
fn damage(random: &mut Random, run: &mut Vec<u8>) {
    let at = random.below(run.len());
    match random.below(3) {
        0 => run[at] = random.byte(),
        1 => run.insert(at, random.byte()),
        _ => drop(run.remove(at)),
    }
}

/// The recording in runs of 0 to 9 bytes.
fn pieces<'a>(random: &mut Random, mut run: &'a [u8]) -> Vec<&'a [u8]> {
    let mut pieces = Vec::new();
    while !run.is_empty() {
        let (piece, rest) = run.split_at(random.below(10).min(run.len()));
        pieces.push(piece);
        run = rest;
    }
    pieces
}

#[test]
fn random_cuts_of_random_recordings() {
    let mut random = Random(0x0EB5);
    let mut numbers = BTreeSet::new();
    for _ in 0..30_000 {
        let run = recording(&mut random);
        let pieces = pieces(&mut random, &run);
        let outcome = same_as_whole(&pieces, deciding(&run));
        numbers.insert(outcome.answer.map_or_else(|refusal| refusal.number, |_| 0));
    }
    let every: Vec<u8> = numbers.into_iter().collect();
    assert_eq!(every, [0, 3, 4, 5, 6, 7, 8, 9, 10, 11, 12]);
}

/// The answer to the parts, of which the very last byte decides: without it
/// the answer is not known, and bytes behind it are not used.
fn decided_by_last(parts: &[&[u8]]) -> Result<Judged, Refusal> {
    let run = parts.concat();
    let (&last, before) = run.split_last().unwrap();
    let mut listener = Listener::new();
    assert_eq!(listener.feed(before), before.len(), "{run:02X?}");
    assert!(!listener.has_answered(), "{run:02X?}");
    assert_eq!(listener.feed(&[last, 0xAA, 0x00]), 1, "{run:02X?}");
    assert!(listener.has_answered(), "{run:02X?}");
    let outcome = close(&mut listener);
    assert_eq!(outcome, whole(&run), "{run:02X?}");
    outcome.answer
}

fn refused_by_last(parts: &[&[u8]], number: u8, place: usize) {
    let refusal = Refusal::at(number, place);
    assert_eq!(decided_by_last(parts), Err(refusal), "{parts:02X?}");
}

#[test]
fn success_is_decided_by_syn() {
    assert!(decided_by_last(&[COMMAND, ACK, REPLY, ACK, SYN]).is_ok());
    assert!(decided_by_last(&[TO_INITIATOR, ACK, SYN]).is_ok());
    assert!(decided_by_last(&[BROADCAST, SYN]).is_ok());
}

#[test]
fn a_byte_that_may_not_stand_there_decides_itself() {
    refused_by_last(&[&[0xA9, 0x55]], 4, 1);
    refused_by_last(&[&[0x10, 0xA9, 0xA9]], 4, 2);
    refused_by_last(&[COMMAND, ACK, &[0x01, 0xA9, 0x02]], 4, 10);
    refused_by_last(&[&[0x10, 0x08], SYN], 5, 2);
    refused_by_last(&[&[0x10, 0x08, 0xA9], SYN], 5, 3);
    refused_by_last(&[COMMAND, NACK, SYN], 5, 8);
    refused_by_last(&[COMMAND, SYN], 5, 7);
    refused_by_last(&[COMMAND, ACK, SYN], 5, 8);
    refused_by_last(&[COMMAND, ACK, REPLY, SYN], 5, 11);
    refused_by_last(&[COMMAND, &[0x55]], 12, 7);
    refused_by_last(&[COMMAND, &[0xA9]], 12, 7);
    refused_by_last(&[COMMAND_WRONG, &[0x55]], 12, 7);
    refused_by_last(&[COMMAND, ACK, REPLY, &[0x01]], 12, 11);
    refused_by_last(&[COMMAND, ACK, REPLY, ACK, &[0x00]], 12, 12);
}

#[test]
fn the_second_nack_decides() {
    refused_by_last(&[COMMAND, NACK, COMMAND, NACK], 10, 15);
    refused_by_last(&[COMMAND_WRONG, NACK, COMMAND_WRONG, NACK], 10, 15);
    refused_by_last(&[COMMAND, ACK, REPLY, NACK, REPLY, NACK], 11, 15);
}

#[test]
fn source_destination_and_length_are_decided_by_their_last_raw_byte() {
    let head = &[0x10, 0x08, 0xB5, 0x11][..];
    refused_by_last(&[&[0x02]], 6, 0);
    refused_by_last(&[&[0xA9, 0x00]], 6, 0);
    refused_by_last(&[COMMAND, NACK, &[0xA9, 0x01]], 6, 8);
    refused_by_last(&[&[0x10, 0xA9, 0x00]], 7, 1);
    refused_by_last(&[&[0x10, 0xA9, 0x01]], 7, 1);
    refused_by_last(&[head, &[0x11]], 8, 4);
    refused_by_last(&[head, &[0xA9, 0x00]], 8, 4);
    refused_by_last(&[COMMAND, ACK, &[0x11]], 8, 8);
    refused_by_last(&[COMMAND, ACK, &[0xA9, 0x01]], 8, 8);
}

#[test]
fn a_wrong_check_byte_is_decided_by_its_acknowledge() {
    let escaped = &[0x10, 0x08, 0xB5, 0x11, 0x00, 0xA9, 0x01][..];
    refused_by_last(&[COMMAND_WRONG, ACK], 9, 6);
    refused_by_last(&[escaped, ACK], 9, 5);
    refused_by_last(&[COMMAND, ACK, REPLY_WRONG, ACK], 9, 10);
}

#[test]
fn a_wrong_check_byte_of_a_broadcast_is_decided_by_its_last_raw_byte() {
    refused_by_last(&[BROADCAST_WRONG], 9, 6);
    refused_by_last(&[&[0x10, 0xFE, 0xB5, 0x11, 0x00, 0xA9, 0x01]], 9, 5);
    refused_by_last(&[COMMAND, NACK, BROADCAST_WRONG], 9, 14);
}

#[test]
fn ending_too_early_is_answered_only_on_closing() {
    for length in 0..EXCHANGE.len() {
        let mut listener = Listener::new();
        assert_eq!(listener.feed(&EXCHANGE[..length]), length);
        assert!(!listener.has_answered());
        let ended = close(&mut listener);
        assert_eq!(ended.answer, Err(Refusal::at(3, length)));
        assert!(listener.has_answered());
        assert_eq!(listener.feed(&EXCHANGE[length..]), 0);
        assert_eq!(close(&mut listener), ended);
    }
}

#[test]
fn an_answer_stays() {
    let refused = [COMMAND, &[0x55]].concat();
    for run in [&EXCHANGE[..], &refused] {
        let mut listener = Listener::new();
        assert_eq!(listener.feed(run), run.len());
        let outcome = close(&mut listener);
        assert_eq!(outcome, whole(run));
        for more in [&[][..], &EXCHANGE, SYN] {
            assert_eq!(listener.feed(more), 0);
            assert!(listener.has_answered());
            assert_eq!(close(&mut listener), outcome);
        }
    }
}

#[test]
fn short_buffers_keep_the_state() {
    let run = long_exchange();
    let mut listener = Listener::new();
    for piece in run.chunks(1) {
        close_short(&mut listener);
        listener.feed(piece);
    }
    close_short(&mut listener);
    assert_eq!(close(&mut listener), whole(&run));
    close_short(&mut listener);
    assert_eq!(close(&mut listener), whole(&run));
}

#[test]
fn short_buffers_come_before_a_refusal_that_is_held() {
    for run in [&[0x02][..], &EXCHANGE[..3], &[]] {
        let mut listener = Listener::new();
        listener.feed(run);
        close_short(&mut listener);
        let outcome = close(&mut listener);
        assert_eq!(outcome, whole(run));
        close_short(&mut listener);
        assert_eq!(close(&mut listener), outcome);
    }
}

#[test]
fn an_empty_run_changes_nothing() {
    let mut listener = Listener::new();
    for piece in long_exchange().chunks(1) {
        let before = listener;
        assert_eq!(listener.feed(&[]), 0);
        assert_eq!(listener, before);
        listener.feed(piece);
    }
}

#[test]
fn a_nacked_command_is_nowhere_and_a_nacked_reply_stays() {
    let longer = &[0x31, 0x15, 0x01, 0x02, 0x03, 0x04, 0x05, 0x06, 0x77][..];
    let run = [
        longer,
        NACK,
        COMMAND,
        ACK,
        REPLY_WRONG,
        NACK,
        &[0x00, 0x00],
        ACK,
        SYN,
    ]
    .concat();
    let bytes: Vec<&[u8]> = run.chunks(1).collect();
    let outcome = same_as_whole(&bytes, run.len());
    assert!(outcome.answer.is_ok());
    assert_eq!((&outcome.command[..7], outcome.command[7]), (COMMAND, FILL));
    assert_eq!(
        (&outcome.reply_1[..3], outcome.reply_1[3]),
        (REPLY_WRONG, FILL)
    );
    assert_eq!(outcome.reply_2[..3], [0x00, 0x00, FILL]);
}

#[test]
fn the_second_command_may_be_a_broadcast() {
    let run = [COMMAND, NACK, BROADCAST, SYN].concat();
    let bytes: Vec<&[u8]> = run.chunks(1).collect();
    let judged = same_as_whole(&bytes, run.len()).answer.unwrap();
    assert_eq!((judged.command_attempts, judged.reply_attempts), (2, 0));
}
