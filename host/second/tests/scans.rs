//! Scan frames, the device table, arbitration and whole scans at their edges.

use second::devices::{contest, offer, resume, scan, start, table_valid};
use second::devices::{Decided, ScanEnd, Scanned};
use second::frames::{read_answer, read_request, write_end, write_found, write_request, Answer};
use second::Refusal;

const FOUND: [u8; 10] = [0xFD, 0x46, 0x03, 0x00, 0x01, 0xEB, 0x37, 0x0C, 0xCE, 0xDC];
const END: [u8; 5] = [0xFD, 0x46, 0x04, 0xD3, 0x93];
const START: [u8; 5] = [0xFD, 0x46, 0x01, 0x13, 0x90];
const CONTINUE: [u8; 5] = [0xFD, 0x46, 0x02, 0x53, 0x91];

fn refusal<T>(number: u8, place: usize) -> Result<T, Refusal> {
    Err(Refusal::at(number, place))
}

fn with_fill(fill: usize, frame: &[u8]) -> Vec<u8> {
    let mut input = vec![0xFF; fill];
    input.extend(frame);
    input
}

/// The frame with one byte changed.
fn changed(frame: &[u8], at: usize) -> Vec<u8> {
    let mut frame = frame.to_vec();
    frame[at] ^= 0x40;
    frame
}

#[test]
fn request_reader_places() {
    assert_eq!(read_request(&[]), refusal(13, 0));
    assert_eq!(read_request(&START[..4]), refusal(13, 0));
    assert_eq!(read_request(&changed(&START, 0)), refusal(14, 0));
    assert_eq!(read_request(&changed(&START, 1)), refusal(14, 1));
    assert_eq!(read_request(&changed(&START, 2)), refusal(15, 2));
    assert_eq!(read_request(&changed(&START, 3)), refusal(16, 3));
    assert_eq!(read_request(&changed(&START, 4)), refusal(16, 3));
    assert_eq!(read_request(&[&START[..], &[0]].concat()), refusal(13, 0));
    assert_eq!(read_request(&with_fill(1, &START)), refusal(14, 0));
    assert_eq!(read_request(&END), refusal(15, 2));
    assert_eq!(read_request(&FOUND), refusal(15, 2));
}

#[test]
fn answer_reader_counts_leading_ff_in_its_places() {
    for fill in [0, 1, 9, 31, 32] {
        let read = |frame: &[u8]| read_answer(&with_fill(fill, frame));
        assert_eq!(read(&END), Ok((fill, Answer::End)));
        assert_eq!(read(&[]), refusal(13, 0));
        assert_eq!(read(&END[..4]), refusal(13, 0));
        assert_eq!(read(&FOUND[..9]), refusal(13, 0));
        assert_eq!(read(&[&FOUND[..], &[0]].concat()), refusal(13, 0));
        assert_eq!(read(&[&END[..], &[0]].concat()), refusal(13, 0));
        assert_eq!(read(&changed(&FOUND, 0)), refusal(14, fill));
        assert_eq!(read(&changed(&FOUND, 1)), refusal(14, fill + 1));
        assert_eq!(read(&changed(&FOUND, 2)), refusal(15, fill + 2));
        assert_eq!(read(&START), refusal(15, fill + 2));
        assert_eq!(read(&changed(&FOUND, 5)), refusal(16, fill + 8));
        assert_eq!(read(&changed(&FOUND, 8)), refusal(16, fill + 8));
        assert_eq!(read(&changed(&FOUND, 9)), refusal(16, fill + 8));
        assert_eq!(read(&changed(&END, 4)), refusal(16, fill + 3));
    }
}

#[test]
fn serials_from_2_to_the_28_are_refused() {
    let mut out = [0; 10];
    assert_eq!(write_found(0x1000_0000, 1, &mut []), refusal(17, 0));
    assert_eq!(write_found(0x0FFF_FFFF, 0xFF, &mut out), Ok(10));
    let found = Answer::Found {
        serial: 0x0FFF_FFFF,
        address: 0xFF,
    };
    assert_eq!(read_answer(&out), Ok((0, found)));
    out[3] = 0x10;
    assert_eq!(read_answer(&out), refusal(16, 8));
    let check = second::checks::modbus_check(&out[..8]).to_le_bytes();
    out[8..].copy_from_slice(&check);
    assert_eq!(read_answer(&out), refusal(17, 3));
    assert_eq!(read_answer(&with_fill(2, &out)), refusal(17, 5));
}

#[test]
fn frame_writers_need_the_exact_length() {
    let mut out = [0x77; 11];
    assert_eq!(write_request(1, &mut out[..4]), refusal(1, 0));
    assert_eq!(write_request(3, &mut []), refusal(15, 0));
    assert_eq!(write_request(0, &mut out), refusal(15, 0));
    assert_eq!(write_found(5, 1, &mut out[..9]), refusal(1, 0));
    assert_eq!(write_end(&mut out[..4]), refusal(1, 0));
    assert_eq!(out, [0x77; 11]);
    assert_eq!(write_found(0x0001_EB37, 0x0C, &mut out), Ok(10));
    assert_eq!(out[..10], FOUND);
    assert_eq!(out[10], 0x77);
    assert_eq!(write_end(&mut out[..5]), Ok(5));
    assert_eq!(out[..5], END);
    assert_eq!(write_request(2, &mut out[..5]), Ok(5));
    assert_eq!(out[..5], CONTINUE);
}

#[test]
fn tables_at_their_edges() {
    let serials: Vec<u32> = (0..248).collect();
    let bytes = [0; 248];
    assert!(table_valid(&serials[..247], &bytes[..247], &bytes[..247]));
    assert!(!table_valid(&serials, &bytes, &bytes));
    assert!(table_valid(&[], &[], &[]));
    assert!(!table_valid(&[], &[1], &[]));
    assert!(!table_valid(&[], &[], &[0]));
    assert!(!table_valid(&[1], &[], &[]));
    assert!(table_valid(&[0x0FFF_FFFF, 0], &[7, 7], &[1, 0]));
    assert!(!table_valid(&[0x1000_0000, 0], &[7, 7], &[1, 0]));
    assert!(!table_valid(&[4, 5, 4], &[1, 2, 3], &[0, 0, 0]));
    assert!(!table_valid(&[4, 5], &[1, 2], &[0, 2]));
}

#[test]
fn contest_leaves_the_smallest_key() {
    let decided = |key: u32, dominant| Decided { key, dominant };
    assert_eq!(contest(&[]), decided(0, 0));
    assert_eq!(contest(&[0]), decided(0, 32));
    assert_eq!(contest(&[u32::MAX]), decided(u32::MAX, 0));
    assert_eq!(contest(&[7, 3, 3, 9]), decided(3, 30));
    let keys: Vec<u32> = (1..400u32)
        .map(|at| at.wrapping_mul(2_654_435_761))
        .collect();
    let smallest = *keys.iter().min().unwrap();
    let expected = decided(smallest, smallest.count_zeros() as usize);
    assert_eq!(contest(&keys), expected);
}

#[test]
fn fill_counts_of_0001eb37() {
    let (mut marks, mut answer) = ([1], [0x77; 43]);
    let length = start(&[0x0001_EB37], &[0x0C], &mut marks, &mut answer);
    assert_eq!(length, Ok(30));
    assert_eq!(marks, [1]);
    assert_eq!(answer[..30], with_fill(20, &FOUND));
    assert_eq!(answer[30..], [0x77; 13]);
    let mut answer = [0x77; 43];
    let length = resume(&[0x0001_EB37], &[0x0C], &mut marks, &mut answer);
    assert_eq!(length, Ok(21));
    assert_eq!(marks, [1]);
    assert_eq!(answer[..21], with_fill(16, &END));
    assert_eq!(answer[21..], [0x77; 22]);
}

#[test]
fn most_and_fewest_fill() {
    let mut answer = [0; 42];
    assert_eq!(start(&[0], &[1], &mut [0], &mut answer), Ok(42));
    assert_eq!(start(&[0x0FFF_FFFF], &[1], &mut [0], &mut answer), Ok(14));
    assert_eq!(resume(&[0x0FFF_FFFF], &[1], &mut [1], &mut answer), Ok(5));
    assert_eq!(answer[..5], END);
}

#[test]
fn only_the_winner_is_marked() {
    let serials = [30, 10, 20];
    let (mut marks, mut answer) = ([0, 0, 0], [0; 42]);
    let mut seen = Vec::new();
    for _ in 0..5 {
        resume(&serials, &[1, 2, 3], &mut marks, &mut answer).unwrap();
        seen.push(marks);
    }
    let all = [1, 1, 1];
    assert_eq!(seen, [[0, 1, 0], [0, 1, 1], all, all, all]);
    start(&serials, &[1, 2, 3], &mut marks, &mut answer).unwrap();
    assert_eq!(marks, [0, 1, 0]);
}

#[test]
fn answers_need_42_bytes_before_all_else() {
    let mut marks = [2];
    for room in [0, 41] {
        let mut answer = vec![0x77; room];
        assert_eq!(start(&[1], &[], &mut marks, &mut answer), refusal(1, 0));
        assert_eq!(resume(&[], &[], &mut [], &mut answer), refusal(1, 0));
        assert_eq!(offer(&[], &[], &[], &mut [], &mut answer), refusal(1, 0));
        assert!(answer.iter().all(|&byte| byte == 0x77));
    }
    let mut answer = [0x77; 42];
    assert_eq!(start(&[1], &[1], &mut marks, &mut answer), refusal(2, 0));
    assert_eq!(resume(&[1], &[1], &mut marks, &mut answer), refusal(2, 0));
    let bad = &START[..4];
    assert_eq!(
        offer(bad, &[1], &[1], &mut marks, &mut answer),
        refusal(2, 0)
    );
    assert_eq!(marks, [2]);
    assert_eq!(answer, [0x77; 42]);
    assert_eq!(start(&[], &[], &mut [], &mut answer), Ok(0));
    assert_eq!(start(&[], &[1], &mut [], &mut answer), refusal(2, 0));
    assert_eq!(answer, [0x77; 42]);
}

#[test]
fn offered_frames_are_the_request_that_they_name() {
    let (mut marks, mut answer) = ([1, 1], [0x77; 42]);
    for (frame, number, place) in [
        (with_fill(1, &START), 14, 0),
        (changed(&START, 1), 14, 1),
        (END.to_vec(), 15, 2),
        (changed(&CONTINUE, 4), 16, 3),
        (START[..4].to_vec(), 13, 0),
    ] {
        let offered = offer(&frame, &[5, 4], &[1, 2], &mut marks, &mut answer);
        assert_eq!(offered, refusal(number, place));
        assert_eq!(marks, [1, 1]);
        assert_eq!(answer, [0x77; 42]);
    }
    let offered = offer(&CONTINUE, &[5, 4], &[1, 2], &mut marks, &mut answer);
    assert_eq!(offered, Ok(27 + 5));
    assert_eq!(marks, [1, 1]);
    let offered = offer(&START, &[5, 4], &[1, 2], &mut marks, &mut answer);
    assert_eq!(offered, Ok(31 + 10));
    assert_eq!(marks, [0, 1]);
}

#[test]
fn cap_0_sends_nothing() {
    let unfinished = Scanned {
        end: ScanEnd::Unfinished,
        requests: 0,
        found: 0,
        skipped: 0,
    };
    let (mut marks, mut serials, mut addresses) = ([1, 0], [7, 7], [7, 7]);
    let scanned = scan(
        &[3, 4],
        &[1, 2],
        &mut marks,
        &mut serials,
        &mut addresses,
        0,
    );
    assert_eq!(scanned, Ok(unfinished));
    assert_eq!((marks, serials, addresses), ([1, 0], [7, 7], [7, 7]));
    assert_eq!(scan(&[], &[], &mut [], &mut [], &mut [], 0), Ok(unfinished));
}

#[test]
fn scan_refuses_short_lists_first() {
    let mut marks = [1, 0];
    for (serials, addresses, number) in [(1, 2, 1), (2, 1, 1), (2, 2, 2), (3, 5, 2)] {
        let (mut serials, mut addresses) = (vec![7; serials], vec![7; addresses]);
        let scanned = scan(
            &[3, 3],
            &[1, 2],
            &mut marks,
            &mut serials,
            &mut addresses,
            0,
        );
        assert_eq!(scanned, refusal(number, 0));
        assert!(serials.iter().all(|&serial| serial == 7));
        assert!(addresses.iter().all(|&address| address == 7));
        assert_eq!(marks, [1, 0]);
    }
    // The room is counted by the serial column, also where another is longer.
    let scanned = scan(&[3], &[1, 2], &mut marks, &mut [7], &mut [7], 9);
    assert_eq!(scanned, refusal(2, 0));
}

/// The serials from 0 on in steps that visit each of them once, out of order.
fn shuffled(count: u32) -> Vec<u32> {
    (0..count).map(|at| (at * 100) % count * 3).collect()
}

#[test]
fn scan_of_247_devices() {
    let serials = shuffled(247);
    let devices: Vec<u8> = (0..247).collect();
    let (mut marks, mut found, mut addresses) = ([1; 247], [0; 248], [0; 248]);
    for (cap, end, requests, heard) in [
        (246, ScanEnd::Unfinished, 246, 246),
        (247, ScanEnd::Unfinished, 247, 247),
        (248, ScanEnd::Complete, 248, 247),
        (usize::MAX, ScanEnd::Complete, 248, 247),
    ] {
        let scanned = scan(
            &serials,
            &devices,
            &mut marks,
            &mut found,
            &mut addresses,
            cap,
        );
        // Each answers with its serial's zeros; F0000000 then says the end.
        let zeros: u32 = (0..heard).map(|at| (at as u32 * 3).count_zeros()).sum();
        let end_zeros = if end == ScanEnd::Complete { 28 } else { 0 };
        let expected = Scanned {
            end,
            requests,
            found: heard,
            skipped: zeros as usize + end_zeros,
        };
        assert_eq!(scanned, Ok(expected));
        for entry in 0..heard {
            assert_eq!(found[entry], entry as u32 * 3);
            assert_eq!(serials[usize::from(addresses[entry])], found[entry]);
        }
    }
}

#[test]
fn scan_of_248_devices() {
    let serials: Vec<u32> = (0..248).collect();
    let (mut found, mut addresses) = ([7; 248], [7; 248]);
    let scanned = scan(
        &serials,
        &[0; 248],
        &mut [0; 248],
        &mut found,
        &mut addresses,
        9,
    );
    assert_eq!(scanned, refusal(2, 0));
    assert_eq!((found, addresses), ([7; 248], [7; 248]));
}

#[test]
fn marks_are_those_of_the_smallest_serials() {
    let serials = shuffled(11);
    let addresses = [9; 11];
    let (mut marks, mut answer) = ([0; 11], [0; 42]);
    start(&serials, &addresses, &mut marks, &mut answer).unwrap();
    for requests in 1..15 {
        for (serial, mark) in serials.iter().zip(marks) {
            assert_eq!(mark == 1, *serial < requests * 3);
        }
        resume(&serials, &addresses, &mut marks, &mut answer).unwrap();
    }
}
