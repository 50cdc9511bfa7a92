//! Addresses, escapes and the writers of telegrams at their edges, and reading
//! back what was written.

use second::ebus::{
    check_right, expand, is_initiator, is_reserved, logical_at, telegram_at, undo, write_command,
    write_reply, Logical,
};
use second::Refusal;

fn refusal<T>(number: u8, place: usize) -> Result<T, Refusal> {
    Err(Refusal::at(number, place))
}

#[test]
fn there_are_25_initiators_and_two_reserved_addresses() {
    let all = 0..=255u8;
    assert_eq!(all.clone().filter(|&at| is_initiator(at)).count(), 25);
    assert!(is_initiator(0xFF) && is_initiator(0x00) && is_initiator(0x37));
    assert!(!is_initiator(0xFE) && !is_initiator(0x08) && !is_initiator(0x80));
    let reserved: Vec<u8> = all.filter(|&at| is_reserved(at)).collect();
    assert_eq!(reserved, [0xA9, 0xAA]);
}

#[test]
fn logical_bytes_of_a_run() {
    let run = [0x10, 0xA9, 0x01, 0xA9];
    assert_eq!(
        logical_at(&run, 0),
        Ok(Logical {
            byte: 0x10,
            next: 1
        })
    );
    assert_eq!(
        logical_at(&run, 1),
        Ok(Logical {
            byte: 0xAA,
            next: 3
        })
    );
    assert_eq!(
        logical_at(&run, 2),
        Ok(Logical {
            byte: 0x01,
            next: 3
        })
    );
    assert_eq!(logical_at(&run, 3), refusal(3, 4));
    assert_eq!(logical_at(&run, 4), refusal(3, 4));
    assert_eq!(logical_at(&run, usize::MAX), refusal(3, 4));
    assert_eq!(logical_at(&[0xA9, 0xAA], 0), refusal(5, 1));
    assert_eq!(logical_at(&[0xA9, 0xAA], 1), refusal(5, 1));
    assert_eq!(logical_at(&[0xA9, 0x02], 0), refusal(4, 1));
}

#[test]
fn expanding_needs_the_exact_length() {
    let mut out = [0x77; 5];
    assert_eq!(expand(&[1, 0xA9, 2, 0xAA], &mut out), refusal(1, 0));
    assert_eq!(out, [0x77; 5]);
    let mut out = [0x77; 7];
    assert_eq!(expand(&[1, 0xA9, 2, 0xAA], &mut out[..6]), Ok(6));
    assert_eq!(out, [1, 0xA9, 0, 2, 0xA9, 1, 0x77]);
    assert_eq!(expand(&[], &mut []), Ok(0));
    assert_eq!(expand(&[1, 2], &mut out), Ok(2));
    assert_eq!(out[..3], [1, 2, 0]);
}

#[test]
fn undoing_looks_at_the_whole_input_first() {
    let mut out = [0x77; 3];
    assert_eq!(undo(&[1, 0xA9, 0, 0xA9, 1], &mut out), Ok(3));
    assert_eq!(out, [1, 0xA9, 0xAA]);
    for (raw, number, place) in [
        (&[1, 2, 3, 4, 0xA9][..], 3, 5),
        (&[1, 2, 3, 4, 0xA9, 2][..], 4, 5),
        (&[1, 2, 3, 4, 0xA9, 0xAA][..], 5, 5),
        (&[1, 2, 3, 4, 0xAA][..], 5, 4),
        (&[1, 2, 3, 4][..], 1, 0),
    ] {
        let mut out = [0x77; 3];
        assert_eq!(undo(raw, &mut out), refusal(number, place));
        assert_eq!(out, [0x77; 3]);
    }
    assert_eq!(undo(&[], &mut []), Ok(0));
}

#[test]
fn telegram_from_a_position() {
    let run = [0x99, 0x02, 0xA9, 0x00, 0x05, 0xA9, 0x01, 0x00];
    let telegram = telegram_at(&run, false, 1).unwrap();
    assert_eq!(telegram.logical(), [0x02, 0xA9, 0x05, 0xAA]);
    assert_eq!(telegram.bytes[4..], [0; 18]);
    assert_eq!((telegram.last, telegram.next), (5, 7));
    assert_eq!(telegram_at(&run, true, 0), refusal(6, 0));
    assert_eq!(telegram_at(&run, true, 9), refusal(3, 8));
    assert_eq!(telegram_at(&run, false, usize::MAX), refusal(3, 8));
}

#[test]
fn check_right_wants_a_byte() {
    assert!(!check_right(&[]));
    assert!(check_right(&[0x00]));
    assert!(!check_right(&[0x01]));
    assert!(check_right(&[0xAA, 0xEC]));
    let command = [0x10, 0x08, 0xB5, 0x04, 0x01, 0x7F, 0x42];
    assert!(check_right(&command));
}

#[test]
fn command_writer_keeps_its_order() {
    let long = [0; 17];
    let write = |source, destination, payload: &[u8], room: usize| {
        let mut out = vec![0x77; room];
        let written = write_command(source, destination, 1, 2, payload, &mut out);
        assert!(written.is_ok() || out.iter().all(|&byte| byte == 0x77));
        written
    };
    assert_eq!(write(0x02, 0xA9, &long, 0), refusal(6, 0));
    assert_eq!(write(0x10, 0xA9, &long, 0), refusal(7, 0));
    assert_eq!(write(0x10, 0xAA, &[], 9), refusal(7, 0));
    assert_eq!(write(0x10, 0x08, &long, 0), refusal(8, 0));
    assert_eq!(write(0x10, 0x08, &[], 5), refusal(1, 0));
    assert_eq!(write(0x10, 0x08, &[], 6), Ok(6));
    assert_eq!(write(0x10, 0x08, &[0xA9], 7), refusal(1, 0));
    assert_eq!(write(0x10, 0x08, &[0xA9], 8), Ok(8));
}

#[test]
fn longest_telegrams_take_41_and_35_raw_bytes() {
    let longest = |head: &[u8]| {
        let mut most = 0;
        for first in 0..=255u8 {
            let mut data = [0xA9; 16];
            data[0] = first;
            let mut out = [0; 50];
            let length = match *head {
                [source, destination, primary, secondary] => {
                    write_command(source, destination, primary, secondary, &data, &mut out)
                }
                _ => write_reply(&data, &mut out),
            };
            most = most.max(length.unwrap());
        }
        most
    };
    assert!(longest(&[0x10, 0x08, 0xA9, 0xAA]) <= 41);
    assert!(longest(&[]) <= 35);
    // SRC, DST and LEN are bare; all else, the check byte too, may be escaped.
    let mut found = false;
    for source in (0..=255).filter(|&address| is_initiator(address)) {
        for destination in (0..=255).filter(|&address| !is_reserved(address)) {
            let mut out = [0; 41];
            let data = [0xAA; 16];
            let length = write_command(source, destination, 0xA9, 0xA9, &data, &mut out);
            found |= length == Ok(41);
        }
    }
    assert!(found);
}

#[test]
fn reply_writer_keeps_its_order() {
    let mut out = [0x77; 4];
    assert_eq!(write_reply(&[0; 17], &mut []), refusal(8, 0));
    assert_eq!(write_reply(&[1, 2], &mut out[..3]), refusal(1, 0));
    assert_eq!(out, [0x77; 4]);
    assert_eq!(write_reply(&[0x2A], &mut out), Ok(3));
    assert_eq!(out, [0x01, 0x2A, 0xB1, 0x77]);
    assert_eq!(write_reply(&[], &mut out[..2]), Ok(2));
    assert_eq!(out, [0x00, 0x00, 0xB1, 0x77]);
}

#[test]
fn what_was_written_is_read_back() {
    for byte in 0..=255u8 {
        let data = [byte, 0xAA, byte ^ 0x5A];
        let mut out = [0; 41];
        let length = write_command(0x31, 0x15, byte, 0xA9, &data, &mut out).unwrap();
        let telegram = telegram_at(&out[..length], true, 0).unwrap();
        assert_eq!(telegram.next, length);
        assert_eq!(telegram.logical()[..5], [0x31, 0x15, byte, 0xA9, 3]);
        assert_eq!(telegram.logical()[5..8], data);
        assert!(telegram.check_right());
        let length = write_reply(&data, &mut out).unwrap();
        let telegram = telegram_at(&out[..length], false, 0).unwrap();
        assert_eq!(telegram.next, length);
        assert_eq!(telegram.logical()[1..4], data);
        assert!(telegram.check_right());
    }
}
