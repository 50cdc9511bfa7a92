//! The two check sums: the eBUS check byte and the Modbus check, each from a
//! table of 256 entries, one byte a step.

use crate::ebus::{ESCAPE, SYN};

/// x^8 + x^7 + x^4 + x^3 + x + 1 without its highest term.
const EBUS_POLYNOMIAL: u8 = 0x9B;

/// The Modbus polynomial in reflected form.
const MODBUS_POLYNOMIAL: u16 = 0xA001;

static EBUS_TABLE: [u8; 256] = ebus_table();
static MODBUS_TABLE: [u16; 256] = modbus_table();

/// The eBUS check byte of logical bytes. "It is taken over the expanded bytes:
/// logical A9 counts as A9 00, logical AA as A9 01."
pub fn ebus_check(logical: &[u8]) -> u8 {
    logical.iter().fold(0, |check, &byte| match byte {
        ESCAPE | SYN => ebus_step(ebus_step(check, ESCAPE), byte - ESCAPE),
        _ => ebus_step(check, byte),
    })
}

/// The Modbus check of the bytes; it is sent low byte first.
pub fn modbus_check(bytes: &[u8]) -> u16 {
    bytes.iter().fold(0xFFFF, |check, &byte| {
        (check >> 8) ^ MODBUS_TABLE[usize::from(check as u8 ^ byte)]
    })
}

/// One raw byte into the eBUS check. The byte enters at the low end while the
/// remainder so far moves up eight places: "with no eight zero bits added".
#[inline]
pub(crate) fn ebus_step(check: u8, raw: u8) -> u8 {
    EBUS_TABLE[usize::from(check)] ^ raw
}

/// At every remainder: where eight zero bits take it.
const fn ebus_table() -> [u8; 256] {
    let mut table = [0; 256];
    let mut entry = 0;
    while entry < 256 {
        let mut check = entry as u8;
        let mut bit = 0;
        while bit < 8 {
            let carry = check & 0x80 != 0;
            check <<= 1;
            if carry {
                check ^= EBUS_POLYNOMIAL;
            }
            bit += 1;
        }
        table[entry] = check;
        entry += 1;
    }
    table
}

/// At every low byte: what its eight bits leave behind.
const fn modbus_table() -> [u16; 256] {
    let mut table = [0; 256];
    let mut entry = 0;
    while entry < 256 {
        let mut check = entry as u16;
        let mut bit = 0;
        while bit < 8 {
            let carry = check & 1 != 0;
            check >>= 1;
            if carry {
                check ^= MODBUS_POLYNOMIAL;
            }
            bit += 1;
        }
        table[entry] = check;
        entry += 1;
    }
    table
}

#[cfg(test)]
mod tests {
    use super::*;

    /// The eBUS rule bit by bit: each bit enters at the low end, highest first.
    fn ebus_by_bits(raw: &[u8]) -> u8 {
        let mut check = 0u8;
        for byte in raw {
            for place in (0..8).rev() {
                let carry = check & 0x80 != 0;
                check = check << 1 | (byte >> place & 1);
                if carry {
                    check ^= EBUS_POLYNOMIAL;
                }
            }
        }
        check
    }

    /// The Modbus rule bit by bit, as the serial line standard prints it.
    fn modbus_by_bits(bytes: &[u8]) -> u16 {
        let mut check = 0xFFFFu16;
        for &byte in bytes {
            check ^= u16::from(byte);
            for _ in 0..8 {
                let carry = check & 1 != 0;
                check >>= 1;
                if carry {
                    check ^= MODBUS_POLYNOMIAL;
                }
            }
        }
        check
    }

    /// Logical bytes as they count in the eBUS check.
    fn expanded(logical: &[u8]) -> Vec<u8> {
        let mut raw = Vec::new();
        for &byte in logical {
            match byte {
                0xA9 => raw.extend([0xA9, 0x00]),
                0xAA => raw.extend([0xA9, 0x01]),
                _ => raw.push(byte),
            }
        }
        raw
    }

    #[test]
    fn each_ebus_step_agrees_with_the_bits() {
        for first in 0..=255u8 {
            for second in 0..=255u8 {
                let logical = [first, second];
                assert_eq!(ebus_check(&logical), ebus_by_bits(&expanded(&logical)));
            }
        }
    }

    #[test]
    fn each_modbus_step_agrees_with_the_bits() {
        for first in 0..=255u8 {
            for second in 0..=255u8 {
                let bytes = [first, second];
                assert_eq!(modbus_check(&bytes), modbus_by_bits(&bytes));
            }
        }
    }

    #[test]
    fn tables_agree_with_the_bits_at_every_entry() {
        for entry in 0..=255u8 {
            let ebus = EBUS_TABLE[usize::from(entry)];
            assert_eq!(ebus, ebus_by_bits(&[entry, 0x00]));
            let modbus = MODBUS_TABLE[usize::from(entry)];
            assert_eq!(modbus, modbus_by_bits(&[entry ^ 0xFF]) ^ 0x00FF);
        }
    }

    #[test]
    fn long_inputs_agree_with_the_bits() {
        let long: Vec<u8> = (0..4000u32).map(|at| ((at * at) >> 3) as u8).collect();
        assert_eq!(ebus_check(&long), ebus_by_bits(&expanded(&long)));
        assert_eq!(modbus_check(&long), modbus_by_bits(&long));
    }

    #[test]
    fn a_lone_byte_below_a9_is_its_own_check_byte() {
        for byte in 0..0xA9 {
            assert_eq!(ebus_check(&[byte]), byte);
        }
    }
}
