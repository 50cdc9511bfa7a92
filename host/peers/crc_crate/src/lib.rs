//! The Modbus check by the Rust `crc` crate, behind a C function.

use crc::crc16::checksum_usb;

/// The Modbus check of the bytes. The crate has no Modbus preset; CRC-16/USB
/// differs from it only in that its answer is complemented.
///
/// # Safety
/// `bytes` is valid for `length` bytes.
#[no_mangle]
pub unsafe extern "C" fn crc_crate_modbus_check(bytes: *const u8, length: usize) -> u16 {
    !checksum_usb(std::slice::from_raw_parts(bytes, length))
}
