//! The peers that are not Rust code of this workspace: the C table loops and
//! the check one byte a step, which are linked, and the `crc` crate and
//! libcrcutil, each in a shared object that is opened where an environment
//! variable names it.

use std::env;
use std::ffi::{c_char, c_int, c_void, CStr, CString};
use std::mem::transmute;

/// A check as a C function: bytes and their number in, the check out.
pub type Check<T> = unsafe extern "C" fn(*const u8, usize) -> T;

/// A library that is measured where it is installed.
pub struct Library {
    /// Its name as a candidate.
    pub name: &'static str,
    /// The environment variable that names the shared object.
    variable: &'static str,
    /// The function in it.
    function: &'static CStr,
}

/// Built from peers/crc_crate and from peers/crcutil.cc.
pub const LIBRARIES: [Library; 2] = [
    Library {
        name: "crc-crate",
        variable: "MOORTINKER_CRC_CRATE",
        function: c"crc_crate_modbus_check",
    },
    Library {
        name: "crcutil",
        variable: "MOORTINKER_CRCUTIL",
        function: c"crcutil_modbus_check",
    },
];

const RESOLVE_NOW: c_int = 2;

extern "C" {
    pub fn peer_modbus_check(bytes: *const u8, length: usize) -> u16;
    pub fn peer_modbus_check_wide(bytes: *const u8, length: usize) -> u16;
    pub fn peer_modbus_check_two(bytes: *const u8, length: usize) -> u16;
    pub fn peer_modbus_check_two_wide(bytes: *const u8, length: usize) -> u16;
    pub fn bench_one_byte(bytes: *const u8, length: usize) -> u16;
    pub fn bench_before_rows(bytes: *const u8, length: usize) -> u16;
    pub fn peer_ebus_check(logical: *const u8, length: usize) -> u8;
    pub fn peer_ebus_check_wide(logical: *const u8, length: usize) -> u8;

    fn dlopen(file: *const c_char, flags: c_int) -> *mut c_void;
    fn dlsym(object: *mut c_void, symbol: *const c_char) -> *mut c_void;
}

impl Library {
    /// Its Modbus check. Nothing where the variable is not set; an error where
    /// it names no object with that function.
    pub fn modbus_check(&self) -> Result<Option<Check<u16>>, String> {
        let Ok(file) = env::var(self.variable) else {
            return Ok(None);
        };
        let path = CString::new(file.as_str()).map_err(|fault| fault.to_string())?;
        // SAFETY: both strings end with 0. The function found is the one that
        // the peer defines, with the type that it has there.
        unsafe {
            let object = dlopen(path.as_ptr(), RESOLVE_NOW);
            if object.is_null() {
                return Err(format!("{file} could not be opened"));
            }
            let function = dlsym(object, self.function.as_ptr());
            if function.is_null() {
                return Err(format!("{file} has no {:?}", self.function));
            }
            Ok(Some(transmute::<*mut c_void, Check<u16>>(function)))
        }
    }
}
