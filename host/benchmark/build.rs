//! Compiles the C table loops with gcc -O3 and links them, and beside them
//! libonebyte.a, the Modbus check one byte a step.

use std::env;
use std::path::{Path, PathBuf};
use std::process::Command;

const SOURCE: &str = "../peers/table_loops.c";
/// Where host/archive writes. Without it the crate `moortinker` is not built, and
/// says so.
const ARCHIVES: &str = "../../target/staticlib";

fn main() {
    table_loops();
    one_byte();
}

fn table_loops() {
    println!("cargo:rerun-if-changed={SOURCE}");
    let out = PathBuf::from(env::var_os("OUT_DIR").expect("cargo sets OUT_DIR"));
    let object = out.join("table_loops.o");
    let archive = out.join("libtable_loops.a");
    run(Command::new("gcc")
        .args(["-O3", "-Wall", "-Wextra", "-fPIC", "-c", SOURCE, "-o"])
        .arg(&object));
    run(Command::new("ar").arg("rcs").arg(&archive).arg(&object));
    println!("cargo:rustc-link-search=native={}", out.display());
    println!("cargo:rustc-link-lib=static=table_loops");
}

fn one_byte() {
    let here = env::var_os("CARGO_MANIFEST_DIR").expect("cargo sets CARGO_MANIFEST_DIR");
    let folder = Path::new(&here).join(ARCHIVES);
    println!("cargo:rerun-if-changed={}/libonebyte.a", folder.display());
    println!("cargo:rustc-link-search=native={}", folder.display());
    println!("cargo:rustc-link-lib=static=onebyte");
}

fn run(command: &mut Command) {
    match command.status() {
        Ok(status) if status.success() => {}
        Ok(status) => panic!("{command:?} ended with {status}"),
        Err(fault) => panic!("{command:?} did not start: {fault}"),
    }
}
