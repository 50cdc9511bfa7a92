//! Finds libmoortinker.a and links it: in the folder that MOORTINKER_ARCHIVE_DIR
//! names, else in target/staticlib of the repository. Says what is wrong where
//! the target is none that the archive is for, or the archive is missing.

use std::env;
use std::path::{Path, PathBuf};
use std::process::exit;

/// What the archive is for, as cargo names a target's parts.
const TARGET: [(&str, &str); 3] = [
    ("CARGO_CFG_TARGET_ARCH", "x86_64"),
    ("CARGO_CFG_TARGET_OS", "linux"),
    ("CARGO_CFG_TARGET_POINTER_WIDTH", "64"),
];

fn main() {
    println!("cargo:rerun-if-env-changed=MOORTINKER_ARCHIVE_DIR");
    for (variable, due) in TARGET {
        let found = env::var(variable).unwrap_or_default();
        if found != due {
            let target = env::var("TARGET").unwrap_or_default();
            fail(&[
                &format!("the target {target} is not x86-64 Linux with 64-bit pointers"),
                &format!("{variable} is {found} and not {due}"),
                "libmoortinker.a is for no other target",
            ]);
        }
    }
    let folder = archive_folder();
    let archive = folder.join("libmoortinker.a");
    println!("cargo:rerun-if-changed={}", archive.display());
    if !archive.is_file() {
        fail(&[
            &format!("{} is missing", archive.display()),
            "host/archive proves and writes it to target/staticlib of the repository",
            "where it stands elsewhere, set MOORTINKER_ARCHIVE_DIR to its folder",
        ]);
    }
    println!("cargo:rustc-link-search=native={}", folder.display());
    println!("cargo:rustc-link-lib=static=moortinker");
}

fn fail(lines: &[&str]) -> ! {
    for line in lines {
        eprintln!("moortinker: {line}");
    }
    exit(1)
}

fn archive_folder() -> PathBuf {
    match env::var_os("MOORTINKER_ARCHIVE_DIR") {
        Some(folder) => PathBuf::from(folder),
        None => {
            let here = env::var_os("CARGO_MANIFEST_DIR").expect("cargo sets CARGO_MANIFEST_DIR");
            Path::new(&here).join("../target/staticlib")
        }
    }
}
