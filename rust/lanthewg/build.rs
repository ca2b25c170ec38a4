//! Links the proved archive that `./build firmware` writes: `libfirmware.a` in the folder that `LANTHEWG_ARCHIVE_DIR` names,
//! or in the repository's `crates/firmware/out`.

use std::env;
use std::path::{Path, PathBuf};
use std::process::exit;

fn main() {
    println!("cargo:rerun-if-env-changed=LANTHEWG_ARCHIVE_DIR");
    let folder = match env::var_os("LANTHEWG_ARCHIVE_DIR") {
        Some(named) => PathBuf::from(named),
        None => Path::new(env!("CARGO_MANIFEST_DIR")).join("../../crates/firmware/out"),
    };
    let archive = folder.join("libfirmware.a");
    println!("cargo:rerun-if-changed={}", archive.display());
    if !folder.is_absolute() || !archive.is_file() {
        eprintln!("lanthewg: there is no {}.", archive.display());
        eprintln!("Make it by ./build firmware at the top of the repository (it needs the Rattle toolchain),");
        eprintln!("or let LANTHEWG_ARCHIVE_DIR be the full path of the folder that has it.");
        exit(1);
    }
    println!("cargo:rustc-link-search=native={}", folder.display());
    println!("cargo:rustc-link-lib=static=firmware");
}
