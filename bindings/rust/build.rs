//! Links the proved archive: the folder in SPOONVELVET_LIB, or else where `bindings/native` leaves it.

use std::env;
use std::fs::File;
use std::io::Read;
use std::path::{Path, PathBuf};
use std::process::exit;

fn main() {
    let here = PathBuf::from(env::var("CARGO_MANIFEST_DIR").expect("cargo sets it"));
    let folder = env::var("SPOONVELVET_LIB").map_or_else(|_| here.join("../../target/native"), PathBuf::from);
    println!("cargo:rerun-if-env-changed=SPOONVELVET_LIB");
    // the folder too: an archive that is moved there may be older than what was linked before
    println!("cargo:rerun-if-changed={}", folder.display());
    let archive = folder.join("libdesk.a");
    if !is_archive(&archive) {
        eprintln!("{} is no archive: bindings/native makes it, and SPOONVELVET_LIB may name its folder", archive.display());
        exit(1);
    }
    println!("cargo:rustc-link-search=native={}", folder.display());
    println!("cargo:rustc-link-lib=static=desk");
}

fn is_archive(path: &Path) -> bool {
    let mut mark = [0; 8];
    File::open(path).and_then(|mut file| file.read_exact(&mut mark)).is_ok() && &mark == b"!<arch>\n"
}
