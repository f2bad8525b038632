//! Links the proved library, `libboard.a`: from the folder that `TRINVOKSHA_LIB_DIR` names, by an absolute path, or else from where
//! `rt lib` in crates/board writes it in this repository.

use std::env;
use std::path::{Path, PathBuf};
use std::process::exit;

fn folder() -> PathBuf {
    match env::var_os("TRINVOKSHA_LIB_DIR") {
        Some(folder) => PathBuf::from(folder),
        None => Path::new(env!("CARGO_MANIFEST_DIR")).join("../../crates/board/out"),
    }
}

fn target_is(what: &str, wanted: &str) -> bool {
    env::var(format!("CARGO_CFG_TARGET_{what}")).as_deref() == Ok(wanted)
}

fn main() {
    println!("cargo:rerun-if-changed=build.rs");
    println!("cargo:rerun-if-env-changed=TRINVOKSHA_LIB_DIR");
    if !(target_is("ARCH", "x86_64") && target_is("OS", "linux")) {
        eprintln!("The proved library is compiled for x86-64 Linux, and links into no other program.");
        exit(1);
    }
    let folder = folder();
    let archive = folder.join("libboard.a");
    println!("cargo:rerun-if-changed={}", archive.display());
    if !archive.is_file() {
        eprintln!("There is no {}. Run `rt lib` in crates/board, or name its folder in TRINVOKSHA_LIB_DIR.", archive.display());
        exit(1);
    }
    println!("cargo:rustc-link-search=native={}", folder.display());
    println!("cargo:rustc-link-lib=static=board");
}
