//! Finds the library to link: `libeelbasket.a` in the folder that EELBASKET_LIB names, as `scripts/install` puts it there, or in this
//! repository, as `scripts/library` writes it. Where there is none, or one for another machine, that is said in one line; then nothing
//! can be linked, and the crate can still be checked and its documentation made.

use std::env;
use std::path::{Path, PathBuf};

fn main() {
    println!("cargo:rerun-if-env-changed=EELBASKET_LIB");
    let named = env::var_os("EELBASKET_LIB").map(PathBuf::from);
    let own = Path::new(env!("CARGO_MANIFEST_DIR")).join("../../target/staticlib");
    let file = named.as_ref().unwrap_or(&own).join("libeelbasket.a");
    println!("cargo:rerun-if-changed={}", file.display());
    let architecture = env::var("CARGO_CFG_TARGET_ARCH").unwrap_or_default();
    if named.is_none() && architecture != "x86_64" {
        println!(
            "cargo:warning=the library of this repository is for x86-64: for {architecture} let EELBASKET_LIB name the folder of libeelbasket.a"
        );
    } else if file.exists() {
        println!("cargo:rustc-link-search=native={}", named.unwrap_or(own).display());
    } else {
        println!(
            "cargo:warning=there is no {}: let EELBASKET_LIB name the folder of libeelbasket.a, or run `scripts/library`",
            file.display()
        );
    }
    println!("cargo:rustc-link-lib=static=eelbasket");
}
