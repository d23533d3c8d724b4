//! Links the engine's archive, which `rt lib` in crates/wemsteky writes to crates/wemsteky/out.

use std::path::PathBuf;

fn main() {
    let package = std::env::var_os("CARGO_MANIFEST_DIR").expect("the package's directory is given");
    let directory = PathBuf::from(package).join("../crates/wemsteky/out");
    let archive = directory.join("libwemsteky.a");
    println!("cargo:rerun-if-changed={}", archive.display());
    if !archive.is_file() {
        eprintln!("{} is missing: run `rt lib` in crates/wemsteky first", archive.display());
        std::process::exit(1);
    }
    println!("cargo:rustc-link-search=native={}", directory.display());
    println!("cargo:rustc-link-lib=static=wemsteky");
}
