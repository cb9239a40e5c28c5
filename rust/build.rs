//! Links `libseatpomelo.a`, which `tools/build archive` writes to target/staticlib; SEATPOMELO_LIB names another folder.

use std::env;
use std::path::PathBuf;

fn main() {
    println!("cargo:rerun-if-env-changed=SEATPOMELO_LIB");
    let package = env::var("CARGO_MANIFEST_DIR").expect("cargo names the package's folder");
    let folder = match env::var_os("SEATPOMELO_LIB") {
        Some(folder) => PathBuf::from(folder),
        None => PathBuf::from(package).join("../target/staticlib"),
    };
    let archive = folder.join("libseatpomelo.a");
    println!("cargo:rerun-if-changed={}", archive.display());
    if !archive.is_file() {
        panic!("there is no {}: run `tools/build archive` in the repository, or set SEATPOMELO_LIB", archive.display());
    }
    println!("cargo:rustc-link-search=native={}", folder.display());
    println!("cargo:rustc-link-lib=static=seatpomelo");
}
