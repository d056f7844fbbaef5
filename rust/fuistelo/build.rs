//! Links libfuistelo.a, which `include/archive` writes to target/staticlib of the repository. Where it stands elsewhere, the
//! environment variable FUISTELO_LIB_DIR names its folder.

use std::env;
use std::path::PathBuf;

fn main() {
    println!("cargo:rerun-if-env-changed=FUISTELO_LIB_DIR");
    let folder = match env::var_os("FUISTELO_LIB_DIR") {
        Some(named) => PathBuf::from(named),
        None => PathBuf::from(env::var_os("CARGO_MANIFEST_DIR").expect("cargo sets it")).join("../../target/staticlib"),
    };
    let library = folder.join("libfuistelo.a");
    if !library.is_file() {
        eprintln!(
            "{} is not there: run `include/archive` at the root of the repository, or set FUISTELO_LIB_DIR to the folder of libfuistelo.a",
            library.display()
        );
        std::process::exit(1);
    }
    println!("cargo:rerun-if-changed={}", library.display());
    println!("cargo:rustc-link-search=native={}", folder.display());
    println!("cargo:rustc-link-lib=static=fuistelo");
}
