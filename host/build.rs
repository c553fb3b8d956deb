//! Finds the static library and links it.

use std::env;
use std::path::PathBuf;

fn main() {
    println!("cargo::rerun-if-env-changed=FORDTRUMPET_LIB_DIR");
    let dir = match env::var_os("FORDTRUMPET_LIB_DIR") {
        Some(dir) => PathBuf::from(dir),
        None => {
            let manifest = env::var_os("CARGO_MANIFEST_DIR").expect("cargo sets it");
            PathBuf::from(manifest).join("../target/staticlib")
        }
    };
    let library = dir.join("libbep.a");
    println!("cargo::rerun-if-changed={}", library.display());
    if !library.is_file() {
        println!("cargo::error=there is no {}", library.display());
        println!(
            "cargo::error=run `tools/library` in the repository's root, \
             or set FORDTRUMPET_LIB_DIR to the folder that holds libbep.a"
        );
        return;
    }
    let library = library.canonicalize().expect("the file is there");
    let dir = library.parent().expect("a file lies in a folder");
    println!("cargo::rustc-link-search=native={}", dir.display());
    println!("cargo::rustc-link-lib=static=bep");
    // The tests of C programs link the same file.
    println!("cargo::rustc-env=FORDTRUMPET_LIB={}", library.display());
}
