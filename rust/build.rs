// Says where libspoonmeadow.a is: in SPOONMEADOW_LIB_DIR, or where `rt lib` leaves it in crates/spoonmeadow.
use std::path::{Path, PathBuf};

fn main() {
    println!("cargo:rerun-if-env-changed=SPOONMEADOW_LIB_DIR");
    let folder = match std::env::var_os("SPOONMEADOW_LIB_DIR") {
        Some(named) => PathBuf::from(named),
        None => Path::new(env!("CARGO_MANIFEST_DIR")).join("../crates/spoonmeadow/out"),
    };
    let archive = folder.join("libspoonmeadow.a");
    println!("cargo:rerun-if-changed={}", archive.display());
    if !archive.is_file() {
        println!(
            "cargo:warning={} is not there: run `rt lib` in crates/spoonmeadow, or name its folder in SPOONMEADOW_LIB_DIR",
            archive.display()
        );
    }
    println!("cargo:rustc-link-search=native={}", folder.display());
    println!("cargo:rustc-link-lib=static=spoonmeadow");
}
