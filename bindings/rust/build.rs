//! Tells cargo where the desk's library is: in DESK_C_LIB, or where `rt lib` in crates/desk_c writes it.
use std::{env, path::PathBuf, process};

fn main() {
    println!("cargo:rerun-if-env-changed=DESK_C_LIB");
    let folder = match env::var_os("DESK_C_LIB") {
        Some(folder) => PathBuf::from(folder),
        None => PathBuf::from(env::var_os("CARGO_MANIFEST_DIR").expect("cargo sets it")).join("../../crates/desk_c/out"),
    };
    let library = folder.join("libdesk_c.a");
    println!("cargo:rerun-if-changed={}", library.display());
    if !library.exists() {
        eprintln!("there is no {}: run `rt lib` in crates/desk_c first, or set DESK_C_LIB", library.display());
        process::exit(1);
    }
    println!("cargo:rustc-link-search=native={}", folder.display());
}
