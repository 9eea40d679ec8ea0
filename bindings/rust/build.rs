//! Where libexport.a stands: the folder TUNNELS_LIB, or where `rt lib` in crates/export writes it.
use std::{env, path::PathBuf};

fn main() {
    let folder = match env::var_os("TUNNELS_LIB") {
        Some(folder) => PathBuf::from(folder),
        None => PathBuf::from(env::var_os("CARGO_MANIFEST_DIR").unwrap()).join("../../crates/export/out"),
    };
    println!("cargo:rerun-if-env-changed=TUNNELS_LIB");
    println!("cargo:rerun-if-changed={}", folder.join("libexport.a").display());
    println!("cargo:rustc-link-search=native={}", folder.display());
    println!("cargo:rustc-link-lib=static=export");
}
