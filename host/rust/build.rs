//! Says where libflex.a is: the folder that FLEX_LIB_DIR names, or else target/staticlib, where `host/build` puts it.

use std::env;
use std::path::PathBuf;

fn main() {
    let here = PathBuf::from(env::var("CARGO_MANIFEST_DIR").expect("cargo sets CARGO_MANIFEST_DIR"));
    let folder = match env::var("FLEX_LIB_DIR") {
        Ok(folder) => PathBuf::from(folder),
        Err(_) => here.join("../../target/staticlib"),
    };
    println!("cargo:rustc-link-search=native={}", folder.display());
    println!("cargo:rustc-link-lib=static=flex");
    println!("cargo:rerun-if-env-changed=FLEX_LIB_DIR");
    println!("cargo:rerun-if-changed={}", folder.join("libflex.a").display());
}
