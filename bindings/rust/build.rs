// The static library that `bindings/library` builds; WEJUMO_LIB names another folder that holds it.
use std::{env, path::PathBuf};

fn main() {
    let here = PathBuf::from(env::var("CARGO_MANIFEST_DIR").unwrap());
    let folder = env::var_os("WEJUMO_LIB").map_or_else(|| here.join("../../target/staticlib"), PathBuf::from);
    println!("cargo:rustc-link-search=native={}", folder.display());
    println!("cargo:rustc-link-lib=static=interface");
    println!("cargo:rerun-if-env-changed=WEJUMO_LIB");
    println!("cargo:rerun-if-changed={}", folder.join("libinterface.a").display());
}
