//! Links the static library: libffi.a, as `tools/build staticlib ffi` writes it, or libchroma.a, as
//! tools/install names it. CHROMA_LIB_DIR names its folder; without it, target/staticlib at the top
//! of the repository is taken.

use std::env;
use std::path::PathBuf;

fn main() {
    println!("cargo:rerun-if-env-changed=CHROMA_LIB_DIR");
    let here =
        PathBuf::from(env::var_os("CARGO_MANIFEST_DIR").expect("cargo sets CARGO_MANIFEST_DIR"));
    let dir = match env::var_os("CHROMA_LIB_DIR") {
        Some(dir) => PathBuf::from(dir),
        None => here.join("../../target/staticlib"),
    };
    let archive = |name: &str| dir.join(format!("lib{name}.a"));
    let Some(name) = ["ffi", "chroma"]
        .into_iter()
        .find(|name| archive(name).is_file())
    else {
        panic!(
            "{} is missing: run `tools/build staticlib ffi` at the top of the repository, or set CHROMA_LIB_DIR",
            archive("ffi").display()
        );
    };
    println!("cargo:rerun-if-changed={}", archive(name).display());
    println!("cargo:rustc-link-search=native={}", dir.display());
    println!("cargo:rustc-link-lib=static={name}");
}
