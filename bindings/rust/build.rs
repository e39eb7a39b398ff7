//! Links libqcldpc.a, from the folder QCLDPC_LIB_DIR, or from where `rt lib` in crates/qcldpc writes it. A benchmark also finds the
//! C code that `bindings/rust/run` makes for it.
use std::env;
use std::path::{Path, PathBuf};

fn main() {
    println!("cargo:rerun-if-env-changed=QCLDPC_LIB_DIR");
    let top = Path::new(&env::var_os("CARGO_MANIFEST_DIR").unwrap()).join("../..");
    let folder = match env::var_os("QCLDPC_LIB_DIR") {
        Some(folder) => PathBuf::from(folder),
        None => top.join("crates/qcldpc/out"),
    };
    let archive = folder.join("libqcldpc.a");
    println!("cargo:rerun-if-changed={}", archive.display());
    assert!(archive.exists(), "{} is not there: `rt lib` in crates/qcldpc writes it", archive.display());
    println!("cargo:rustc-link-search=native={}", folder.display());
    println!("cargo:rustc-link-lib=static=qcldpc");
    println!("cargo:rustc-link-search=native={}", top.join("target/bindings").display());
}
