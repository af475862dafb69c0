//! Proves and builds the static library of `crates/date_library`, and links it.
use std::env;
use std::path::{Path, PathBuf};
use std::process::Command;

/// The toolchain's folder, where its first page stands.
fn kit() -> PathBuf {
    let output = Command::new("rt").arg("doc").output().expect("rt runs");
    let page = String::from_utf8(output.stdout).expect("a path in UTF-8");
    Path::new(page.trim()).parent().expect("a folder").to_owned()
}

fn main() {
    let top = Path::new(&env::var("CARGO_MANIFEST_DIR").unwrap()).join("..");
    let library = top.join("crates/date_library");
    let built = Command::new("rt").arg("lib").current_dir(&library).status();
    assert!(built.expect("rt runs").success(), "the library is not proved");
    println!("cargo:rerun-if-changed={}", library.join("src").display());
    println!("cargo:rustc-link-search={}", library.join("out").display());
    println!("cargo:rustc-link-search={}", kit().join("c").display());
    println!("cargo:rustc-link-lib=static=date_library");
    println!("cargo:rustc-link-lib=static=libc_c");
}
