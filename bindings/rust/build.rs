// SPDX-License-Identifier: Apache-2.0
//! Links the proved libraries: from the folder that `DOQALLIN_LIB` names, or else from the package's own `lib`, or else from
//! bindings/out, where `tools/build_bindings` puts them.

use std::path::{Path, PathBuf};

fn link(folder: &Path, name: &str, made_by: &str) {
    let archive = folder.join(format!("lib{name}.a"));
    assert!(
        archive.is_file(),
        "{} is not there: run {made_by}",
        archive.display()
    );
    println!("cargo:rerun-if-changed={}", archive.display());
    println!("cargo:rustc-link-lib=static={name}");
}

/// Where the libraries are.
fn folder() -> PathBuf {
    let package = Path::new(env!("CARGO_MANIFEST_DIR"));
    match std::env::var_os("DOQALLIN_LIB") {
        Some(folder) if !folder.is_empty() => PathBuf::from(folder),
        _ if package.join("lib").is_dir() => package.join("lib"),
        _ => package.join("../out"),
    }
}

fn main() {
    println!("cargo:rerun-if-env-changed=DOQALLIN_LIB");
    let folder = folder();
    println!("cargo:rustc-link-search=native={}", folder.display());
    link(&folder, "doqallin", "tools/build_bindings");
    if std::env::var_os("CARGO_FEATURE_CALL").is_some() {
        link(&folder, "doqallin_call", "tools/build_bindings --call");
    }
}
