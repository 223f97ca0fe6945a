//! Finds the library: in the folder that SQLKEEP_LIB_DIR names, by pkg-config, or in out/ of the repository that this crate is in.
use std::env;
use std::path::{Path, PathBuf};
use std::process::Command;

fn main() {
    println!("cargo:rerun-if-env-changed=SQLKEEP_LIB_DIR");
    println!("cargo:rerun-if-env-changed=PKG_CONFIG_PATH");
    let Some(folder) = named().or_else(installed).or_else(built) else {
        panic!(
            "libsqlkeep isn't found. Build it by `./build --library` in its repository, or install it by `./install`, \
             or name the folder that it is in by SQLKEEP_LIB_DIR."
        );
    };
    println!("cargo:rustc-link-search=native={}", folder.display());
    let kind = if folder.join("libsqlkeep.a").exists() { "static" } else { "dylib" };
    println!("cargo:rustc-link-lib={kind}=sqlkeep");
}

/// The folder that the caller names.
fn named() -> Option<PathBuf> {
    let folder = PathBuf::from(env::var_os("SQLKEEP_LIB_DIR")?);
    assert!(has_library(&folder), "SQLKEEP_LIB_DIR is {}, and there is no libsqlkeep in it", folder.display());
    Some(folder)
}

/// Where pkg-config says that the library is installed.
fn installed() -> Option<PathBuf> {
    let told = Command::new("pkg-config").args(["--variable=libdir", "sqlkeep"]).output().ok()?;
    let folder = PathBuf::from(String::from_utf8(told.stdout).ok()?.trim());
    has_library(&folder).then_some(folder)
}

/// What the repository built last: the proved library, or the one that isn't proved.
fn built() -> Option<PathBuf> {
    let out = Path::new(env!("CARGO_MANIFEST_DIR")).join("../../out");
    [out.join("unproved"), out].into_iter().rev().find(|folder| has_library(folder))
}

fn has_library(folder: &Path) -> bool {
    ["libsqlkeep.a", "libsqlkeep.so"].iter().any(|file| folder.join(file).exists())
}
