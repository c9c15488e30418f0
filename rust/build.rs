//! Finds libwodzerim.a: in the folder that WODZERIM_LIB_DIR names, in the repository's build/, or where pkg-config says
//! that it is installed.

use std::path::PathBuf;
use std::process::Command;

const ARCHIVE: &str = "libwodzerim.a";

/// What `make install` told pkg-config.
fn installed() -> Option<PathBuf> {
    let said = Command::new("pkg-config").args(["--variable=libdir", "wodzerim"]).output().ok()?;
    let folder = String::from_utf8(said.stdout).ok()?;
    said.status.success().then(|| PathBuf::from(folder.trim()))
}

fn main() {
    println!("cargo::rerun-if-env-changed=WODZERIM_LIB_DIR");
    let here = PathBuf::from(std::env::var_os("CARGO_MANIFEST_DIR").expect("set by cargo"));
    let built = here.join("../build");
    let folder = match std::env::var_os("WODZERIM_LIB_DIR") {
        Some(folder) => PathBuf::from(folder),
        None if built.join(ARCHIVE).exists() => built,
        None => installed().unwrap_or(built),
    };
    let archive = folder.join(ARCHIVE);
    println!("cargo::rerun-if-changed={}", archive.display());
    if !archive.exists() {
        println!("cargo::error={} is not there: `make lib` builds it, WODZERIM_LIB_DIR may name its folder", archive.display());
        return;
    }
    println!("cargo::rustc-link-search=native={}", folder.display());
    println!("cargo::rustc-link-lib=static=wodzerim");
}
