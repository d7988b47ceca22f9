//! Links libhverolda, the proved library: the archive where there is one, or else the shared library. It is looked for in the
//! folder that HVEROLDA_LIB_DIR names; or else where `tools/library` leaves it in the tree; or else where `pkg-config`, or the
//! command that PKG_CONFIG names, says that it is installed.

use std::env;
use std::path::{Path, PathBuf};
use std::process::Command;

const ARCHIVE: &str = "libhverolda.a";
const SHARED: &str = "libhverolda.so";

fn main() {
    println!("cargo:rerun-if-env-changed=HVEROLDA_LIB_DIR");
    println!("cargo:rerun-if-env-changed=PKG_CONFIG");
    stop_elsewhere();
    let folder = folder();
    let kind = match [ARCHIVE, SHARED].map(|name| folder.join(name).is_file()) {
        [true, _] => "static",
        [_, true] => "dylib",
        _ => panic!(
            "{} has no {ARCHIVE}: run `tools/library` in the root of the project, install \
             libhverolda-dev, or let HVEROLDA_LIB_DIR name the folder of {ARCHIVE}",
            folder.display()
        ),
    };
    let name = if kind == "static" { ARCHIVE } else { SHARED };
    println!("cargo:rerun-if-changed={}", folder.join(name).display());
    println!("cargo:rustc-link-search=native={}", folder.display());
    println!("cargo:rustc-link-lib={kind}=hverolda");
}

fn stop_elsewhere() {
    let target = ["OS", "POINTER_WIDTH"]
        .map(|part| env::var(format!("CARGO_CFG_TARGET_{part}")).unwrap_or_default());
    if target != ["linux", "64"] {
        panic!("{ARCHIVE} is for 64-bit Linux, and this build is for {}", target.join(" "));
    }
}

fn folder() -> PathBuf {
    if let Some(folder) = env::var_os("HVEROLDA_LIB_DIR") {
        return PathBuf::from(folder);
    }
    let here = env::var_os("CARGO_MANIFEST_DIR").expect("cargo names the crate's folder");
    let in_tree = Path::new(&here).join("../../target/lib");
    match in_tree.join(ARCHIVE).is_file() {
        true => in_tree,
        false => installed().unwrap_or(in_tree),
    }
}

/// The folder that pkg-config names.
fn installed() -> Option<PathBuf> {
    let program = env::var_os("PKG_CONFIG").unwrap_or_else(|| "pkg-config".into());
    let told = Command::new(program).args(["--variable=libdir", "hverolda"]).output().ok()?;
    let folder = String::from_utf8(told.stdout).ok()?;
    match (told.status.success(), folder.trim_end()) {
        (true, folder) if !folder.is_empty() => Some(PathBuf::from(folder)),
        _ => None,
    }
}
