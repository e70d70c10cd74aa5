//! Finds the static library of the five entry points: the path in the variable MOORSICKLE_LIB, else the place where
//! `tools/build library` puts it, next to this package.

use std::env;
use std::path::PathBuf;
use std::process::exit;

fn main() {
    println!("cargo:rerun-if-env-changed=MOORSICKLE_LIB");
    let path = library();
    println!("cargo:rerun-if-changed={}", path.display());
    let Ok(path) = path.canonicalize() else {
        fail(&format!("there is no static library at {}", path.display()));
    };
    let name = path.file_name().and_then(|name| name.to_str());
    let stem = name.and_then(|name| name.strip_prefix("lib")?.strip_suffix(".a"));
    let (Some(stem), Some(folder)) = (stem, path.parent()) else {
        fail(&format!("{} is not named lib*.a", path.display()));
    };
    println!("cargo:rustc-link-search=native={}", folder.display());
    println!("cargo:rustc-link-lib=static={stem}");
}

/// The path of the library, relative paths being relative to the package.
fn library() -> PathBuf {
    let package = PathBuf::from(env::var_os("CARGO_MANIFEST_DIR").expect("set by cargo"));
    match env::var_os("MOORSICKLE_LIB") {
        Some(path) => package.join(path),
        None => package.join("../target/staticlib/libgateway.a"),
    }
}

fn fail(what: &str) -> ! {
    println!("cargo:warning={what}; build it by `tools/build library` or name it in MOORSICKLE_LIB");
    exit(1);
}
