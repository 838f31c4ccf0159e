//! Links the proved library, and says so where it is missing.
//! Assumes that HUDDLEWOOL_LIBRARIES, where it is set, names its folder; it is the repository's crates/exports/out otherwise.

use std::env;
use std::path::PathBuf;
use std::process::exit;

fn main() {
    println!("cargo:rerun-if-changed=build.rs");
    println!("cargo:rerun-if-env-changed=HUDDLEWOOL_LIBRARIES");
    let here = PathBuf::from(env::var_os("CARGO_MANIFEST_DIR").expect("cargo names the package's folder"));
    let folder = match env::var_os("HUDDLEWOOL_LIBRARIES") {
        Some(folder) => PathBuf::from(folder),
        None => here.join("../crates/exports/out"),
    };
    println!("cargo:rustc-link-search=native={}", folder.display());
    let library = folder.join("libexports.a");
    println!("cargo:rerun-if-changed={}", library.display());
    if !library.is_file() {
        eprintln!("{} is missing: `rt lib` in crates/exports makes it, and host/test all that is needed", library.display());
        exit(1);
    }
    println!("cargo:rustc-link-lib=static=exports");
    println!("cargo:rustc-env=HUDDLEWOOL_ARCHIVE={}", library.display());
}
