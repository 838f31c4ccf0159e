//! Links an earlier proved library beside the one of today, where the feature `beside` asks for it.
//! Assumes that HUDDLEWOOL_BEFORE names the folder of libbefore.a then.

use std::env;

fn main() {
    println!("cargo:rerun-if-changed=build.rs");
    println!("cargo:rerun-if-env-changed=HUDDLEWOOL_BEFORE");
    if env::var_os("CARGO_FEATURE_BESIDE").is_none() {
        return;
    }
    let folder = env::var("HUDDLEWOOL_BEFORE").expect("bench/beside names the folder of the earlier library");
    println!("cargo:rustc-link-search=native={folder}");
    println!("cargo:rerun-if-changed={folder}/libbefore.a");
    println!("cargo:rustc-link-lib=static=before");
}
