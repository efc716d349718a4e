//! Links libexports.a from the folder OZ_LIB, or from ../target/staticlib where it is not set.
use std::path::PathBuf;
use std::{env, process};

fn main() {
    println!("cargo:rerun-if-env-changed=OZ_LIB");
    let beside = PathBuf::from(env::var_os("CARGO_MANIFEST_DIR").unwrap_or_default()).join("../target/staticlib");
    let folder = env::var_os("OZ_LIB").map_or(beside, PathBuf::from);
    let library = folder.join("libexports.a");
    println!("cargo:rerun-if-changed={}", library.display());
    let arch = env::var("CARGO_CFG_TARGET_ARCH").unwrap_or_default();
    if arch != "x86_64" {
        eprintln!("oz: libexports.a is for x86-64, and this build is for {arch}: build with --target x86_64-unknown-linux-gnu.");
        process::exit(1);
    }
    if !library.is_file() {
        let folder = folder.display();
        eprintln!(
            "oz: there is no libexports.a in {folder}: `./library`, run in the repository's root, makes it in target/staticlib; OZ_LIB \
            names another folder that has it."
        );
        process::exit(1);
    }
    println!("cargo:rustc-link-search=native={}", folder.display());
    println!("cargo:rustc-link-lib=static=exports");
}
