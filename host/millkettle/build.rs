//! Links the proved archives, libhost.a and libengine_c.a: from the folder that
//! MILLKETTLE_ARCHIVE_DIR names, or else from where `host/archives` writes them.

use std::env;
use std::path::PathBuf;

fn main() {
    println!("cargo:rerun-if-env-changed=MILLKETTLE_ARCHIVE_DIR");
    let target = env::var("CARGO_CFG_TARGET_ARCH").unwrap_or_default();
    if target != "x86_64" {
        panic!("the archive is x86-64: build with --target x86_64-unknown-linux-gnu");
    }
    let folder = archive_folder();
    println!("cargo:rustc-link-search=native={}", folder.display());
    for name in ["host", "engine_c"] {
        let archive = folder.join(format!("lib{name}.a"));
        if !archive.is_file() {
            panic!("no {}: run `host/archives` first", archive.display());
        }
        println!("cargo:rerun-if-changed={}", archive.display());
        println!("cargo:rustc-link-lib=static={name}");
    }
}

fn archive_folder() -> PathBuf {
    match env::var_os("MILLKETTLE_ARCHIVE_DIR") {
        Some(folder) => PathBuf::from(folder),
        None => PathBuf::from(env!("CARGO_MANIFEST_DIR")).join("../../target/staticlib"),
    }
}
