//! Finds libcuvolemin.a: in the folder that CUVOLEMIN_LIB_DIR names, or where lib/build leaves it.

use std::env;
use std::path::PathBuf;

fn main() {
    println!("cargo:rerun-if-env-changed=CUVOLEMIN_LIB_DIR");
    let folder = match env::var_os("CUVOLEMIN_LIB_DIR") {
        Some(folder) => PathBuf::from(folder),
        None => PathBuf::from(env::var_os("CARGO_MANIFEST_DIR").expect("cargo sets it"))
            .join("../lib/out"),
    };
    let library = folder.join("libcuvolemin.a");
    println!("cargo:rerun-if-changed={}", library.display());
    if !library.is_file() {
        println!(
            "cargo:warning={} is missing: lib/build makes it",
            library.display()
        );
    }
    println!("cargo:rustc-link-search=native={}", folder.display());
    println!("cargo:rustc-link-lib=static=cuvolemin");
}
