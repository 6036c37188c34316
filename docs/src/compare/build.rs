//! Links the static library `libexports.a` from the folder FOREST_LIB, by default target/staticlib of the repository.

use std::env;
use std::path::PathBuf;

fn main() {
    let package = PathBuf::from(env::var_os("CARGO_MANIFEST_DIR").expect("set by cargo"));
    let folder = env::var_os("FOREST_LIB")
        .map_or_else(|| package.join("../../../target/staticlib"), PathBuf::from);
    let library = folder.join("libexports.a");
    println!("cargo:rerun-if-env-changed=FOREST_LIB");
    println!("cargo:rerun-if-changed={}", library.display());
    println!("cargo:rustc-link-search=native={}", folder.display());
    println!("cargo:rustc-link-lib=static:-bundle=exports");
}
