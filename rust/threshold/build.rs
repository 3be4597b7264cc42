//! Names the static library to the linker. It is looked for in the folder that THRESHOLD_LIB_DIR names, or where that is not set in the
//! repository's target/staticlib, where `./build library` puts it.

use std::env;
use std::path::PathBuf;

fn main() {
    println!("cargo:rerun-if-env-changed=THRESHOLD_LIB_DIR");
    let folder = match env::var_os("THRESHOLD_LIB_DIR") {
        Some(folder) => PathBuf::from(folder),
        None => PathBuf::from(env::var_os("CARGO_MANIFEST_DIR").expect("set by Cargo")).join("../../target/staticlib"),
    };
    let library = folder.join("libthreshold.a");
    assert!(
        folder.is_absolute() && library.exists(),
        "no {}: run `./build library` at the root of the repository, or set THRESHOLD_LIB_DIR to a folder by its absolute path",
        library.display()
    );
    println!("cargo:rerun-if-changed={}", library.display());
    println!("cargo:rustc-link-search=native={}", folder.display());
    println!("cargo:rustc-link-lib=static=threshold");
}
