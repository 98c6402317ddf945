//! Finds the proved library: in the folder that `PCC_LIB_DIR` names, else where `rt lib` leaves it
//! in the repository.

use std::path::{Path, PathBuf};
use std::{env, process};

const LIBRARY: &str = "libhost_interface.a";

fn main() {
    println!("cargo:rerun-if-env-changed=PCC_LIB_DIR");
    println!("cargo:rerun-if-changed=build.rs");
    let manifest = PathBuf::from(env::var_os("CARGO_MANIFEST_DIR").expect("set by cargo"));
    let folder = match env::var_os("PCC_LIB_DIR") {
        Some(folder) => manifest.join(folder),
        None => manifest.join("../../crates/host_interface/out"),
    };
    let library = folder.join(LIBRARY);
    println!("cargo:rerun-if-changed={}", library.display());
    if !Path::new(&library).is_file() {
        eprintln!("error: the proved library is not there: {}", library.display());
        eprintln!("  build it with `rt lib` in the repository's folder crates/host_interface,");
        eprintln!("  or set PCC_LIB_DIR to the absolute path of the folder that has {LIBRARY}");
        process::exit(1);
    }
    println!("cargo:rustc-link-search=native={}", folder.display());
    println!("cargo:rustc-link-lib=static=host_interface");
}
