//! Links the archive that is compared. Where it lies is told from outside, so that this folder names no place.

use std::path::Path;
use std::process::exit;

fn main() {
    println!("cargo:rerun-if-env-changed=RK_LIB_DIR");
    let Ok(folder) = std::env::var("RK_LIB_DIR") else {
        eprintln!("RK_LIB_DIR is not set: set it to the folder that holds libritikancha.a");
        exit(1);
    };
    let archive = Path::new(&folder).join("libritikancha.a");
    if !archive.is_file() {
        eprintln!("RK_LIB_DIR is set, but {} is not a file", archive.display());
        exit(1);
    }
    println!("cargo:rerun-if-changed={}", archive.display());
    println!("cargo:rustc-link-search=native={folder}");
    println!("cargo:rustc-link-lib=static=ritikancha");
}
