//! Links the proved library, and only when the feature `linked` asks for it.
//! The library is one object that shows the five calls of the interface and
//! nothing else, so it clashes with no name of the standard library.

use std::env;

fn main() {
    println!("cargo:rerun-if-changed=build.rs");
    println!("cargo:rerun-if-env-changed=JOURNEYS_LIB");
    if env::var_os("CARGO_FEATURE_LINKED").is_none() {
        return;
    }
    match env::var("JOURNEYS_LIB") {
        Ok(folder) => {
            println!("cargo:rerun-if-changed={folder}/libexports.a");
            println!("cargo:rustc-link-search=native={folder}");
            println!("cargo:rustc-link-lib=static=exports");
        }
        Err(_) => {
            eprintln!("feature `linked` needs JOURNEYS_LIB, the folder that holds libexports.a");
            std::process::exit(1);
        }
    }
}
