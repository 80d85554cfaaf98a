//! Links libjdoc.a and libjdoc_text.a: of the folders that JDOC_LIB_DIR and JDOC_TEXT_LIB_DIR name, of `lib` as in a release, or of
//! bindings/c/out and bindings/text/out.

use std::env;
use std::path::Path;

fn link(variable: &str, part: &str, library: &str) {
    let released = concat!(env!("CARGO_MANIFEST_DIR"), "/../lib");
    let folder = env::var(variable).unwrap_or_else(|_| match Path::new(released).exists() {
        true => released.to_string(),
        false => format!("{}/../../{part}/out", env!("CARGO_MANIFEST_DIR")),
    });
    if !Path::new(&format!("{folder}/lib{library}.a")).exists() {
        let builds = format!("`make` in bindings/{part} builds it, or {variable} names its folder");
        println!("cargo:warning=lib{library}.a is not in {folder}: {builds}");
    }
    println!("cargo:rustc-link-search=native={folder}");
    println!("cargo:rustc-link-lib=static={library}");
    println!("cargo:rerun-if-env-changed={variable}");
    println!("cargo:rerun-if-changed={folder}/lib{library}.a");
}

fn main() {
    link("JDOC_TEXT_LIB_DIR", "text", "jdoc_text"); // needs the library after it
    link("JDOC_LIB_DIR", "c", "jdoc");
}
