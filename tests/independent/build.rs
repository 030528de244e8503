//! Links libkaihveto.a from the folder that KAIHVETO_LIB names, or from target/native, where tests/run puts
//! the library as C compiled for this processor, and then turns the cfg `archive` on. Where there is none yet
//! nothing is linked, and calls can only go to a program that is (src/far.rs).

use std::env;
use std::path::PathBuf;

fn main() {
    println!("cargo:rustc-check-cfg=cfg(archive)");
    println!("cargo:rerun-if-env-changed=KAIHVETO_LIB");
    println!("cargo:rerun-if-changed=build.rs");
    let package = PathBuf::from(env::var_os("CARGO_MANIFEST_DIR").expect("cargo names the package's folder"));
    let folder = match env::var_os("KAIHVETO_LIB") {
        Some(named) => PathBuf::from(named),
        None => package.join("../../target/native"),
    };
    let archive = folder.join("libkaihveto.a");
    println!("cargo:rerun-if-changed={}", archive.display());
    if archive.is_file() {
        println!("cargo:rustc-cfg=archive");
        println!("cargo:rustc-link-search=native={}", folder.display());
        println!("cargo:rustc-link-lib=static=kaihveto");
    }
}
