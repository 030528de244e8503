//! Links what bench/run has compiled into the folder that BENCH_OBJECTS names: the library by each C compiler
//! that is there, and Boost's curve by each C++ compiler where its headers are. A cfg says which.

use std::env;
use std::path::PathBuf;

fn main() {
    println!("cargo:rerun-if-env-changed=BENCH_OBJECTS");
    let folder = PathBuf::from(env::var_os("BENCH_OBJECTS").expect("bench/run names the folder"));
    for (object, cfg) in [("kaihveto-gcc", "gcc"), ("kaihveto-clang", "clang"), ("boost-gcc", "gcc_boost"), ("boost-clang", "clang_boost")]
    {
        println!("cargo:rustc-check-cfg=cfg({cfg})");
        let archive = folder.join(format!("lib{object}.a"));
        println!("cargo:rerun-if-changed={}", archive.display());
        if archive.is_file() {
            println!("cargo:rustc-cfg={cfg}");
            println!("cargo:rustc-link-lib=static={object}");
            if cfg.ends_with("boost") {
                println!("cargo:rustc-link-lib=stdc++");
            }
        }
    }
    println!("cargo:rustc-link-search=native={}", folder.display());
}
