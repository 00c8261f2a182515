//! With the feature `librcm`, links the library in the folder that RCM_LIB_DIR names; with `plain`,
//! compiles and links the plain C interpreter. Without them nothing outside this package is needed.

use std::path::Path;
use std::process::Command;

fn feature(name: &str) -> bool {
    std::env::var_os(format!("CARGO_FEATURE_{name}")).is_some()
}

fn run(program: &str, arguments: &[&str]) {
    let status = Command::new(program).args(arguments).status();
    assert!(status.is_ok_and(|status| status.success()), "{program} {arguments:?}");
}

fn main() {
    println!("cargo:rerun-if-env-changed=RCM_LIB_DIR");
    println!("cargo:rerun-if-changed=build.rs");
    if feature("LIBRCM") {
        let folder =
            std::env::var("RCM_LIB_DIR").expect("RCM_LIB_DIR names the folder of librcm.a");
        println!("cargo:rerun-if-changed={folder}/librcm.a");
        println!("cargo:rustc-link-search=native={folder}");
        println!("cargo:rustc-link-lib=static=rcm");
    }
    if feature("PLAIN") {
        let folder = std::env::var("OUT_DIR").expect("cargo gives a folder");
        let object = Path::new(&folder).join("plain.o").display().to_string();
        let library = Path::new(&folder).join("libplain.a").display().to_string();
        println!("cargo:rerun-if-changed=../bench/plain.c");
        println!("cargo:rerun-if-changed=../bench/plain.h");
        // Plain C stands at a multiple of 64; bench/places puts the library at several places.
        let flags =
            ["-std=c11", "-O3", "-falign-functions=64", "-Wall", "-Wextra", "-Werror", "-c"];
        run("gcc", &[&flags[..], &["../bench/plain.c", "-o", &object]].concat());
        run("ar", &["rcs", &library, &object]);
        println!("cargo:rustc-link-search=native={folder}");
        println!("cargo:rustc-link-lib=static=plain");
    }
}
