//! Links the library from the directory that SAGEPLIERS_LIB_DIR names, FLINT with the check, which the system's C compiler makes, and PARI's library.

use std::process::Command;

fn run(command: &mut Command) {
    let status = command.status().expect("the command can be run");
    assert!(status.success(), "{command:?} failed");
}

fn main() {
    println!("cargo:rerun-if-env-changed=SAGEPLIERS_LIB_DIR");
    let library = std::env::var("SAGEPLIERS_LIB_DIR")
        .expect("SAGEPLIERS_LIB_DIR must name the directory of libsagepliers.a");
    println!("cargo:rerun-if-changed={library}/libsagepliers.a");
    println!("cargo:rustc-link-search=native={library}");
    println!("cargo:rustc-link-lib=static=sagepliers");

    let out = std::env::var("OUT_DIR").expect("cargo sets it");
    let (object, archive) = (format!("{out}/check.o"), format!("{out}/libflintcheck.a"));
    println!("cargo:rerun-if-changed=../flint/check.c");
    run(Command::new("cc").args([
        "-O3",
        "-Wall",
        "-Werror",
        "-c",
        "../flint/check.c",
        "-o",
        &object,
    ]));
    run(Command::new("ar").args(["rcs", &archive, &object]));
    println!("cargo:rustc-link-search=native={out}");
    println!("cargo:rustc-link-lib=static=flintcheck");
    println!("cargo:rustc-link-lib=flint");
    println!("cargo:rustc-link-lib=pari");
}
