//! Links the static library `sagepliers` from the directory that the
//! environment variable SAGEPLIERS_LIB_DIR names.

fn main() {
    println!("cargo:rerun-if-env-changed=SAGEPLIERS_LIB_DIR");
    let directory = std::env::var("SAGEPLIERS_LIB_DIR")
        .expect("SAGEPLIERS_LIB_DIR must name the directory of libsagepliers.a");
    println!("cargo:rerun-if-changed={directory}/libsagepliers.a");
    println!("cargo:rustc-link-search=native={directory}");
    println!("cargo:rustc-link-lib=static=sagepliers");
}
