//! Links the three libraries with renamed entries that bench/pair has put into the directory that SAGEPLIERS_PAIR_DIR names.

fn main() {
    println!("cargo:rerun-if-env-changed=SAGEPLIERS_PAIR_DIR");
    let folder = std::env::var("SAGEPLIERS_PAIR_DIR")
        .expect("SAGEPLIERS_PAIR_DIR must name the directory of the renamed libraries");
    println!("cargo:rustc-link-search=native={folder}");
    for name in ["before", "after", "control"] {
        println!("cargo:rerun-if-changed={folder}/lib{name}.a");
        println!("cargo:rustc-link-lib=static={name}");
    }
}
