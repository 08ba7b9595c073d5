//! Links the bench's static library, with the feature `linked` alone.

fn main() {
    println!("cargo:rerun-if-changed=build.rs");
    if std::env::var_os("CARGO_FEATURE_LINKED").is_some() {
        let top = concat!(env!("CARGO_MANIFEST_DIR"), "/../crates/stepbench/out");
        println!("cargo:rustc-link-search=native={top}");
        println!("cargo:rustc-link-lib=static=stepbench");
        println!("cargo:rerun-if-changed={top}/libstepbench.a");
    }
}
