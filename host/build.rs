//! Tells the linker where the proved library lies.

fn main() {
    let here = std::env::var("CARGO_MANIFEST_DIR").expect("cargo sets it");
    println!("cargo:rustc-link-search=native={here}/lib");
    println!("cargo:rerun-if-changed=lib/libdoor.a");
}
