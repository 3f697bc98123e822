//! links the port, which `rt lib` writes, a static library for each crate of
//! exports.

fn main() {
    for name in ["exports", "exports_voice"] {
        let folder = format!("{}/../../crates/{name}/out", std::env::var("CARGO_MANIFEST_DIR").unwrap());
        println!("cargo:rustc-link-search=native={folder}");
        println!("cargo:rerun-if-changed={folder}/lib{name}.a");
        println!("cargo:rustc-link-lib=static={name}");
    }
}
