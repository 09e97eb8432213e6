//! Links the static library, whose folder ZELKHOMUR_LIBRARY names.

fn main() {
    println!("cargo:rerun-if-env-changed=ZELKHOMUR_LIBRARY");
    if let Ok(folder) = std::env::var("ZELKHOMUR_LIBRARY") {
        println!("cargo:rerun-if-changed={folder}/libzelkhomur_c.a");
        println!("cargo:rustc-link-search=native={folder}");
    }
    println!("cargo:rustc-link-lib=static=zelkhomur_c");
}
