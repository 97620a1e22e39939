//! Comparison and measurement link the static library of the proved register, whose folder ZIDLEMOWO_LIB names.
//! Nothing else of this crate needs it.

/// Says where the library is, where the feature `proved` asks for it.
fn main() {
    println!("cargo:rerun-if-env-changed=ZIDLEMOWO_LIB");
    if std::env::var_os("CARGO_FEATURE_PROVED").is_some() {
        let folder = std::env::var("ZIDLEMOWO_LIB").expect("ZIDLEMOWO_LIB names the folder of libgateway.a");
        println!("cargo:rustc-link-search=native={folder}");
        println!("cargo:rustc-link-lib=static=gateway");
        println!("cargo:rerun-if-changed={folder}/libgateway.a");
    }
}
