//! Links the static library of the proved register: from the folder that ZIDLEMOWO_LIB names, or else from `target/staticlib`.
use std::env;
use std::path::PathBuf;

fn main() {
    println!("cargo:rerun-if-env-changed=ZIDLEMOWO_LIB");
    let here = PathBuf::from(env::var_os("CARGO_MANIFEST_DIR").expect("cargo names this folder"));
    let folder = env::var_os("ZIDLEMOWO_LIB").map_or_else(|| here.join("../target/staticlib"), PathBuf::from);
    let library = folder.join("libgateway.a");
    println!("cargo:rerun-if-changed={}", library.display());
    if !library.is_file() || !folder.is_absolute() {
        eprintln!("There is no {}, or that is no full path.", library.display());
        eprintln!("Run `tools/build gateway` in the project's root; or name the folder of libgateway.a in ZIDLEMOWO_LIB, by its full path.");
        std::process::exit(1);
    }
    println!("cargo:rustc-link-search=native={}", folder.display());
    println!("cargo:rustc-link-lib=static=gateway");
}
