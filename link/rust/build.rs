// Links libhps.a, from the folder that HPS_LIB names or from where `link/library` leaves it.
use std::env::var;

fn main() {
    let here = var("CARGO_MANIFEST_DIR").unwrap();
    let folder = var("HPS_LIB").unwrap_or(format!("{here}/../../target/staticlib"));
    println!("cargo:rerun-if-env-changed=HPS_LIB");
    println!("cargo:rerun-if-changed={folder}/libhps.a");
    println!("cargo:rustc-link-search=native={folder}");
    println!("cargo:rustc-link-lib=static=hps");
}
