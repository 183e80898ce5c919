//! Tells where libgablestrand.a stands: in the folder that GABLESTRAND_LIB names, else where `bindings/staticlib` puts it.
use std::path::PathBuf;

fn main() {
    println!("cargo:rerun-if-env-changed=GABLESTRAND_LIB");
    let folder = match std::env::var_os("GABLESTRAND_LIB") {
        Some(folder) => PathBuf::from(folder),
        None => PathBuf::from(env!("CARGO_MANIFEST_DIR")).join("../../target/staticlib"),
    };
    println!("cargo:rerun-if-changed={}", folder.join("libgablestrand.a").display());
    println!("cargo:rustc-link-search=native={}", folder.display());
    // Not bundled, so that the crate itself is built before the library is there; what uses it is linked with it.
    println!("cargo:rustc-link-lib=static:-bundle=gablestrand");
}
