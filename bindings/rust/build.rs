//! Links the proved operations, `libplumanchor.a`: that of an installed Plumanchor in the folder
//! that PLUMANCHOR_LIB_DIR names, else what `install/archive` wrote in this repository.

fn main() {
    println!("cargo:rerun-if-env-changed=PLUMANCHOR_LIB_DIR");
    let here = concat!(env!("CARGO_MANIFEST_DIR"), "/../../target/staticlib");
    let folder = std::env::var("PLUMANCHOR_LIB_DIR").unwrap_or(here.into());
    println!("cargo:rustc-link-search=native={folder}");
    println!("cargo:rustc-link-lib=static=plumanchor");
    println!("cargo:rerun-if-changed={folder}/libplumanchor.a");
}
