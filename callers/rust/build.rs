//! Links target/lib/libtirvouez.a, which `callers/build` makes.

fn main() {
    let folder = concat!(env!("CARGO_MANIFEST_DIR"), "/../../target/lib");
    println!("cargo::rustc-link-search=native={folder}");
    println!("cargo::rustc-link-lib=static=tirvouez");
    println!("cargo::rerun-if-changed={folder}/libtirvouez.a");
}
