//! Where the replay finds the static library that `make target/staticlib/libtrackvesper.a` writes.

fn main() {
    let here = std::env::var("CARGO_MANIFEST_DIR").unwrap();
    let folder = format!("{here}/../target/staticlib");
    println!("cargo:rustc-link-search=native={folder}");
    println!("cargo:rerun-if-changed={folder}/libtrackvesper.a");
}
