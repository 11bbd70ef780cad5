//! Links the static library that `make target/staticlib/libtrackvesper.a` makes at the top of the
//! repository.

fn main() {
    let here = std::env::var("CARGO_MANIFEST_DIR").unwrap();
    let folder = format!("{here}/../../target/staticlib");
    println!("cargo:rustc-link-search=native={folder}");
    println!("cargo:rustc-link-lib=static=trackvesper");
    println!("cargo:rerun-if-changed={folder}/libtrackvesper.a");
}
