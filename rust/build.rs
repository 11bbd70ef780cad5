//! Links the proved library that `make target/staticlib/libtrackvesper.a` makes at the top of the
//! repository. It is made for x86-64: on another machine this crate is built without it, and has its
//! types alone.

use std::env;
use std::path::Path;

fn main() {
    println!("cargo:rustc-check-cfg=cfg(proved)");
    let folder = format!("{}/../target/staticlib", env::var("CARGO_MANIFEST_DIR").unwrap());
    println!("cargo:rerun-if-changed={folder}/libtrackvesper.a");
    if env::var("CARGO_CFG_TARGET_ARCH").as_deref() != Ok("x86_64") {
        println!("cargo:warning=built without the proved library, which is made for x86-64 only");
        return;
    }
    if !Path::new(&folder).join("libtrackvesper.a").is_file() {
        panic!("target/staticlib/libtrackvesper.a is not there: `make target/staticlib/libtrackvesper.a`, at the top of the repository, makes it");
    }
    println!("cargo:rustc-cfg=proved");
    println!("cargo:proved=yes");
    println!("cargo:rustc-link-search=native={folder}");
    println!("cargo:rustc-link-lib=static=trackvesper");
}
