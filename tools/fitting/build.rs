//! Passes on whether the crate `trackvesper` links the proved library: on a machine other than
//! x86-64 the program is built without it, and the tests go by the model.

fn main() {
    println!("cargo:rustc-check-cfg=cfg(proved)");
    if std::env::var_os("DEP_TRACKVESPER_PROVED").is_some() {
        println!("cargo:rustc-cfg=proved");
    }
}
