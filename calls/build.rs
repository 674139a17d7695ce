// Tells the linker where libengine.a, and libmeasure.a for the crate bench above this one, are: in the folder that
// LAVUTREMO_LIB names, or in ../target/staticlib.
use std::env;
use std::path::PathBuf;

fn main() {
    let here = PathBuf::from(env::var("CARGO_MANIFEST_DIR").unwrap());
    let folder = here.join(env::var("LAVUTREMO_LIB").unwrap_or("../target/staticlib".into()));
    println!("cargo:rustc-link-search=native={}", folder.display());
    println!("cargo:rerun-if-env-changed=LAVUTREMO_LIB");
    println!("cargo:rerun-if-changed=build.rs");
    for library in ["libengine.a", "libmeasure.a"] {
        println!("cargo:rerun-if-changed={}", folder.join(library).display());
    }
}
