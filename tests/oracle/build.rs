//! With the feature `linked`, links the static library `run` found in the directory `LIB_DIR`.

use std::env;

fn main() {
    println!("cargo:rerun-if-env-changed=LIB_DIR");
    if env::var_os("CARGO_FEATURE_LINKED").is_none() {
        return;
    }
    let directory = env::var("LIB_DIR").expect("the feature `linked` needs LIB_DIR, the directory of librun.a");
    println!("cargo:rerun-if-changed={directory}/librun.a");
    println!("cargo:rustc-link-search=native={directory}");
    println!("cargo:rustc-link-lib=static=run");
}
