//! Links the product's archive libhost.a, taken from the folder named in PLANNER_LIB_DIR.

use std::env;

fn main() {
    println!("cargo:rerun-if-env-changed=PLANNER_LIB_DIR");
    let folder = env::var("PLANNER_LIB_DIR").expect("PLANNER_LIB_DIR names the folder of libhost.a");
    println!("cargo:rerun-if-changed={folder}/libhost.a");
    println!("cargo:rustc-link-search=native={folder}");
    println!("cargo:rustc-link-lib=static=host");
}
