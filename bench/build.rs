//! Links the product's archive libhost.a, taken from the folder named in PLANNER_LIB_DIR, into the runner alone.

use std::env;

fn main() {
    println!("cargo:rerun-if-env-changed=PLANNER_LIB_DIR");
    let folder = env::var("PLANNER_LIB_DIR").expect("PLANNER_LIB_DIR names the folder of libhost.a");
    println!("cargo:rerun-if-changed={folder}/libhost.a");
    println!("cargo:rustc-link-arg-bin=bench={folder}/libhost.a");
}
