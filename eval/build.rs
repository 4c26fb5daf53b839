//! Links the planner's archive libhost.a from the folder that PLANNER_LIB_DIR names.

fn main() {
    println!("cargo:rerun-if-env-changed=PLANNER_LIB_DIR");
    let folder = std::env::var("PLANNER_LIB_DIR").expect("PLANNER_LIB_DIR is the folder with libhost.a");
    println!("cargo:rerun-if-changed={folder}/libhost.a");
    println!("cargo:rustc-link-search=native={folder}");
    println!("cargo:rustc-link-lib=static=host");
}
