//! Links the proved static library, which lies in the directory that the
//! environment variable RESTART_LIB_DIR names. The feature `mock` does without.

/// The library's name: the file is lib<name>.a.
const LIBRARY: &str = "c_planner";
const DIRECTORY: &str = "RESTART_LIB_DIR";

fn main() {
    println!("cargo:rerun-if-env-changed={DIRECTORY}");
    println!("cargo:rustc-check-cfg=cfg(linked)");
    if std::env::var_os("CARGO_FEATURE_MOCK").is_some() {
        return;
    }
    let Ok(directory) = std::env::var(DIRECTORY) else {
        panic!("set {DIRECTORY} to the directory of lib{LIBRARY}.a, or use --features mock");
    };
    println!("cargo:rerun-if-changed={directory}/lib{LIBRARY}.a");
    println!("cargo:rustc-link-search=native={directory}");
    println!("cargo:rustc-link-lib=static={LIBRARY}");
    println!("cargo:rustc-cfg=linked");
}
