//! Tells the linker where libjefkantu.a is: the directory JEFKANTU_LIB_DIR, an absolute path.

fn main() {
    println!("cargo:rerun-if-env-changed=JEFKANTU_LIB_DIR");
    println!("cargo:rerun-if-changed=build.rs");
    if let Ok(directory) = std::env::var("JEFKANTU_LIB_DIR") {
        println!("cargo:rustc-link-search=native={directory}");
        println!("cargo:rerun-if-changed={directory}/libjefkantu.a");
    }
}
