// Links the static libraries under target/staticlib beside this folder: `probe`, and `planner` where it is built; cfg(planner) says so.
fn main() {
    let root = std::path::Path::new(env!("CARGO_MANIFEST_DIR")).parent().unwrap();
    let libraries = root.join("target").join("staticlib");
    println!("cargo:rustc-link-search=native={}", libraries.display());
    println!("cargo:rustc-link-lib=static=probe");
    println!("cargo:rustc-check-cfg=cfg(planner)");
    if libraries.join("libplanner.a").exists() {
        println!("cargo:rustc-link-lib=static=planner");
        println!("cargo:rustc-cfg=planner");
    }
    if std::env::var_os("CARGO_FEATURE_SKETCH").is_some() {
        println!("cargo:rustc-link-lib=static=sketch");
    }
    if std::env::var_os("CARGO_FEATURE_BEFORE").is_some() {
        println!("cargo:rustc-link-lib=static=before");
    }
    println!("cargo:rerun-if-changed={}", libraries.display());
}
