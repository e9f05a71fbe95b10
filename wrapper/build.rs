//! Links the static library that tools/staticlib makes.
fn main() {
    let folder = std::path::Path::new(env!("CARGO_MANIFEST_DIR")).join("../target/staticlib");
    println!("cargo:rustc-link-search=native={}", folder.display());
    println!("cargo:rustc-link-lib=static=yirtabun");
    println!("cargo:rerun-if-changed={}", folder.join("libyirtabun.a").display());
}
