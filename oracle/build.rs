//! Links the compiled port: `console/build` writes target/console/libconsole.a.
fn main() {
    let root = std::path::Path::new(env!("CARGO_MANIFEST_DIR")).parent().expect("the repository");
    println!("cargo:rustc-link-search=native={}", root.join("target/console").display());
    println!("cargo:rustc-link-lib=static=console");
    println!("cargo:rerun-if-changed={}", root.join("target/console/libconsole.a").display());
}
