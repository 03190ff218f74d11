// Links the proved library that `bindings/library` makes.
fn main() {
    let root = format!("{}/../..", std::env::var("CARGO_MANIFEST_DIR").unwrap());
    println!("cargo:rustc-link-search=native={root}/target/staticlib");
    println!("cargo:rustc-link-lib=static=heddleplume");
    println!("cargo:rerun-if-changed={root}/target/staticlib/libheddleplume.a");
}
