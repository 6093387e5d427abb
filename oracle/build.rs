//! Links the static library that `tools/build smear_c` writes.

fn main() {
    let dir = format!("{}/../target/staticlib", env!("CARGO_MANIFEST_DIR"));
    println!("cargo:rustc-link-search=native={dir}");
    println!("cargo:rustc-link-lib=static=smear_c");
    println!("cargo:rerun-if-changed={dir}/libsmear_c.a");
}
