//! Links the static library that `tools/build smear_c` writes: in $SMEAR_LIB_DIR,
//! or in target/staticlib of this repository.

fn main() {
    let dir = std::env::var("SMEAR_LIB_DIR")
        .unwrap_or_else(|_| format!("{}/../target/staticlib", env!("CARGO_MANIFEST_DIR")));
    println!("cargo:rustc-link-search=native={dir}");
    println!("cargo:rustc-link-lib=static=smear_c");
    println!("cargo:rerun-if-env-changed=SMEAR_LIB_DIR");
    println!("cargo:rerun-if-changed={dir}/libsmear_c.a");
}
