//! Links what `rt lib` wrote of `exported` and `exported_unit`; STATICLIB names another folder with both, as that of an older tree.

fn main() {
    let here = std::env::var("CARGO_MANIFEST_DIR").unwrap();
    let other = std::env::var("STATICLIB");
    println!("cargo:rerun-if-env-changed=STATICLIB");
    for library in ["exported", "exported_unit"] {
        let folder = other.clone().unwrap_or(format!("{here}/../../crates/{library}/out"));
        println!("cargo:rustc-link-search=native={folder}");
        println!("cargo:rerun-if-changed={folder}/lib{library}.a");
        println!("cargo:rustc-link-lib=static={library}");
    }
}
