// Links libsheets.a, which `hosts/library` makes in the repository. SHEETS_LIB_DIR names its folder where it is elsewhere.
use std::path::PathBuf;

fn main() {
    let root = PathBuf::from(std::env::var("CARGO_MANIFEST_DIR").unwrap()).join("../..");
    let folder = std::env::var("SHEETS_LIB_DIR").map(PathBuf::from).unwrap_or_else(|_| root.join("target/staticlib"));
    let library = folder.join("libsheets.a");
    println!("cargo:rerun-if-env-changed=SHEETS_LIB_DIR");
    println!("cargo:rerun-if-changed={}", library.display());
    if !library.is_file() {
        panic!("{} is missing: run `hosts/library` in the sheets repository, or set SHEETS_LIB_DIR", library.display());
    }
    println!("cargo:rustc-link-search=native={}", folder.display());
    println!("cargo:rustc-link-lib=static=sheets");
}
