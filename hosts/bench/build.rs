// Compiles native.cpp with the C++ compiler that CXX names, and links it.
use std::path::PathBuf;
use std::process::Command;

fn main() {
    println!("cargo:rerun-if-changed=native.cpp");
    println!("cargo:rerun-if-env-changed=CXX");
    let compiler = std::env::var("CXX").unwrap_or("c++".into());
    let object = PathBuf::from(std::env::var("OUT_DIR").unwrap()).join("native.o");
    let warnings = ["-Wall", "-Wextra", "-Wpedantic", "-Wshadow", "-Wconversion", "-Werror"];
    let options = ["-std=c++17", "-O3", "-fPIC", "-fno-exceptions", "-fno-rtti", "-c", "native.cpp", "-o"];
    let ended = Command::new(&compiler).args(warnings).args(options).arg(&object).status();
    if !ended.is_ok_and(|status| status.success()) {
        panic!("{compiler} could not compile native.cpp");
    }
    println!("cargo:rustc-link-arg={}", object.display());
}
