//! Links the static library: ../target/staticlib/libcapi.a, or the file that LOES_STATICLIB names.

use std::env;
use std::path::PathBuf;

fn main() {
    println!("cargo:rerun-if-env-changed=LOES_STATICLIB");
    if env::var_os("CARGO_FEATURE_LINKED").is_none() {
        return;
    }
    let here = PathBuf::from(env::var_os("CARGO_MANIFEST_DIR").expect("cargo sets CARGO_MANIFEST_DIR"));
    let library = match env::var_os("LOES_STATICLIB") {
        Some(path) => PathBuf::from(path),
        None => here.join("../target/staticlib/libcapi.a"),
    };
    println!("cargo:rerun-if-changed={}", library.display());
    let Ok(library) = library.canonicalize() else {
        eprintln!("{} is missing.", library.display());
        eprintln!("Run `make target/staticlib/libcapi.a` in the repository's root, or name the file in LOES_STATICLIB.");
        eprintln!("What needs no library runs with `cargo test --no-default-features`.");
        std::process::exit(1);
    };
    let file = library.file_name().and_then(|name| name.to_str()).unwrap_or("");
    let Some(name) = file.strip_prefix("lib").and_then(|name| name.strip_suffix(".a")) else {
        eprintln!("LOES_STATICLIB names {}, which is not of the form libNAME.a.", library.display());
        std::process::exit(1);
    };
    println!("cargo:rustc-link-search=native={}", library.parent().expect("a file has a folder").display());
    println!("cargo:rustc-link-lib=static={name}");
    // for the test that compiles the C header
    println!("cargo:rustc-env=LOES_STATICLIB_FOUND={}", library.display());
}
