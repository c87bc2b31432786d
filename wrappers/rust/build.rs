//! Links the archives that `tools/build` makes of the crates exports*: from the folder that PAVING_LIB names, or from
//! target/staticlib of the repository.

use std::path::PathBuf;
use std::{env, fs};

fn main() {
    println!("cargo:rerun-if-env-changed=PAVING_LIB");
    let folder = match env::var_os("PAVING_LIB") {
        Some(folder) => PathBuf::from(folder),
        None => PathBuf::from(env::var_os("CARGO_MANIFEST_DIR").unwrap()).join("../../target/staticlib"),
    };
    println!("cargo:rerun-if-changed={}", folder.display());
    println!("cargo:rustc-link-search=native={}", folder.display());
    let mut names: Vec<String> = fs::read_dir(&folder)
        .into_iter()
        .flatten()
        .filter_map(|entry| entry.ok()?.file_name().into_string().ok())
        .filter_map(|file| Some(file.strip_prefix("lib")?.strip_suffix(".a")?.to_string()))
        .filter(|name| name.starts_with("exports"))
        .collect();
    names.sort();
    if names.is_empty() {
        panic!("no libexports*.a in {}: run `tools/build` first, or set PAVING_LIB", folder.display());
    }
    for name in names {
        println!("cargo:rerun-if-changed={}", folder.join(format!("lib{name}.a")).display());
        println!("cargo:rustc-link-lib=static={name}");
    }
}
