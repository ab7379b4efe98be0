//! Links the static library that `tools/built library` writes.
//! `DAPOHIRU_LIB_DIR` names another folder than `target/staticlib` of the repository.
use std::{env, path::PathBuf, process};

/// Names the folder with the library.
const VARIABLE: &str = "DAPOHIRU_LIB_DIR";

fn main() {
    println!("cargo:rerun-if-env-changed={VARIABLE}");
    let named = env::var_os(VARIABLE);
    let folder = match &named {
        Some(folder) => PathBuf::from(folder),
        // asked for when it runs, so that a checkout may be moved with what was built in it
        None => {
            let package =
                env::var_os("CARGO_MANIFEST_DIR").expect("cargo says where the package is");
            PathBuf::from(package).join("../target/staticlib")
        }
    };
    let archive = folder.join("libdapohiru.a");
    println!("cargo:rerun-if-changed={}", archive.display());
    if !archive.is_file() {
        let mend = match named {
            Some(_) => format!("{VARIABLE} names this folder; name another, or unset it"),
            None => "run `tools/built library` at the top of the repository".to_string(),
        };
        eprintln!("{} is missing: {mend}", archive.display());
        process::exit(1);
    }
    println!("cargo:rustc-link-search=native={}", folder.display());
    println!("cargo:rustc-link-lib=static=dapohiru");
}
