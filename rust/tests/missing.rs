//! What a build says where the static library is missing.
use std::ffi::OsString;
use std::path::{Path, PathBuf};
use std::process::{Command, Output};
use std::{env, fs};

/// A folder with nothing in it.
fn empty() -> PathBuf {
    let folder = Path::new(env!("CARGO_TARGET_TMPDIR")).join("without-library");
    fs::create_dir_all(&folder).expect("the folder is made");
    folder
}

/// Compiles the build script.
fn script() -> PathBuf {
    let script = Path::new(env!("CARGO_TARGET_TMPDIR")).join("build-script");
    let compiler = env::var_os("RUSTC").unwrap_or_else(|| OsString::from("rustc"));
    let built = Command::new(compiler)
        .args(["--edition", "2021", "-o"])
        .arg(&script)
        .arg(Path::new(env!("CARGO_MANIFEST_DIR")).join("build.rs"))
        .status()
        .expect("rustc is installed");
    assert!(built.success());
    script
}

/// Runs the build script of a package in this folder, with the library in the folder that is named, if one is.
fn run(script: &Path, package: &Path, named: Option<&Path>) -> Output {
    let mut run = Command::new(script);
    run.env("CARGO_MANIFEST_DIR", package)
        .env_remove("DAPOHIRU_LIB_DIR");
    if let Some(folder) = named {
        run.env("DAPOHIRU_LIB_DIR", folder);
    }
    run.output().expect("the script runs")
}

#[test]
fn library_that_is_missing_is_told_with_the_variable_that_names_its_folder_or_how_to_build_it() {
    let (script, empty) = (script(), empty());
    for (named, mend) in [
        (
            Some(&*empty),
            "DAPOHIRU_LIB_DIR names this folder; name another, or unset it",
        ),
        (
            None,
            "run `tools/built library` at the top of the repository",
        ),
    ] {
        let ran = run(&script, &empty, named);
        assert_eq!(ran.status.code(), Some(1));
        let said = String::from_utf8_lossy(&ran.stderr).into_owned();
        let folder = match named {
            Some(folder) => folder.to_path_buf(),
            None => empty.join("../target/staticlib"),
        };
        let archive = folder.join("libdapohiru.a");
        assert_eq!(said, format!("{} is missing: {mend}\n", archive.display()));
    }
}
