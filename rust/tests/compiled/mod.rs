//! C programs that are compiled with the header and the library, and run.
use std::path::{Path, PathBuf};
use std::process::Command;

/// What the C compiler is told.
pub const C99: &[&str] = &["-std=c99", "-pedantic"];
/// What the C++ compiler is told.
pub const CPP: &[&str] = &["-x", "c++", "-std=c++11", "-pedantic"];

/// A path from the top of the repository.
pub fn top(path: &str) -> PathBuf {
    Path::new(env!("CARGO_MANIFEST_DIR")).join("..").join(path)
}

/// The static library that the wrapper links.
fn library() -> PathBuf {
    let folder = std::env::var_os("DAPOHIRU_LIB_DIR");
    let folder = folder.map_or_else(|| top("target/staticlib"), PathBuf::from);
    folder.join("libdapohiru.a")
}

/// Builds a C program with this compiler; nothing without the compiler.
pub fn built(program: &Path, source: &str, compiler: &str, options: &[&str]) -> Option<()> {
    let built = Command::new(compiler)
        .args(options)
        .args(["-Wall", "-Wextra", "-Werror", "-I"])
        .arg(top("include"))
        .arg(top(source))
        .args(["-x", "none"])
        .arg(library())
        .arg("-o")
        .arg(program)
        .output()
        .ok()?;
    let errors = String::from_utf8_lossy(&built.stderr);
    assert!(built.status.success(), "{compiler}: {errors}");
    Some(())
}

/// Builds a C program of this name with this compiler and runs it; says what it prints, or nothing without
/// the compiler.
pub fn run(
    name: &str,
    source: &str,
    compiler: &str,
    options: &[&str],
    arguments: &[PathBuf],
) -> Option<String> {
    let program = Path::new(env!("CARGO_TARGET_TMPDIR")).join(name);
    built(&program, source, compiler, options)?;
    let ran = Command::new(&program)
        .args(arguments)
        .output()
        .expect("the program runs");
    let said = String::from_utf8_lossy(&ran.stdout).into_owned();
    assert!(ran.status.success(), "{compiler}: {said}");
    Some(said)
}
