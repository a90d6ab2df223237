//! Compiles the plain C code. With the feature `library` also proves and builds the static library, and links a copy of
//! it, so that nothing here needs what `rt` leaves in the crates' folders to stay.

use std::path::{Path, PathBuf};
use std::process::Command;

fn main() {
    println!("cargo:rerun-if-changed=build.rs");
    let out = PathBuf::from(std::env::var_os("OUT_DIR").expect("cargo gives a build script its folder"));
    println!("cargo:rustc-link-search=native={}", out.display());
    plain_c(&out);
    if std::env::var_os("CARGO_FEATURE_LIBRARY").is_some() {
        library(&out);
    }
}

/// This folder, asked for when the script runs: a copy of the repository may come with the script compiled elsewhere.
fn tests() -> PathBuf {
    PathBuf::from(std::env::var_os("CARGO_MANIFEST_DIR").expect("cargo gives a build script its package"))
}

/// Runs a command that must succeed.
fn run(command: &mut Command, what: &str) {
    let name = command.get_program().to_string_lossy().into_owned();
    match command.status() {
        Ok(status) if status.success() => {}
        Ok(status) => panic!("{command:?} failed: {status}"),
        Err(error) => panic!("cannot run `{name}`, {what}: {error}"),
    }
}

fn plain_c(out: &Path) {
    let source = tests().join("c/plain.c");
    println!("cargo:rerun-if-changed={}", source.display());
    let object = out.join("plain.o");
    let mut compiler = Command::new("gcc");
    compiler.args(["-std=c99", "-Wall", "-Wextra", "-Wpedantic", "-Werror", "-O2", "-c"]).arg(source);
    // Short loops take twice as long where the linker happens to put them across two cache lines.
    compiler.arg("-falign-functions=64");
    run(compiler.arg("-o").arg(&object), "the C compiler");
    run(Command::new("ar").arg("rcs").arg(out.join("libplain.a")).arg(object), "which makes C libraries");
    println!("cargo:rustc-link-lib=static=plain");
}

fn library(out: &Path) {
    let tests = tests();
    let root = tests.parent().expect("tests/ stands in the repository");
    println!("cargo:rerun-if-changed={}", root.join("crates.txt").display());
    sources(&root.join("crates")).iter().for_each(|path| println!("cargo:rerun-if-changed={}", path.display()));
    let cabi = root.join("crates/cabi");
    // For any x86-64: left to itself, rt takes a newer processor, which a library does not look for.
    run(Command::new("rt").args(["lib", "--cpu=x86-64"]).current_dir(&cabi), "the Rattle toolchain");
    let library = out.join("libcabi.a");
    std::fs::copy(cabi.join("out/libcabi.a"), &library).expect("`rt lib` wrote the library");
    println!("cargo:rustc-link-lib=static=cabi");
    println!("cargo:rustc-env=TULIVOMBE_LIBRARY={}", library.display());
}

/// The folders of definitions, code and proofs of all crates. What `rt` itself writes, in the folder `out` beside them, is
/// no change.
fn sources(crates: &Path) -> Vec<PathBuf> {
    let entries = std::fs::read_dir(crates).unwrap_or_else(|e| panic!("{}: {e}", crates.display()));
    let folders = entries.map(|entry| entry.expect("the folder can be listed").path());
    let parts = folders.flat_map(|folder| ["specs", "src", "proofs"].map(|part| folder.join(part)));
    parts.filter(|path| path.is_dir()).collect()
}
