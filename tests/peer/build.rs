//! Compiles the peer in C, for speed.

use std::path::{Path, PathBuf};
use std::process::Command;

const OPTIONS: [&str; 6] = ["-O3", "-std=c11", "-Wall", "-Wextra", "-Werror", "-fPIC"];

fn main() {
    let to = PathBuf::from(std::env::var_os("OUT_DIR").expect("cargo gives the directory"));
    println!("cargo:rerun-if-changed=c");
    println!("cargo:rerun-if-env-changed=CC");
    let mut files: Vec<PathBuf> = std::fs::read_dir("c")
        .expect("the peer's files")
        .map(|file| file.expect("a file").path())
        .filter(|path| path.extension().is_some_and(|end| end == "c"))
        .collect();
    files.sort();
    let objects: Vec<PathBuf> = files.iter().map(|file| compile(file, &to)).collect();
    let archive = to.join("libpeer.a");
    run(Command::new("ar").arg("rcs").arg(&archive).args(&objects));
    println!("cargo:rustc-link-search=native={}", to.display());
    println!("cargo:rustc-link-lib=static=peer");
}

fn compile(file: &Path, to: &Path) -> PathBuf {
    let compiler = std::env::var("CC").unwrap_or_else(|_| "cc".into());
    let object = to
        .join(file.file_name().expect("a name"))
        .with_extension("o");
    let mut command = Command::new(compiler);
    command.args(OPTIONS).arg("-c").arg(file);
    run(command.arg("-o").arg(&object));
    object
}

fn run(command: &mut Command) {
    let status = command.status();
    let succeeded = status.is_ok_and(|status| status.success());
    assert!(succeeded, "{command:?} failed");
}
