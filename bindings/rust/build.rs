//! Links the static library, and the few lines by which it asks for memory.
//!
//! `SEMPER_LIB_DIR` names the folder of `libsemper_c.a`; the default is where the checkout has it.
use std::env;
use std::path::{Path, PathBuf};
use std::process::Command;

fn main() {
    let here = PathBuf::from(env::var_os("CARGO_MANIFEST_DIR").expect("cargo names the crate"));
    let out = PathBuf::from(env::var_os("OUT_DIR").expect("cargo names a folder"));
    let library = env::var_os("SEMPER_LIB_DIR")
        .map_or_else(|| here.join("../../crates/semper_c/out"), PathBuf::from);
    let archive = library.join("libsemper_c.a");
    assert!(
        archive.exists(),
        "{} is not there: `rt lib` in crates/semper_c makes it; SEMPER_LIB_DIR names its folder",
        archive.display()
    );
    compile(&here.join("../heap.c"), &out);
    println!("cargo:rustc-link-search=native={}", library.display());
    println!("cargo:rustc-link-search=native={}", out.display());
    println!("cargo:rustc-link-lib=static=semper_c");
    println!("cargo:rustc-link-lib=static=semper_heap");
    println!("cargo:rerun-if-env-changed=SEMPER_LIB_DIR");
    println!("cargo:rerun-if-changed={}", archive.display());
    println!("cargo:rerun-if-changed=../heap.c");
}

/// Compiles the C file, and puts it into an archive.
fn compile(source: &Path, out: &Path) {
    let object = out.join("heap.o");
    let archive = out.join("libsemper_heap.a");
    let cc = env::var_os("CC").unwrap_or_else(|| "cc".into());
    run(Command::new(cc)
        .args(["-O2", "-fPIC", "-c", "-o"])
        .arg(&object)
        .arg(source));
    let ar = env::var_os("AR").unwrap_or_else(|| "ar".into());
    run(Command::new(ar).arg("crs").arg(&archive).arg(&object));
}

/// Runs the command, and stops where it fails.
fn run(command: &mut Command) {
    match command.status() {
        Ok(status) if status.success() => {}
        ended => panic!("{command:?}: {ended:?}"),
    }
}
