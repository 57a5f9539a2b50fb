//! Links libshow_c.a from the folder in SHOW_C_DIR, or from target/staticlib of this repository.

use std::env;
use std::path::{Path, PathBuf};
use std::process::exit;

fn main() {
    println!("cargo:rerun-if-env-changed=SHOW_C_DIR");
    let here = PathBuf::from(env::var_os("CARGO_MANIFEST_DIR").expect("cargo says where"));
    let root = here.join("../..");
    let root = root.canonicalize().unwrap_or(root);
    let named = env::var_os("SHOW_C_DIR").filter(|dir| !dir.is_empty()).map(PathBuf::from);
    let dir = here.join(named.clone().unwrap_or_else(|| root.join("target/staticlib")));
    let archive = dir.join("libshow_c.a");
    println!("cargo:rerun-if-changed={}", archive.display());
    match archive.canonicalize() {
        Ok(archive) if archive.is_file() => link(archive.parent().expect("a file is in a folder")),
        _ => {
            eprintln!("{}", missing(&dir, &root, named.is_some()));
            exit(1);
        }
    }
}

fn link(dir: &Path) {
    println!("cargo:rustc-link-search=native={}", dir.display());
    println!("cargo:rustc-link-lib=static=show_c");
}

/// What to do where there is no archive.
fn missing(dir: &Path, root: &Path, named: bool) -> String {
    let said = if named { ", which SHOW_C_DIR names" } else { "" };
    format!(
        "show-sys: there is no libshow_c.a in {}{said}. Run `.ci/library` in {}, which proves and builds it, \
         or set SHOW_C_DIR to the folder that has it, by its whole path.",
        dir.display(),
        root.display()
    )
}
