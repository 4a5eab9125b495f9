//! Links the proved library, which `bindings/library.sh` makes in crates/leafmesh/out. Crates that
//! depend on this one get it from here.

use std::env;
use std::fs;
use std::io;
use std::os::unix::process::parent_id;
use std::path::{Path, PathBuf};
use std::process::exit;

/// Seen from this crate. `LEAFMESH_LIBRARY` names another folder, seen from the one in which cargo is called.
const DEFAULT_FOLDER: &str = "../../crates/leafmesh/out";

fn main() {
    println!("cargo:rerun-if-env-changed=LEAFMESH_LIBRARY");
    println!("cargo:rerun-if-changed=build.rs");
    let folder = library_folder().unwrap_or_else(|why| {
        eprintln!("LEAFMESH_LIBRARY names no folder from / on, and cargo's is unknown: {why}");
        exit(1);
    });
    println!(
        "cargo:rerun-if-changed={}",
        folder.join("libleafmesh.a").display()
    );
    if !folder.join("libleafmesh.a").is_file() {
        eprintln!(
            "no libleafmesh.a in {}: make it with bindings/library.sh, or name its \
             folder in LEAFMESH_LIBRARY",
            folder.display()
        );
        exit(1);
    }
    println!("cargo:rustc-link-search=native={}", folder.display());
    println!("cargo:rustc-link-lib=static=leafmesh");
}

fn library_folder() -> io::Result<PathBuf> {
    let named = env::var_os("LEAFMESH_LIBRARY").filter(|name| !name.is_empty());
    match named.map(PathBuf::from) {
        None => {
            let here = env::var_os("CARGO_MANIFEST_DIR").expect("cargo sets it");
            Ok(Path::new(&here).join(DEFAULT_FOLDER))
        }
        Some(folder) if folder.is_absolute() => Ok(folder),
        Some(folder) => Ok(callers_folder()?.join(folder)),
    }
}

/// Cargo starts this program in the crate's folder, and stays in the caller's.
fn callers_folder() -> io::Result<PathBuf> {
    // The same words mean another folder elsewhere.
    println!("cargo:rerun-if-env-changed=PWD");
    fs::read_link(format!("/proc/{}/cwd", parent_id()))
}
