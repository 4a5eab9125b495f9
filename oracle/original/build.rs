//! Copies the original's source from the folder that holds it into `OUT_DIR`.
//!
//! The repository holds none of the original's text. Two things differ in the copy: the call of
//! `merge_nets_by_component` that ends `build_network` is gone, as docs/RULES.md has it, and a
//! public name for the private `shares_edge` is appended.

use std::env;
use std::fs;
use std::path::{Path, PathBuf};

/// Where the source lies unless `LEAFMESH_ORIGINAL` names another folder; seen from this crate.
const DEFAULT_FOLDER: &str = "../../../shared/docs/src";

const ADAPTIVE: &str = "extraction/src/adaptive.rs";

/// Files that are copied letter for letter.
const UNCHANGED: [&str; 3] =
    ["extraction/src/sheet.rs", "openrdson-core/src/geomops.rs", "openrdson-core/src/geometry.rs"];

/// The one line that is left out.
const MERGE_CALL: &str = "net.merge_nets_by_component();";

/// The one item that is added.
const CONTACT_WRAPPER: &str = "
/// Not the original's: a public name for the private contact test above.
pub fn public_shares_edge(a: &QuadCell, b: &QuadCell) -> bool {
    shares_edge(a, b)
}
";

fn main() {
    println!("cargo:rerun-if-env-changed=LEAFMESH_ORIGINAL");
    println!("cargo:rerun-if-changed=build.rs");
    let source = source_folder();
    let out = PathBuf::from(env::var("OUT_DIR").expect("cargo sets OUT_DIR"));

    let adaptive = without_merge_call(&read(&source, ADAPTIVE)) + CONTACT_WRAPPER;
    write(&out, ADAPTIVE, &adaptive);
    for file in UNCHANGED {
        write(&out, file, &read(&source, file));
    }
    // Modules named by a file in OUT_DIR are found beside it.
    let modules = "pub mod adaptive;\npub mod geometry;\npub mod geomops;\npub mod sheet;\n";
    write(&out, "modules.rs", modules);
}

fn source_folder() -> PathBuf {
    match env::var_os("LEAFMESH_ORIGINAL") {
        Some(folder) => PathBuf::from(folder),
        None => {
            Path::new(&env::var("CARGO_MANIFEST_DIR").expect("cargo sets it")).join(DEFAULT_FOLDER)
        }
    }
}

fn read(folder: &Path, file: &str) -> String {
    let path = folder.join(file);
    println!("cargo:rerun-if-changed={}", path.display());
    fs::read_to_string(&path).unwrap_or_else(|why| {
        panic!(
            "{}: {why}; LEAFMESH_ORIGINAL names the folder with the original's source",
            path.display()
        )
    })
}

/// Writes under the file's last name, so that all modules lie in one folder.
fn write(out: &Path, file: &str, text: &str) {
    let name = Path::new(file).file_name().expect("a file has a name");
    fs::write(out.join(name), text).expect("OUT_DIR can be written to");
}

/// Leaves out the merge call, which must stand exactly once, right before the net is handed back.
fn without_merge_call(text: &str) -> String {
    let lines: Vec<&str> = text.lines().collect();
    let calls: Vec<usize> =
        (0..lines.len()).filter(|&i| lines[i].contains("merge_nets_by_component")).collect();
    assert_eq!(calls.len(), 1, "the merge is named on one line");
    let at = calls[0];
    assert_eq!(lines[at].trim(), MERGE_CALL, "the merge call is a line");
    assert_eq!(lines[at + 1].trim(), "net", "the net is handed back next");
    assert_eq!(lines[at + 2], "}", "and ends the function");

    let kept = lines[..at].iter().chain(&lines[at + 1..]);
    kept.flat_map(|line| [line, "\n"]).collect()
}
