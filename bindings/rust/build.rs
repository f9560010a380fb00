//! Links the archive of the exported functions, which `tools/library` writes.

use std::env;
use std::path::PathBuf;
use std::process::exit;

/// The names by which the linker finds the archive: that of this crate, and the
/// one that `rt lib` gives it. The first that is there is linked.
const LIBRARIES: [&str; 2] = ["zumbiqa", "library"];

/// Names the archive's folder, if it is elsewhere.
const FOLDER: &str = "ZUMBIQA_ARCHIVE_DIR";

fn main() {
    println!("cargo:rerun-if-env-changed={FOLDER}");
    let folder = match env::var_os(FOLDER) {
        Some(folder) => PathBuf::from(folder),
        None => PathBuf::from(env!("CARGO_MANIFEST_DIR")).join("../../target/staticlib"),
    };
    let archive = |library: &str| folder.join(format!("lib{library}.a"));
    let found = LIBRARIES.iter().find(|library| {
        println!("cargo:rerun-if-changed={}", archive(library).display());
        archive(library).is_file()
    });
    let Some(library) = found else {
        eprintln!("There is no {}.", archive(LIBRARIES[0]).display());
        eprintln!("`tools/library` of the repository proves and writes it;");
        eprintln!("{FOLDER} names its folder, if it is elsewhere.");
        exit(1);
    };
    // The tests of the C programs link the same archive.
    let path = archive(library);
    println!("cargo:rustc-env=ZUMBIQA_ARCHIVE={}", path.display());
    println!("cargo:rustc-link-search=native={}", folder.display());
    println!("cargo:rustc-link-lib=static={library}");
}
