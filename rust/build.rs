//! Tells cargo where libforingamo.a is: in the folder FORINGAMO_LIB_DIR; where that is not set, in target/staticlib of the repository. src/lib.rs says that it
//! is linked.

use std::env;
use std::path::{absolute, Path, PathBuf};
use std::process::exit;

const VARIABLE: &str = "FORINGAMO_LIB_DIR";
const ARCHIVE: &str = "libforingamo.a";

fn fails(what: &str) -> ! {
    eprintln!("{what}");
    eprintln!("In the repository scripts/archive.sh builds {ARCHIVE}. Of an installed one cargo is told the folder:");
    eprintln!("    {VARIABLE}=$(pkg-config --variable=libdir foringamo) cargo build");
    exit(1)
}

// The folder, and how it was found.
fn folder() -> (PathBuf, &'static str) {
    match env::var_os(VARIABLE) {
        Some(folder) if !folder.is_empty() => (PathBuf::from(folder), "is set"),
        _ => {
            let package = env::var_os("CARGO_MANIFEST_DIR").expect("cargo sets it");
            (Path::new(&package).join("../target/staticlib"), "is not set")
        }
    }
}

fn main() {
    println!("cargo:rerun-if-env-changed={VARIABLE}");
    let (folder, found) = folder();
    let folder = absolute(&folder).expect("a folder that is not empty");
    let archive = folder.join(ARCHIVE);
    println!("cargo:rerun-if-changed={}", archive.display());
    if !archive.is_file() {
        fails(&format!("{VARIABLE} {found}, and there is no {}", archive.display()));
    }
    println!("cargo:rustc-link-search=native={}", folder.display());
}
