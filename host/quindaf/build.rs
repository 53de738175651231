//! Finds the proved static library: `target/staticlib/libexports.a` of the
//! repository, or the file that `QUINDAF_LIB` names.

use std::env;
use std::path::{Path, PathBuf};

const VARIABLE: &str = "QUINDAF_LIB";
const IN_REPOSITORY: &str = "../../target/staticlib/libexports.a";

fn main() {
    println!("cargo:rerun-if-env-changed={VARIABLE}");
    let library = library();
    println!("cargo:rerun-if-changed={}", library.display());
    let found = library.canonicalize().ok().filter(|file| file.is_file());
    let Some(found) = found else {
        fail(&format!(
            "there is no proved library at {}\n\
             Run `tools/build.sh` in the root of the repository first,\n\
             or name the file by {VARIABLE}.",
            library.display()
        ));
    };
    let (folder, name) = folder_and_name(&found);
    println!("cargo:rustc-link-search=native={}", folder.display());
    println!("cargo:rustc-link-lib=static={name}");
    // Kept for the test that links the library from C.
    println!("cargo:rustc-env=QUINDAF_LINKED={}", found.display());
}

/// A relative path in the variable counts from this crate's folder.
fn library() -> PathBuf {
    match env::var_os(VARIABLE) {
        Some(named) => PathBuf::from(named),
        None => Path::new(env!("CARGO_MANIFEST_DIR")).join(IN_REPOSITORY),
    }
}

fn folder_and_name(file: &Path) -> (&Path, &str) {
    let stem = file.file_stem().and_then(|stem| stem.to_str());
    match (
        file.parent(),
        stem.and_then(|stem| stem.strip_prefix("lib")),
    ) {
        (Some(folder), Some(name)) => (folder, name),
        _ => fail(&format!("{} is not named lib….a", file.display())),
    }
}

fn fail(message: &str) -> ! {
    eprintln!("\nquindaf: {message}\n");
    std::process::exit(1)
}
