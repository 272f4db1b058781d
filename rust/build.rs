//! Tells the linker where `libtrial_archive.a` stands: in the folder that
//! `TRIAL_ARCHIVE_LIB_DIR` names, absolute or relative to this package, else where
//! `tools/build` puts it. Where it is missing, says what to run.

use std::env;
use std::path::Path;
use std::process;

const VARIABLE: &str = "TRIAL_ARCHIVE_LIB_DIR";
const DEFAULT: &str = "../target/staticlib";

fn main() {
    let folder = env::var(VARIABLE).unwrap_or_else(|_| DEFAULT.to_owned());
    let package = env::var("CARGO_MANIFEST_DIR").expect("cargo names the package's folder");
    let folder = Path::new(&package).join(folder);
    let library = folder.join("libtrial_archive.a");
    println!("cargo:rerun-if-env-changed={VARIABLE}");
    println!("cargo:rerun-if-changed={}", library.display());
    if !library.is_file() {
        eprintln!("there is no {}", library.display());
        eprintln!("run `tools/build trial_archive` in the repository's root, or set {VARIABLE}");
        eprintln!("to the folder that has libtrial_archive.a");
        process::exit(1);
    }
    println!("cargo:rustc-link-search=native={}", folder.display());
    println!("cargo:rustc-link-lib=static=trial_archive");
}
