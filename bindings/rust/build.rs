//! Says where the archive of the engines is: in the folder that MARGINLILAC_LIB names, or where
//! `tools/archive` puts it in this repository.

use std::path::PathBuf;
use std::{env, process};

const VARIABLE: &str = "MARGINLILAC_LIB";

fn main() {
    let folder = match env::var_os(VARIABLE) {
        Some(folder) => PathBuf::from(folder),
        None => PathBuf::from(env!("CARGO_MANIFEST_DIR")).join("../../target/staticlib"),
    };
    let archive = folder.join("libmarginlilac.a");
    println!("cargo:rerun-if-env-changed={VARIABLE}");
    println!("cargo:rerun-if-changed={}", archive.display());
    if !archive.is_file() {
        eprintln!(
            "{} is not there: make it with tools/archive, or name its folder in {VARIABLE}",
            archive.display()
        );
        process::exit(1);
    }
    let folder = folder.canonicalize().unwrap_or(folder);
    println!("cargo:rustc-link-search=native={}", folder.display());
}
