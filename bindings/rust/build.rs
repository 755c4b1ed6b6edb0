//! Links the archive of the proved functions, which `rt lib` in crates/popejoanplum writes.

use std::{env, path::Path, process::ExitCode};

const ARCHIVE: &str = "libpopejoanplum.a";

fn main() -> ExitCode {
    println!("cargo:rerun-if-env-changed=POPEJOANPLUM_LIB_DIR");
    println!("cargo:rerun-if-changed=build.rs");
    let Ok(manifest) = env::var("CARGO_MANIFEST_DIR") else {
        eprintln!("popejoanplum: cargo runs this script and sets CARGO_MANIFEST_DIR");
        return ExitCode::FAILURE;
    };
    let given = env::var("POPEJOANPLUM_LIB_DIR").unwrap_or("crates/popejoanplum/out".into());
    let folder = Path::new(&manifest).join("../..").join(given);
    let archive = folder.join(ARCHIVE);
    println!("cargo:rerun-if-changed={}", archive.display());
    if !archive.is_file() {
        eprintln!(
            "popejoanplum: there is no {}. `rt lib`, run in crates/popejoanplum, makes it; POPEJOANPLUM_LIB_DIR \
             names another folder (a relative one counts from the root of the repository).",
            archive.display()
        );
        return ExitCode::FAILURE;
    }
    println!("cargo:rustc-link-search=native={}", folder.display());
    println!("cargo:rustc-link-lib=static=popejoanplum");
    ExitCode::SUCCESS
}
