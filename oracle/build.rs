//! Reads the original text, makes the modules and writes them to the build folder.

use std::{env, fs, path::Path, process::ExitCode};

#[path = "build/assemble.rs"]
mod assemble;
#[path = "build/substitute.rs"]
mod substitute;

fn main() -> ExitCode {
    match run() {
        Ok(()) => ExitCode::SUCCESS,
        Err(why) => {
            eprintln!("oracle: {why}");
            ExitCode::FAILURE
        }
    }
}

fn run() -> Result<(), String> {
    let manifest = env::var("CARGO_MANIFEST_DIR").map_err(|why| why.to_string())?;
    let out = env::var("OUT_DIR").map_err(|why| why.to_string())?;
    let given = env::var("ROSU_SRC").ok();
    let folder = assemble::source_folder(Path::new(&manifest), given.as_deref());

    println!("cargo:rerun-if-env-changed=ROSU_SRC");
    println!("cargo:rerun-if-changed=build.rs");
    println!("cargo:rerun-if-changed=build");
    for path in assemble::sources() {
        println!("cargo:rerun-if-changed={}", folder.join(path).display());
    }

    let read = |path: &str| {
        let path = folder.join(path);
        fs::read_to_string(&path).map_err(|why| {
            let path = path.display();
            format!(
                "{path}: {why}; set ROSU_SRC to the folder of rosu-pp 27a67242ca that holds src"
            )
        })
    };
    for module in assemble::assemble(&read)? {
        let path = Path::new(&out).join(&module.file);
        fs::write(&path, module.text).map_err(|why| format!("{}: {why}", path.display()))?;
    }
    Ok(())
}
