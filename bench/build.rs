//! Notes the versions of the compiler and of the kit for the page of results. The binding links the archive.

use std::{env, process::Command};

fn main() {
    println!("cargo:rerun-if-changed=build.rs");
    let compiler = env::var_os("RUSTC").expect("cargo sets RUSTC");
    let compiler = said(Command::new(compiler).arg("--version"));
    println!(
        "cargo:rustc-env=COMPILER={}",
        compiler.unwrap_or("an unknown rustc".to_owned())
    );
    let kit = said(Command::new("rt").arg("version"));
    println!(
        "cargo:rustc-env=KIT={}",
        kit.unwrap_or("an unknown kit".to_owned())
    );
}

fn said(command: &mut Command) -> Option<String> {
    let output = command.output().ok().filter(|it| it.status.success())?;
    Some(String::from_utf8_lossy(&output.stdout).trim().to_owned())
}
