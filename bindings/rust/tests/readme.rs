//! README.md shows what is there: the host's source as it is, and commands with what they print.

use std::{
    env, fs,
    os::unix::fs::symlink,
    path::{Path, PathBuf},
    process::Command,
};

fn root() -> PathBuf {
    Path::new(env!("CARGO_MANIFEST_DIR")).join("../..")
}

fn readme() -> String {
    fs::read_to_string(root().join("README.md")).unwrap()
}

#[test]
fn the_host_stands_there_as_it_is() {
    let host = include_str!("../examples/host.rs");
    assert!(readme().contains(&format!("\n```rust\n{host}```\n")));
}

/// The commands of README, which are the indented lines that start with `$`, each with the lines that
/// follow it in its block.
fn commands(readme: &str) -> Vec<(String, String)> {
    let mut commands: Vec<(String, String)> = Vec::new();
    let mut is_within = false;
    for line in readme.lines() {
        match (line.strip_prefix("    "), is_within) {
            (Some(line), _) if line.starts_with("$ ") => {
                commands.push((line[2..].to_owned(), String::new()));
                is_within = true;
            }
            (Some(line), true) => {
                let (_, printed) = commands.last_mut().expect("within a block");
                *printed += &format!("{line}\n");
            }
            // An empty line within a block has no spaces.
            (None, true) if line.is_empty() => {
                let (_, printed) = commands.last_mut().expect("within a block");
                printed.push('\n');
            }
            _ => is_within = false,
        }
    }
    for (_, printed) in &mut commands {
        let length = printed.trim_end().len();
        printed.truncate(length);
    }
    commands
}

#[test]
fn commands_print_what_is_shown() {
    let programs = Path::new(env!("CARGO_BIN_EXE_maptext")).parent().unwrap();
    let host = programs.join("examples/host");
    assert!(
        host.is_file(),
        "cargo builds it with all tests, or --examples"
    );
    let path = env::var_os("PATH").unwrap_or_default();
    let paths = [programs.to_owned()];
    let path = env::join_paths(paths.into_iter().chain(env::split_paths(&path))).unwrap();

    // What the commands write stays out of the repository; what they name in it is there.
    let folder = Path::new(env!("CARGO_TARGET_TMPDIR")).join("readme");
    let _ = fs::remove_dir_all(&folder);
    let built = folder.join("bindings/rust/target");
    for made in [&built, &folder.join("target")] {
        fs::create_dir_all(made).unwrap();
    }
    symlink(programs, built.join("release")).unwrap();
    symlink(root().join("examples"), folder.join("examples")).unwrap();

    let commands = commands(&readme());
    assert!(commands.len() > 4, "{commands:?}");
    for (command, due) in commands {
        let output = Command::new("bash")
            .args(["-c", &format!("exec 2>&1; {command}")])
            .env("PATH", &path)
            .current_dir(&folder)
            .output()
            .unwrap();
        let printed = String::from_utf8(output.stdout).unwrap();
        assert_eq!(printed.trim_end(), due, "{command}");
    }
}
