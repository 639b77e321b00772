//! Links the archive of the proved calls.
use std::env;
use std::path::{Path, PathBuf};
use std::process::ExitCode;

/// Names another folder that has the archive.
const FOLDER: &str = "COCKLESWAY_LIB_DIR";

const ARCHIVE: &str = "libcocklesway.a";

fn main() -> ExitCode {
    println!("cargo::rerun-if-changed=build.rs");
    println!("cargo::rerun-if-env-changed={FOLDER}");
    match archive() {
        Ok(folder) => {
            let folder = folder.display();
            println!("cargo::rustc-link-search=native={folder}");
            println!("cargo::rustc-link-lib=static=cocklesway");
            println!("cargo::rustc-env={FOLDER}={folder}");
            ExitCode::SUCCESS
        }
        Err(trouble) => {
            println!("cargo::error={trouble}");
            ExitCode::FAILURE
        }
    }
}

/// Returns the folder that has the archive, or why the package cannot be built.
fn archive() -> Result<PathBuf, String> {
    let target = env::var("TARGET").unwrap_or_default();
    let is = |key, wanted| env::var(key).is_ok_and(|value| value == wanted);
    if !is("CARGO_CFG_TARGET_ARCH", "x86_64") || !is("CARGO_CFG_TARGET_OS", "linux") {
        return Err(format!(
            "the archive is for x86-64 Linux, and the target is {target}"
        ));
    }
    let folder = folder();
    let archive = folder.join(ARCHIVE);
    println!("cargo::rerun-if-changed={}", archive.display());
    if !archive.exists() {
        let archive = archive.display();
        return Err(format!(
            "{archive} is missing: make it with `.ci/archive`, or name the folder that has {ARCHIVE} in {FOLDER}"
        ));
    }
    Ok(folder)
}

/// Returns the folder that the environment names, or the one that the archive is made in.
fn folder() -> PathBuf {
    match env::var_os(FOLDER).map(PathBuf::from) {
        Some(named) if named.is_relative() => called_from().join(named),
        Some(named) => named,
        None => Path::new(env!("CARGO_MANIFEST_DIR")).join("../target/staticlib"),
    }
}

/// Returns the folder that cargo was called from. Cargo runs build scripts in the folder of their package.
fn called_from() -> PathBuf {
    println!("cargo::rerun-if-env-changed=PWD");
    let shell = || env::var_os("PWD").map(PathBuf::from);
    of_cargo().or_else(shell).unwrap_or_default()
}

/// Returns the folder of the parent process, which is cargo.
#[cfg(unix)]
fn of_cargo() -> Option<PathBuf> {
    let parent = std::os::unix::process::parent_id();
    std::fs::read_link(format!("/proc/{parent}/cwd")).ok()
}

#[cfg(not(unix))]
fn of_cargo() -> Option<PathBuf> {
    None
}
