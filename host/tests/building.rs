//! What cargo says if the package cannot be built, and where it looks for the archive.
use std::fs;
use std::path::{Path, PathBuf};
use std::process::Command;

/// The folder that has the archive.
const FOLDER: &str = env!("COCKLESWAY_LIB_DIR");

#[test]
fn a_missing_archive_is_named_with_the_command_that_makes_it() {
    let said = checked("missing", "/nowhere", &[]).expect_err("there is no such folder");
    let stated = "/nowhere/libcocklesway.a is missing: make it with `.ci/archive`, \
                  or name the folder that has libcocklesway.a in COCKLESWAY_LIB_DIR";
    assert!(said.contains(stated), "{said}");
}

#[test]
fn another_target_is_named() {
    let said = checked("target", FOLDER, &["--target", "aarch64-unknown-linux-gnu"]);
    let said = said.expect_err("the archive is for another");
    let stated = "the archive is for x86-64 Linux, and the target is aarch64-unknown-linux-gnu";
    assert!(said.contains(stated), "{said}");
}

#[test]
fn a_relative_folder_counts_from_where_cargo_is_called() {
    let here = place("relative");
    let beside = here.join("some/folder");
    fs::create_dir_all(&beside).expect("the folder can be made");
    fs::copy(
        Path::new(FOLDER).join("libcocklesway.a"),
        beside.join("libcocklesway.a"),
    )
    .expect("the archive can be copied");
    assert_eq!(checked("relative", "some/folder", &[]), Ok(()));

    let said = checked("relative", "other/folder", &[]).expect_err("there is no such folder");
    let stated = here
        .join("other/folder/libcocklesway.a is missing")
        .display()
        .to_string();
    assert!(said.contains(&stated), "{said}");
}

/// The archive with the symbol of another version, if there is a tool to make it.
#[test]
fn an_archive_of_another_version_does_not_link() {
    let older = place("older");
    let renamed = Command::new("objcopy")
        .arg("--redefine-sym=cocklesway_version_2=cocklesway_version_1")
        .arg(Path::new(FOLDER).join("libcocklesway.a"))
        .arg(older.join("libcocklesway.a"))
        .status();
    if !renamed.is_ok_and(|status| status.success()) {
        eprintln!("passed over: there is no objcopy");
        return;
    }
    let program =
        "fn main() {\n    assert!(cocklesway::bytes::judge(&[], 0).corners().is_err());\n}\n";
    let controller = controller(&older, program);
    assert_eq!(cargo("build", "older", FOLDER, &controller, &[]), Ok(()));
    let older = older.to_str().expect("the path is text");
    let said = cargo("build", "older", older, &controller, &[]).expect_err("a symbol is missing");
    assert!(said.contains("cocklesway_version_2"), "{said}");
}

/// All questions, in a program that does not link if one of them can panic.
#[test]
fn no_question_needs_std_or_can_panic() {
    let manifest = controller(
        &place("without_std"),
        include_str!("without_std/controller.rs"),
    );
    let built = cargo("build", "without_std", FOLDER, &manifest, &["--release"]);
    assert_eq!(built, Ok(()));
    let program = place("without_std").join("target/release/controller");
    let status = Command::new(program).status().expect("the program runs");
    assert_eq!(status.code(), Some(4));
}

/// Makes a package that depends on this one, and returns its manifest.
fn controller(place: &Path, program: &str) -> PathBuf {
    let here = env!("CARGO_MANIFEST_DIR");
    let manifest = format!(
        "[package]\nname = \"controller\"\nedition = \"2024\"\n\n[workspace]\n\n\
         [dependencies]\ncocklesway = {{ path = {here:?} }}\n\n\
         [profile.release]\nlto = true\npanic = \"abort\"\n"
    );
    fs::create_dir_all(place.join("src")).expect("the folder can be made");
    fs::write(place.join("src/main.rs"), program).expect("the folder can be written to");
    fs::write(place.join("Cargo.toml"), manifest).expect("the folder can be written to");
    place.join("Cargo.toml")
}

/// Has cargo check this library, or returns what it says.
fn checked(name: &str, folder: &str, options: &[&str]) -> Result<(), String> {
    let manifest = Path::new(env!("CARGO_MANIFEST_DIR")).join("Cargo.toml");
    let options = [options, &["--lib"]].concat();
    cargo("check", name, folder, &manifest, &options)
}

/// Calls cargo from a place of its own, or returns what it says.
fn cargo(
    command: &str,
    name: &str,
    folder: &str,
    manifest: &Path,
    options: &[&str],
) -> Result<(), String> {
    let place = place(name);
    let cargo = Command::new(env!("CARGO"))
        .args([command, "--offline", "--manifest-path"])
        .arg(manifest)
        .arg("--target-dir")
        .arg(place.join("target"))
        .args(options)
        .env("COCKLESWAY_LIB_DIR", folder)
        .current_dir(&place)
        .output()
        .expect("cargo runs");
    if cargo.status.success() {
        return Ok(());
    }
    Err(String::from_utf8_lossy(&cargo.stderr).into_owned())
}

fn place(name: &str) -> PathBuf {
    let place = Path::new(env!("CARGO_TARGET_TMPDIR")).join(name);
    fs::create_dir_all(&place).expect("the folder can be made");
    place.canonicalize().expect("it is there")
}
