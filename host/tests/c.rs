//! The header and the programs in C: compiled, linked and run. Where the machine lacks a tool, a test that needs it
//! says so and passes.
use std::env;
use std::path::{Path, PathBuf};
use std::process::{Command, Output};

const STRICT: [&str; 6] = [
    "-std=c11",
    "-Wall",
    "-Wextra",
    "-Werror",
    "-pedantic",
    "-O2",
];

const CONTROLLER: &str = "\
grown bed on floor 3: -1300 -700 1200 -700 1200 700 -1300 700 -1500 450 -1500 -450
the cart may stand there: yes
50 mm from edge 4
furthest to the right: -1550
merge: refused 13, the floors differ, or one is above the highest
judge: refused 4, a list has two equal corners, or a corner that is not strictly left of an edge
edge 0, corner 2
";

const EXACT: &str = "4036 calls, limits and version as the header has them\n";

#[test]
fn a_controller_in_c_is_answered() {
    if let Some(program) = compiled("examples/controller.c", "controller", &linked()) {
        assert_eq!(said(&mut Command::new(program)), CONTROLLER);
    }
}

#[test]
fn the_header_suits_other_languages_and_standards() {
    for (compiler, options) in [
        ("cc", &["-std=c99", "-x", "c"]),
        ("c++", &["-std=c++11", "-x", "c++"]),
    ] {
        if has(compiler) {
            let mut command = Command::new(compiler);
            command
                .args(options)
                .args(["-fsyntax-only", "-Wall", "-Wextra", "-Werror"]);
            said(command.arg(here("include/cocklesway.h")));
        }
    }
}

#[test]
fn pkg_config_says_how_to_link() {
    if !has("pkg-config") {
        return;
    }
    let flags = |option: &str| {
        let mut command = Command::new("pkg-config");
        command.env("PKG_CONFIG_PATH", env!("CARGO_MANIFEST_DIR"));
        said(command.args([option, "cocklesway"]))
    };
    assert_eq!(
        flags("--modversion").trim(),
        cocklesway::version().to_string()
    );
    assert_eq!(
        flags("--cflags").trim(),
        format!("-I{}", here("include").display())
    );
    assert!(
        flags("--libs")
            .trim()
            .ends_with("/target/staticlib -lcocklesway")
    );
}

#[test]
fn buffers_are_kept_to() {
    let Some(program) = compiled("tests/exact.c", "exact", &linked()) else {
        return;
    };
    assert_eq!(said(&mut Command::new(&program)), EXACT);
    if has("valgrind") {
        let mut valgrind = Command::new("valgrind");
        valgrind.args(["-q", "--leak-check=full", "--error-exitcode=9"]);
        assert_eq!(said(valgrind.arg(program)), EXACT);
    }
}

#[test]
fn buffers_are_kept_to_under_address_sanitizer() {
    let options = ["-fsanitize=address,undefined".into()];
    let empty = Path::new(env!("CARGO_TARGET_TMPDIR")).join("empty.c");
    std::fs::write(&empty, "int main(void) { return 0; }\n").expect("the folder can be written to");
    let found = |program: PathBuf| Command::new(program).status().is_ok_and(|s| s.success());
    let sanitized = compile(&empty, "empty", &options).filter(|output| output.status.success());
    if sanitized.is_none() || !found(program("empty")) {
        eprintln!("passed over: there is no AddressSanitizer");
        return;
    }
    let options = [&options[..], &linked()].concat();
    for (source, name, stated) in [
        ("tests/exact.c", "exact_sanitized", EXACT),
        ("examples/controller.c", "controller_sanitized", CONTROLLER),
    ] {
        let program = compiled(source, name, &options).expect("there is a compiler");
        assert_eq!(said(&mut Command::new(program)), stated);
    }
}

/// The header's folder, and the archive.
fn linked() -> [PathBuf; 3] {
    let archive = Path::new(env!("COCKLESWAY_LIB_DIR")).join("libcocklesway.a");
    ["-I".into(), here("include"), archive]
}

/// The program that a file is compiled to, unless there is no compiler.
fn compiled(source: &str, name: &str, options: &[PathBuf]) -> Option<PathBuf> {
    let output = compile(&here(source), name, options)?;
    let trouble = String::from_utf8_lossy(&output.stderr);
    assert!(output.status.success(), "{trouble}");
    Some(program(name))
}

fn compile(source: &Path, name: &str, options: &[PathBuf]) -> Option<Output> {
    let compiler = env::var("CC").unwrap_or("cc".to_string());
    if !has(&compiler) {
        return None;
    }
    let mut command = Command::new(compiler);
    command
        .args(STRICT)
        .arg(source)
        .args(options)
        .arg("-o")
        .arg(program(name));
    Some(command.output().expect("the compiler runs"))
}

fn program(name: &str) -> PathBuf {
    Path::new(env!("CARGO_TARGET_TMPDIR")).join(name)
}

fn here(path: &str) -> PathBuf {
    Path::new(env!("CARGO_MANIFEST_DIR")).join(path)
}

/// Whether the machine has a tool.
fn has(tool: &str) -> bool {
    let found = Command::new(tool).arg("--version").output().is_ok();
    if !found {
        eprintln!("passed over: there is no {tool}");
    }
    found
}

/// What a command prints. It must succeed.
fn said(command: &mut Command) -> String {
    let output = command.output().expect("the command runs");
    let trouble = String::from_utf8_lossy(&output.stderr);
    assert!(output.status.success(), "{command:?}: {trouble}");
    String::from_utf8(output.stdout).expect("it prints text")
}
