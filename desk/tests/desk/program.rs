//! The program as a process: statuses, streams and failures.
use crate::running::{Folder, with_input};
use std::fs::{self, File, OpenOptions};
use std::io::{Read, Write};
use std::process::{Command, Output, Stdio};

const MAP: &str = "\
shape | wall | @2 0 5000 12000 5000
shape | linen-store | @2 3000 1000 4200 1000 4200 1800 3000 1800
outline | cart | 0 0 600 0 600 900 0 900
";

fn program() -> Command {
    Command::new(env!("CARGO_BIN_EXE_cocklesway"))
}

fn errors(output: &Output) -> String {
    String::from_utf8(output.stderr.clone()).expect("text")
}

#[test]
fn statuses() {
    let status = |lines: &str| with_input(&["ask", "-"], lines.as_bytes()).status;
    assert_eq!(status("judge | 0 0\n"), 0);
    assert_eq!(status(""), 0);
    assert_eq!(status("judge | 0\n"), 1);
    assert_eq!(status("judge | 0\njudge\njudge | 0 0\n"), 2);
}

#[test]
fn help_and_version() {
    for arguments in [
        &["--help"][..],
        &["-h"],
        &["help"],
        &["help", "ask"],
        &["ask", "--help"],
        &["draw", "-h"],
        &["help", "check"],
        &["help", "gaps"],
        &["help", "passes"],
        &["help", "stands"],
        &["help", "drive"],
        &["help", "nearest"],
        &["help", "diff"],
        &["help", "import"],
        &["help", "export"],
        &["help", "map"],
        &["help", "questions"],
        &["help", "refusals"],
        &["help", "json"],
        &["help", "help"],
        &["--version"],
        &["-V"],
    ] {
        let ran = with_input(arguments, b"");
        assert_eq!((ran.status, ran.errors.as_str()), (0, ""), "{arguments:?}");
        assert!(
            !ran.output.is_empty() && ran.output.lines().all(|line| line.chars().count() <= 120),
            "{arguments:?}"
        );
    }
    assert_eq!(
        with_input(&["ask", "--help"], b""),
        with_input(&["help", "ask"], b"")
    );
    let version = with_input(&["--version"], b"").output;
    assert_eq!(
        version,
        format!(
            "cocklesway {} (library calls {})\n",
            env!("CARGO_PKG_VERSION"),
            cocklesway::version()
        )
    );
}

#[test]
fn wrong_use() {
    for (arguments, words) in [
        (&[][..], "a command is needed"),
        (
            &["askk", "map.txt"],
            "there is no command `askk` (did you mean `ask`?)",
        ),
        (&["help", "x\u{1b}"], "there is no command `x\\u{1b}`"),
        (
            &["help", "ask", "draw"],
            "`help` takes one command or subject",
        ),
        (&["ask"], "no file is given"),
        (
            &["ask", "--jsno", "-"],
            "there is no option `--jsno` (did you mean `--json`?)",
        ),
        (&["ask", "--json=1", "-"], "`--json` has no value"),
        (&["ask", "--json", "--json", "-"], "`--json` is given twice"),
        (
            &["draw", "-", "--floor"],
            "`--floor` needs a value: --floor N",
        ),
        (
            &["ask", "-", "-"],
            "-: standard input can be read only once",
        ),
        (
            &["ask", "no-such-file"],
            "no-such-file: cannot be read: No such file",
        ),
        (&["ask", "/"], "/: cannot be read: Is a directory"),
    ] {
        let ran = with_input(arguments, b"judge | 0 0\n");
        assert_eq!(
            (ran.status, ran.output.as_str()),
            (2, ""),
            "{arguments:?}: {ran:?}"
        );
        assert!(
            ran.errors.starts_with("cocklesway: ") && ran.errors.contains(words),
            "{arguments:?}: {ran:?}"
        );
    }
}

#[test]
fn after_two_dashes_all_are_files() {
    let folder = Folder::new();
    let map = folder.file("--json", "judge | 0 0\n");
    let ran = with_input(&["ask", "--", &map], b"");
    assert_eq!(
        (ran.status, ran.output),
        (0, format!("{map}:1: this is a point on floor 0\n"))
    );
}

/// Every example of the help is answered.
#[test]
fn examples_of_the_help() {
    let page = with_input(&["help", "questions"], b"").output;
    let examples: Vec<&str> = desk::table::TABLE.iter().map(|row| row.example).collect();
    for example in &examples {
        assert!(page.contains(example), "{example}");
        let ran = with_input(&["ask", "-"], format!("{MAP}{example}\n").as_bytes());
        assert_eq!(
            (ran.status, ran.errors.as_str()),
            (0, ""),
            "{example}: {ran:?}"
        );
        assert_eq!(ran.output.lines().count(), 1, "{example}");
    }
    let map = with_input(&["help", "map"], b"").output;
    let lines: Vec<&str> = map
        .lines()
        .filter_map(|line| line.strip_prefix("    "))
        .filter(|line| line.contains('|'))
        .collect();
    let ran = with_input(&["ask", "-"], lines.join("\n").as_bytes());
    assert_eq!((ran.status, lines.len()), (0, 4), "{ran:?}");
}

#[test]
fn a_full_disk_is_told() {
    let folder = Folder::new();
    let map = folder.file("map.txt", &format!("{MAP}width | linen-store\n"));
    let Ok(full) = OpenOptions::new().write(true).open("/dev/full") else {
        return;
    };
    let output = program()
        .args(["ask", &map])
        .stdout(full)
        .stderr(Stdio::piped())
        .output()
        .expect("the program");
    assert_eq!(output.status.code(), Some(2));
    assert!(
        errors(&output)
            .starts_with("cocklesway: standard output: cannot be written: No space left"),
        "{output:?}"
    );
    let output = program()
        .args(["draw", &map, "-o", "/dev/full"])
        .output()
        .expect("the program");
    assert_eq!(output.status.code(), Some(2));
    assert!(
        errors(&output).starts_with("cocklesway: /dev/full: cannot be written: No space left"),
        "{output:?}"
    );
}

#[test]
fn a_broken_pipe_is_told() {
    let mut child = program()
        .args(["ask", "-"])
        .stdin(Stdio::piped())
        .stdout(Stdio::piped())
        .stderr(Stdio::piped())
        .spawn()
        .expect("the program");
    drop(child.stdout.take());
    let mut input = child.stdin.take().expect("its input");
    input
        .write_all(&b"judge | 0 0\n".repeat(5000))
        .expect("its input");
    drop(input);
    let mut errors = String::new();
    child
        .stderr
        .take()
        .expect("its errors")
        .read_to_string(&mut errors)
        .expect("text");
    assert_eq!(child.wait().expect("its end").code(), Some(2));
    assert_eq!(
        errors,
        "cocklesway: standard output: cannot be written: Broken pipe (os error 32)\n"
    );
}

#[test]
fn a_picture_is_not_written_over_the_map() {
    let folder = Folder::new();
    let map = folder.file("map.txt", MAP);
    let ran = with_input(&["draw", &map, "-o", &map], b"");
    assert_eq!(ran.status, 2);
    assert!(
        ran.errors.contains("the picture would be written over it"),
        "{ran:?}"
    );
    assert_eq!(fs::read_to_string(&map).expect("the map"), MAP);
    let picture = folder.path("floor.svg");
    let ran = with_input(&["draw", &map, "-o", &picture], b"");
    assert_eq!(
        (ran.status, ran.output.as_str(), ran.errors.as_str()),
        (0, "", "")
    );
    let mut text = String::new();
    File::open(&picture)
        .expect("the picture")
        .read_to_string(&mut text)
        .expect("text");
    assert_eq!(text, with_input(&["draw", &map], b"").output);
    let ran = with_input(&["draw", &map, "-o", &folder.path("none/floor.svg")], b"");
    assert_eq!(ran.status, 2);
    assert!(
        ran.errors
            .contains("none/floor.svg: cannot be written: No such file"),
        "{ran:?}"
    );
}

#[test]
fn a_check_lists_shapes_and_counts() {
    let map = format!("{MAP}shape | bad | 0 0 1 1 0 1 1 0\nwidth | linen-store\nfoo\n");
    let ran = with_input(&["check", "-"], map.as_bytes());
    let lines: Vec<&str> = ran.output.lines().collect();
    assert_eq!(
        lines[1],
        "-:2: linen-store is a shape of 4 corners on floor 2, 1.2 m by 800 mm, from (3000, 1000) to (4200, 1800)"
    );
    assert_eq!(
        lines[2],
        "-:3: cart is an outline of 4 corners, 600 mm by 900 mm, from (0, 0) to (600, 900)"
    );
    assert!(
        lines[3].starts_with(
            "-:4: `bad` is refused (4): the corner (1, 0) of bad is to the right of the edge"
        ),
        "{ran:?}"
    );
    assert_eq!(lines[4], "accepted: 3, refused: 1, unreadable lines: 1");
    assert_eq!(
        ran.errors,
        "cocklesway: -:6: `foo` is no word that begins a line\n"
    );
    assert_eq!(ran.status, 2);
}
