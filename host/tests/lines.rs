//! The program that answers lines, against brute force.
use second::answer;
use second::compare::compare;
use second::make;
use std::io::{self, Write};
use std::process::{Command, Stdio};
use std::thread;

/// What the program answers to an input.
fn answered(input: &[u8]) -> Vec<u8> {
    let mut program = Command::new(env!("CARGO_BIN_EXE_host"))
        .stdin(Stdio::piped())
        .stdout(Stdio::piped())
        .spawn()
        .expect("the program starts");
    let mut to = program.stdin.take().expect("it has an input");
    let output = thread::scope(|scope| {
        let writer = scope.spawn(move || to.write_all(input));
        let output = program.wait_with_output().expect("the program ends");
        writer.join().expect("no panic").expect("all is read");
        output
    });
    assert!(output.status.success());
    output.stdout
}

/// Compares the answers to made lines with those of brute force.
fn agree(make: impl FnOnce(&mut Vec<u8>) -> io::Result<()>) {
    let mut input = Vec::new();
    make(&mut input).expect("a vector takes all bytes");
    let comparison = compare(&input, &answered(&input));
    let mut told = Vec::new();
    comparison
        .tell(&mut told)
        .expect("a vector takes all bytes");
    assert_eq!(
        comparison.different,
        0,
        "{}",
        String::from_utf8_lossy(&told)
    );
}

#[test]
fn questions_are_answered_as_brute_force_does() {
    agree(|to| make::write_all(31, 3000, "", to));
}

#[test]
fn calls_on_bytes_are_answered_as_brute_force_does() {
    agree(|to| make::write_host(32, 3000, to));
}

#[test]
fn every_case_of_the_documents_is_answered() {
    agree(|to| second::cases::write_all(to));
}

#[test]
fn lines_are_passed_over_or_unreadable() {
    let input =
        "\u{FEFF}# no question\n\n \t\r\njudge | 0 0\nrotate | 0 0\nsum | 0 0\njudge | 0 0 | 4\n";
    let stated = "ok 1 @0\nunreadable: unknown word\nunreadable: missing field\nunreadable: too many fields\n";
    assert_eq!(String::from_utf8_lossy(&answered(input.as_bytes())), stated);
    assert_eq!(answer::answer(b"rotate | 0 0"), "unreadable: unknown word");
}

#[test]
fn written_bytes_are_after_a_bar() {
    let input = "hsum | 0100000000000000 | 3 | 00 00 00 00 ff ff ff ff | 3 | 8\n\
                 hsum | 0100000000000000 | 3 | 00000000FFFFFFFF | 3 | 7\n\
                 hjudge | | 0\nhjudge | 0 | 0\n";
    let stated = "0x0000000300010000 | 01000000FFFFFFFF\n0x0000000000000008 |\n\
                  0x0000000000000101\nunreadable: not bytes\n";
    assert_eq!(String::from_utf8_lossy(&answered(input.as_bytes())), stated);
}
