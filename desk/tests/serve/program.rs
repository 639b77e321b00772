//! The command as a process: its address, its end, and wrong use.
use crate::server::{MAP, reply};
use desk::command::{Console, run};
use std::ffi::OsString;
use std::io::{BufRead, BufReader, Read, Write};
use std::net::{TcpListener, TcpStream};
use std::process::{Child, Command, Stdio};

fn started(arguments: &[&str]) -> (Child, String) {
    let mut child = Command::new(env!("CARGO_BIN_EXE_cocklesway"))
        .args(["serve", "-"])
        .args(arguments)
        .stdin(Stdio::piped())
        .stdout(Stdio::piped())
        .stderr(Stdio::piped())
        .spawn()
        .expect("the program");
    let mut input = child.stdin.take().expect("its input");
    input.write_all(MAP.as_bytes()).expect("its input");
    drop(input);
    let mut line = String::new();
    let output = child.stdout.as_mut().expect("its output");
    BufReader::new(output).read_line(&mut line).expect("a line");
    (child, line)
}

#[test]
fn it_prints_its_address_and_serves() {
    let (mut child, line) = started(&[]);
    let address = line
        .strip_prefix("- is shown at http://")
        .expect(&line)
        .trim_end();
    let (host, path) = address.split_once('/').expect("a path");
    assert!(host.starts_with("127.0.0.1:"), "{host}");
    let mut stream = TcpStream::connect(host).expect("the program");
    let request = format!("GET /{path} HTTP/1.1\r\nHost: {host}\r\n\r\n");
    stream.write_all(request.as_bytes()).expect("a connection");
    let page = reply(&mut stream).expect("an answer");
    assert_eq!(page.code, 200);
    assert!(page.body.contains("<!doctype html>"));
    // Ctrl-C sends another signal, which a shell lets programs in the background ignore.
    let ended = Command::new("kill")
        .args(["-TERM", &child.id().to_string()])
        .status();
    assert!(ended.expect("kill").success());
    assert!(!child.wait().expect("its end").success());
    assert!(TcpStream::connect(host).is_err());
}

#[test]
fn a_port_that_is_taken_is_told() {
    let taken = TcpListener::bind("127.0.0.1:0").expect("a port");
    let port = taken.local_addr().expect("a port").port().to_string();
    let (mut child, line) = started(&["--port", &port]);
    assert_eq!(child.wait().expect("its end").code(), Some(2));
    let mut errors = String::new();
    let mut stream = child.stderr.take().expect("its errors");
    stream.read_to_string(&mut errors).expect("text");
    assert_eq!(line, "");
    let told = format!("cocklesway: port {port}: cannot be served: Address already in use");
    assert!(errors.starts_with(&told), "{errors}");
}

#[test]
fn it_has_a_page_of_help() {
    let arguments = ["serve", "--help"].map(OsString::from);
    let (mut output, mut errors) = (Vec::new(), Vec::new());
    let mut console = Console {
        input: None,
        output: &mut output,
        errors: &mut errors,
    };
    assert_eq!(run(&arguments, &mut console).number(), 0);
    let page = String::from_utf8(output).expect("text");
    for words in ["--port N", "Ctrl-C", "The status is 2", "this computer"] {
        assert!(page.contains(words), "{words}: {page}");
    }
    assert!(page.lines().all(|line| line.chars().count() <= 120));
}

#[test]
fn wrong_use_is_told() {
    for (arguments, words) in [
        (&["serve"][..], "no file is given"),
        (&["serve", "a", "b"], "`serve` shows one map"),
        (&["serve", "no-such-map"], "no-such-map: cannot be read"),
        (
            &["serve", "--port", "65536", "-"],
            "`--port` needs a port from 0 to 65535, and not `65536`",
        ),
        (
            &["serve", "-", "--port"],
            "`--port` needs a value: --port N",
        ),
    ] {
        let arguments: Vec<OsString> = arguments.iter().map(OsString::from).collect();
        let (mut input, mut output, mut errors) = (&b""[..], Vec::new(), Vec::new());
        let mut console = Console {
            input: Some(&mut input),
            output: &mut output,
            errors: &mut errors,
        };
        assert_eq!(run(&arguments, &mut console).number(), 2, "{arguments:?}");
        let errors = String::from_utf8(errors).expect("text");
        assert!(errors.contains(words), "{errors}");
    }
}
