//! Strange requests, random and mutated: never a panic, and the server goes on.
use crate::server::{MAP, start};
use desk::formats::value;
use desk::serve::bounds::JSON;
use desk::serve::head::Head;
use desk::serve::incoming::{Timed, read};
use desk::serve::outgoing::Code;
use desk::serve::wish::Wish;
use second::make::dice::Dice;
use std::io;
use std::time::{Duration, Instant};

const PARTS: &[&str] = &[
    "GET",
    "POST",
    " ",
    " ",
    "/",
    "/token/",
    "HTTP/1.1",
    "HTTP/1.1",
    "\r\n",
    "\r\n",
    "\r\n",
    "\r\n\r\n",
    "\n",
    "\r",
    "Host: 127.0.0.1:1",
    "Content-Length: 2",
    "Content-Length: 99999999999999999999",
    "Content-Type: application/json",
    "Transfer-Encoding: chunked",
    "Origin: null",
    ":",
    "{}",
    "\0",
    "\u{7f}",
    "é",
    "..",
    "%2e",
    "X: ",
    "{\"floor\":2}",
    "[[[[[[[[[[",
    "\"\\ud800\"",
    "-",
    "1e9",
    "{\"a\":1,\"a\":2}",
];

const GOOD: &[&str] = &[
    "GET /0123456789abcdef0123456789abcdef/ HTTP/1.1\r\nHost: 127.0.0.1:8080\r\nSec-Fetch-Site: none\r\n\r\n",
    "POST /t/place HTTP/1.1\r\nHost: 127.0.0.1:8080\r\nContent-Type: application/json\r\nContent-Length: 47\r\n\r\n\
     {\"floor\":2,\"cart\":\"cart\",\"at\":[3500,0],\"x\":\"\\u00e9\"}",
];

const BODIES: &[&str] = &[
    "{\"floor\":2,\"cart\":\"cart\",\"at\":[3500,0],\
     \"changes\":[{\"name\":\"bed\",\"floor\":2,\"corners\":[[0,0],[1,0]]}]}",
    "{\"a\":\"bed\",\"b\":\"wall\",\"cart\":\"cart\"}",
    "{\"floor\":2,\"cart\":\"cart\",\"places\":[[0,0],[9000,0],[9000,4000]]}",
    "{\"name\":\"bed\",\"floor\":2,\"corners\":[[6000,3200],[8000,3200],[8000,4100],[6000,4100]],\"changes\":[]}",
];

/// Bytes that come in pieces, and end.
struct Pieces<'a> {
    rest: &'a [u8],
    size: usize,
}

impl Timed for Pieces<'_> {
    fn some(&mut self, to: &mut [u8], _: Instant) -> io::Result<usize> {
        let count = self.size.min(to.len()).min(self.rest.len());
        let (now, later) = self.rest.split_at(count);
        to[..count].copy_from_slice(now);
        self.rest = later;
        Ok(count)
    }
}

fn strange(dice: &mut Dice, good: &[&str]) -> Vec<u8> {
    match dice.below(4) {
        0 => (0..dice.below(300))
            .map(|_| dice.below(256) as u8)
            .collect(),
        1 => (0..dice.below(40))
            .map(|_| dice.pick(PARTS))
            .collect::<String>()
            .into_bytes(),
        _ => {
            let mut bytes = dice.pick(good).as_bytes().to_vec();
            for _ in 0..=dice.below(4) {
                mutate(dice, &mut bytes);
            }
            bytes
        }
    }
}

/// Changes some bytes.
pub fn mutate(dice: &mut Dice, bytes: &mut Vec<u8>) {
    let at = dice.below(bytes.len() + 1);
    let to = (at + dice.below(20)).min(bytes.len());
    match dice.below(6) {
        0 => bytes.truncate(at),
        1 => drop(bytes.drain(at..to)),
        2 => bytes.insert(at, dice.below(256) as u8),
        3 => drop(bytes.splice(at..at, dice.pick(PARTS).bytes())),
        4 => bytes.extend_from_within(at..to),
        _ => {
            if let Some(byte) = bytes.get_mut(at) {
                *byte = dice.pick(b"\r\n :/{}[]\",-09");
            }
        }
    }
}

#[test]
fn heads_and_requests() {
    let mut dice = Dice::new(51);
    let deadline = Instant::now() + Duration::from_secs(600);
    let mut ended = [0; 3];
    for _ in 0..100_000 {
        let bytes = strange(&mut dice, GOOD);
        let _ = Head::read(&bytes);
        let size = 1 + dice.below(50);
        let request = read(&mut Pieces { rest: &bytes, size }, deadline);
        match request {
            Ok(None) => ended[0] += 1,
            Ok(Some(request)) => {
                ended[1] += 1;
                let _ = Wish::read(&request.body);
            }
            Err(bad) => {
                ended[2] += 1;
                assert!(!matches!(bad.code, Code::Fine | Code::Late | Code::Broken));
                assert!(!bad.reason.is_empty());
            }
        }
    }
    assert!(ended.iter().all(|&count| count > 50), "{ended:?}");
}

#[test]
fn bodies() {
    let mut dice = Dice::new(52);
    let mut read = 0;
    for _ in 0..200_000 {
        let bytes = strange(&mut dice, BODIES);
        let Ok(wish) = Wish::read(&bytes) else {
            continue;
        };
        read += 1;
        let _ = (
            wish.changes(),
            wish.change(),
            wish.place("at"),
            wish.places("places"),
            wish.floor(),
            wish.name("cart"),
        );
    }
    assert!(read > 1000, "{read}");
}

/// Texts that are no JSON that is taken here.
const NO_VALUES: &[&str] = &[
    "",
    " ",
    "[",
    "{",
    "[1",
    "[1,",
    "[1,]",
    "{\"a\"}",
    "{\"a\":}",
    "{\"a\":1,}",
    "{a:1}",
    "nul",
    "truee",
    "01",
    "-",
    "--1",
    "1.",
    "1e",
    "+1",
    "\"",
    "\"\\",
    "\"\\x\"",
    "\"\\u12\"",
    "\"\\ud800\"",
    "\"\\ud800\\u0041\"",
    "\"\\udc00\"",
    "\"\n\"",
    "1 2",
    "[1 2]",
    "{\"a\":1,\"a\":2}",
    "\u{feff}1",
    "'a'",
];

/// Texts that are.
const VALUES: &[&str] = &[
    "0",
    "-0",
    "-9223372036854775808",
    "1.0",
    "1e3",
    "\"\\ud83d\\ude00\"",
    "\"\\/\\b\\f\\n\\r\\t\\u0000\"",
    "[]",
    "{}",
    "\t[ ]\r\n",
    "{\"a\":[null,true,false]}",
];

#[test]
fn values() {
    for text in NO_VALUES {
        assert!(value::read(text, JSON).is_err(), "{text}");
    }
    for text in VALUES {
        assert!(value::read(text, JSON).is_ok(), "{text}");
    }
    let nested = |depth: usize| format!("{}{}", "[".repeat(depth), "]".repeat(depth));
    assert!(value::read(&nested(8), JSON).is_ok());
    assert!(value::read(&nested(9), JSON).is_err());
    assert!(value::read(&"[".repeat(1_000_000), JSON).is_err());
    let keys = |count: usize| {
        let keys: Vec<String> = (0..count).map(|key| format!("\"{key}\":0")).collect();
        format!("{{{}}}", keys.join(","))
    };
    assert!(value::read(&keys(32), JSON).is_ok());
    assert!(value::read(&keys(33), JSON).is_err());
}

#[test]
fn a_server_survives() {
    let server = start(MAP);
    let mut dice = Dice::new(53);
    for _ in 0..1000 {
        drop(server.raw(&strange(&mut dice, GOOD)));
    }
    for _ in 0..1000 {
        let bytes = strange(&mut dice, BODIES);
        let body = String::from_utf8_lossy(&bytes).into_owned();
        let path = dice.pick(&["map", "place", "zones", "pair", "drive", "judge", "save"]);
        let reply = server.post(path, &body);
        assert!([200, 400].contains(&reply.code), "{path} {body}: {reply:?}");
    }
    assert_eq!(server.get("").code, 200);
}
