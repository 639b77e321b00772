//! What a request may take: size and time. After each refusal the server goes on.
use crate::server::{MAP, Running, reply, start};
use std::io::Write;
use std::thread;
use std::time::{Duration, Instant};

fn first(server: &Running) -> String {
    format!(
        "GET /{}/ HTTP/1.1\r\nHost: {}\r\n",
        server.token,
        server.host()
    )
}

fn goes_on(server: &Running) {
    assert_eq!(server.get("").code, 200);
}

#[test]
fn a_large_head_is_refused() {
    let server = start(MAP);
    let first = first(&server);
    let many = |count: usize| format!("{first}{}\r\n", "X: y\r\n".repeat(count));
    assert_eq!(
        server.raw(many(63).as_bytes()).expect("an answer").code,
        200
    );
    assert_eq!(
        server.raw(many(64).as_bytes()).expect("an answer").code,
        431
    );
    let long = |count: usize| format!("{first}X: {}\r\n\r\n", "y".repeat(count));
    assert_eq!(
        server.raw(long(4000).as_bytes()).expect("an answer").code,
        200
    );
    assert_eq!(
        server.raw(long(4100).as_bytes()).expect("an answer").code,
        431
    );
    assert_eq!(
        server
            .raw(long(1 << 20).as_bytes())
            .expect("an answer")
            .code,
        431
    );
    let lines = format!(
        "{first}{}\r\n",
        format!("X: {}\r\n", "y".repeat(1000)).repeat(20)
    );
    assert_eq!(server.raw(lines.as_bytes()).expect("an answer").code, 431);
    let address = format!("GET /{} HTTP/1.1\r\n\r\n", "a".repeat(200));
    assert_eq!(server.raw(address.as_bytes()).expect("an answer").code, 431);
    goes_on(&server);
}

#[test]
fn a_large_body_is_refused() {
    let server = start(MAP);
    let limit = 1 << 20;
    let padded = |length: usize| format!("{{{}}}", " ".repeat(length - 2));
    assert_eq!(server.post("map", &padded(limit)).code, 200);
    assert_eq!(server.post("map", &padded(limit + 1)).code, 413);
    let (token, host) = (&server.token, server.host());
    for length in ["99999999999", "18446744073709551616", &"9".repeat(400)] {
        let head = format!(
            "POST /{token}/map HTTP/1.1\r\nHost: {host}\r\nContent-Length: {length}\r\n\r\n"
        );
        assert_eq!(
            server.raw(head.as_bytes()).expect("an answer").code,
            413,
            "{length}"
        );
    }
    goes_on(&server);
}

#[test]
fn a_body_has_one_plain_length() {
    let server = start(MAP);
    let (token, host) = (&server.token, server.host());
    let kind = "Content-Type: application/json\r\n";
    for (headers, body) in [
        ("", ""),
        ("Content-Length: -1\r\n", ""),
        ("Content-Length: +2\r\n", "{}"),
        ("Content-Length: 2x\r\n", "{}"),
        ("Content-Length: 0x2\r\n", "{}"),
        ("Content-Length: 2\r\nContent-Length: 2\r\n", "{}"),
        ("Content-Length: 2, 2\r\n", "{}"),
        ("Content-Length: 2\r\nTransfer-Encoding: chunked\r\n", "{}"),
        ("Transfer-Encoding: chunked\r\n", "2\r\n{}\r\n0\r\n\r\n"),
        ("Content-Length: 3\r\n", "{}"),
        ("Content-Length: 1\r\n", "{}"),
    ] {
        let request =
            format!("POST /{token}/map HTTP/1.1\r\nHost: {host}\r\n{kind}{headers}\r\n{body}");
        let reply = server.raw(request.as_bytes()).expect("an answer");
        assert_eq!(reply.code, 400, "{headers:?} {body:?}: {reply:?}");
        assert!(reply.body.starts_with("{\"error\":\""), "{reply:?}");
    }
    goes_on(&server);
}

#[test]
fn a_head_is_plain() {
    let server = start(MAP);
    let (token, host) = (server.token.clone(), format!("Host: {}", server.host()));
    for first in [
        format!("GET /{token}/"),
        format!("GET /{token}/ HTTP/1.0"),
        format!("GET /{token}/ HTTP/2"),
        format!("GET /{token}/ http/1.1"),
        format!("GET  /{token}/ HTTP/1.1"),
        format!("GET /{token}/  HTTP/1.1"),
        format!(" GET /{token}/ HTTP/1.1"),
        format!("GET http://{}/{token}/ HTTP/1.1", server.host()),
        format!("GET\t/{token}/\tHTTP/1.1"),
        "GET * HTTP/1.1".to_string(),
        String::new(),
        "\u{1b}".to_string(),
        format!("G\u{e9}T /{token}/ HTTP/1.1"),
    ] {
        let reply = server.head(&first, &[&host]);
        assert_eq!(reply.code, 400, "{first:?}: {reply:?}");
    }
    let own = format!("GET /{token}/ HTTP/1.1");
    for header in [
        "X",
        ": y",
        "X : y",
        " X: y",
        "\tfolded",
        "X\0: y",
        "X: \r y",
        "X: a\nY: b",
        "X: \u{e9}",
    ] {
        assert_eq!(server.head(&own, &[&host, header]).code, 400, "{header:?}");
    }
    assert_eq!(server.head(&own, &[&host, "X:"]).code, 200);
    goes_on(&server);
}

#[test]
fn a_request_that_ends_early() {
    let server = start(MAP);
    assert!(server.raw(b"").is_none());
    assert_eq!(server.raw(b"GET / HTTP").expect("an answer").code, 400);
    assert_eq!(server.raw(b"\r\n\r\n").expect("an answer").code, 400);
    // A connection that breaks off.
    for _ in 0..50 {
        let mut stream = server.connect();
        let _ = stream.write_all(first(&server).as_bytes());
        drop(stream);
    }
    goes_on(&server);
}

#[test]
fn a_slow_request_is_ended() {
    let server = start(MAP);
    let begun = Instant::now();
    let mut silent = server.connect();
    let mut trickling = server.connect();
    let mut slow_body = server.connect();
    let (token, host) = (&server.token, server.host());
    let head = format!("POST /{token}/map HTTP/1.1\r\nHost: {host}\r\nContent-Length: 100\r\n\r\n");
    slow_body.write_all(head.as_bytes()).expect("a connection");
    let mut writer = trickling.try_clone().expect("a connection");
    thread::spawn(move || {
        // A byte now and then does not lengthen the time.
        while writer.write_all(b"G").is_ok() {
            thread::sleep(Duration::from_millis(300));
        }
    });
    goes_on(&server);
    for stream in [&mut silent, &mut trickling, &mut slow_body] {
        assert_eq!(reply(stream).expect("an answer").code, 408);
    }
    let time = begun.elapsed();
    assert!(
        Duration::from_secs(4) < time && time < Duration::from_secs(12),
        "{time:?}"
    );
    goes_on(&server);
}

#[test]
fn a_reader_that_does_not_read_is_left() {
    // An answer that is larger than what the system takes for a connection that nobody reads.
    let shape = |number: usize| format!("shape | obstacle-{number} | @2 {number} 0 {number} 9\n");
    let map: String = (0..60_000).map(shape).collect();
    let server = start(&map);
    let (token, host) = (&server.token, server.host());
    let request = format!(
        "POST /{token}/map HTTP/1.1\r\nHost: {host}\r\nContent-Type: application/json\r\nContent-Length: 2\r\n\r\n{{}}"
    );
    let mut lazy: Vec<_> = (0..3).map(|_| server.connect()).collect();
    for stream in &mut lazy {
        stream.write_all(request.as_bytes()).expect("a connection");
    }
    thread::sleep(Duration::from_secs(8));
    for stream in &mut lazy {
        let reply = reply(stream).expect("the beginning of an answer");
        let whole = format!("Content-Length: {}\r", reply.body.len());
        assert!(!reply.head.contains(&whole), "all of it was sent");
    }
    goes_on(&server);
}

#[test]
fn more_connections_than_threads_wait() {
    let server = start(MAP);
    let idle: Vec<_> = (0..40).map(|_| server.connect()).collect();
    drop(idle);
    goes_on(&server);
    let threads: Vec<_> = (0..8)
        .map(|_| {
            let server = Running {
                port: server.port,
                token: server.token.clone(),
            };
            thread::spawn(move || (0..50).all(|_| server.post("map", "{}").code == 200))
        })
        .collect();
    for thread in threads {
        assert!(thread.join().expect("no panic"));
    }
}
