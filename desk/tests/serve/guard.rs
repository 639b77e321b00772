//! Who may ask: hosts, origins, sites, tokens and addresses.
use crate::server::{MAP, start};

#[test]
fn pages_are_served_with_their_headers() {
    let server = start(MAP);
    for (path, kind) in [
        ("", "text/html; charset=utf-8"),
        ("style.css", "text/css; charset=utf-8"),
        ("page.js", "text/javascript; charset=utf-8"),
        ("icon.svg", "image/svg+xml"),
    ] {
        let reply = server.get(path);
        assert_eq!(reply.code, 200, "{path}");
        for header in [
            &format!("Content-Type: {kind}"),
            "Content-Security-Policy: default-src 'none'; script-src 'self';",
            "frame-ancestors 'none'",
            "X-Content-Type-Options: nosniff",
            "X-Frame-Options: DENY",
            "Referrer-Policy: no-referrer",
            "Cross-Origin-Resource-Policy: same-origin",
            "Cache-Control: no-store",
            "Connection: close",
        ] {
            assert!(reply.head.contains(header), "{path}: {header}");
        }
    }
    // Refusals have the same headers.
    let reply = server.get("none");
    assert_eq!(reply.code, 404);
    assert!(
        reply
            .head
            .contains("Content-Security-Policy: default-src 'none'")
    );
    assert!(reply.head.contains("Cache-Control: no-store"));
}

#[test]
fn the_page_fetches_nothing_from_elsewhere() {
    for page in desk::serve::pages::PAGES {
        let body = page.response().body.into_owned();
        let text = String::from_utf8(body).expect("text");
        let named = text.replace("http://www.w3.org/", "");
        assert!(!named.contains("http://"), "{}", page.path);
        assert!(!named.contains("https://"), "{}", page.path);
        assert!(!text.contains("innerHTML"), "{}", page.path);
    }
}

#[test]
fn only_the_own_host_is_answered() {
    let server = start(MAP);
    let first = format!("GET /{}/ HTTP/1.1", server.token);
    let port = server.port;
    for host in [
        "evil.example".to_string(),
        format!("evil.example:{port}"),
        format!("localhost:{port}"),
        "127.0.0.1".to_string(),
        format!("127.0.0.1:{}", port ^ 1),
        format!("127.0.0.1:{port}.evil.example"),
        format!("[::1]:{port}"),
        String::new(),
    ] {
        let reply = server.head(&first, &[&format!("Host: {host}")]);
        assert_eq!(reply.code, 403, "{host}: {reply:?}");
        assert!(reply.body.contains("Host"), "{reply:?}");
    }
    assert_eq!(server.head(&first, &[]).code, 400);
    let own = format!("Host: {}", server.host());
    assert_eq!(server.head(&first, &[&own, &own]).code, 400);
    assert_eq!(server.head(&first, &[&own]).code, 200);
}

#[test]
fn only_the_own_origin_is_answered() {
    let server = start(MAP);
    let own = format!("Origin: http://{}\r\n", server.host());
    assert_eq!(server.post_with("map", "{}", &own).code, 200);
    for origin in [
        "null".to_string(),
        "http://evil.example".to_string(),
        format!("http://localhost:{}", server.port),
        format!("https://{}", server.host()),
        format!("http://127.0.0.1:{}", server.port ^ 1),
        String::new(),
    ] {
        let reply = server.post_with("map", "{}", &format!("Origin: {origin}\r\n"));
        assert_eq!(reply.code, 403, "{origin}: {reply:?}");
        assert!(reply.body.contains("origin"), "{reply:?}");
    }
}

#[test]
fn only_the_own_site_is_answered() {
    let server = start(MAP);
    let first = format!("GET /{}/ HTTP/1.1", server.token);
    let host = format!("Host: {}", server.host());
    for (site, code) in [
        ("none", 200),
        ("same-origin", 200),
        ("same-site", 403),
        ("cross-site", 403),
        ("anything", 403),
    ] {
        let header = format!("Sec-Fetch-Site: {site}");
        assert_eq!(server.head(&first, &[&host, &header]).code, code, "{site}");
    }
    for (site, code) in [("none", 403), ("same-origin", 200), ("cross-site", 403)] {
        let header = format!("Sec-Fetch-Site: {site}\r\n");
        assert_eq!(server.post_with("map", "{}", &header).code, code, "{site}");
    }
}

#[test]
fn every_request_needs_the_token() {
    let server = start(MAP);
    let host = format!("Host: {}", server.host());
    let token = &server.token;
    let other = if token.ends_with('0') { "1" } else { "0" };
    let almost = format!("{}{other}", &token[..token.len() - 1]);
    assert_eq!(token.len(), 32);
    for path in [
        "/".to_string(),
        "/favicon.ico".to_string(),
        "/page.js".to_string(),
        "//".to_string(),
        format!("/{almost}/"),
        format!("/{almost}/map"),
        format!("/{token}0/"),
        format!("/{}/", &token[1..]),
        format!("/x/{token}/"),
        format!("/{}/", token.to_uppercase()),
    ] {
        let same = path == format!("/{token}/");
        for method in ["GET", "POST"] {
            let reply = server.head(
                &format!("{method} {path} HTTP/1.1"),
                &[&host, "Content-Length: 0"],
            );
            assert!(same || reply.code == 403, "{method} {path}: {reply:?}");
        }
    }
    assert_ne!(start(MAP).token, *token);
}

#[test]
fn a_token_is_itself_only() {
    let token = desk::serve::token::Token::draw().expect("random bytes");
    let text = token.as_str().to_string();
    assert!(token.is(&text));
    for other in [
        "",
        "0",
        &text[1..],
        &format!("{text}0"),
        &text.replace(&text[..1], "x"),
    ] {
        assert!(!token.is(other), "{other}");
    }
    assert_eq!(format!("{token:?}"), "Token");
}

#[test]
fn no_path_of_the_file_system_can_be_asked_for() {
    let server = start(MAP);
    for (path, code) in [
        ("../../../../etc/passwd", 404),
        ("..", 404),
        ("/etc/passwd", 404),
        ("page.html", 404),
        ("web/page.html", 404),
        ("map.txt", 404),
        ("some/folder/map.txt", 404),
        ("page.js/", 404),
        (".", 404),
        ("%2e%2e/%2e%2e/etc/passwd", 400),
        ("page.js?x=1", 400),
        ("page.js#x", 400),
        ("..\\..\\x", 400),
        ("~root", 400),
    ] {
        let reply = server.get(path);
        assert_eq!(reply.code, code, "{path}: {reply:?}");
        assert!(!reply.body.contains("root:"), "{path}");
    }
    // The page is told the file's name, and not its folder.
    let reply = server.post("map", "{}");
    assert!(reply.body.contains("\"file\":\"map.txt\"") && !reply.body.contains("folder"));
}

#[test]
fn methods_are_those_of_the_address() {
    let server = start(MAP);
    let host = format!("Host: {}", server.host());
    let token = &server.token;
    for (method, path, code) in [
        ("GET", "", 200),
        ("POST", "", 405),
        ("GET", "map", 405),
        ("HEAD", "", 405),
        ("OPTIONS", "map", 405),
        ("PUT", "map", 405),
        ("DELETE", "", 405),
        ("TRACE", "", 405),
        ("FOO", "", 405),
        ("get", "", 405),
    ] {
        let first = format!("{method} /{token}/{path} HTTP/1.1");
        let reply = server.head(&first, &[&host, "Content-Length: 0"]);
        assert_eq!(reply.code, code, "{method} {path}: {reply:?}");
        assert_eq!(reply.head.contains("Allow: GET, POST"), code == 405);
    }
}

#[test]
fn a_question_is_json() {
    let server = start(MAP);
    let (token, host) = (&server.token, server.host());
    for (kind, code) in [
        ("application/json", 200),
        ("application/json; charset=utf-8", 200),
        ("Application/JSON", 200),
        ("text/plain", 400),
        ("application/x-www-form-urlencoded", 400),
        ("", 400),
    ] {
        let request = format!(
            "POST /{token}/map HTTP/1.1\r\nHost: {host}\r\nContent-Type: {kind}\r\nContent-Length: 2\r\n\r\n{{}}"
        );
        let reply = server.raw(request.as_bytes()).expect("an answer");
        assert_eq!(reply.code, code, "{kind}: {reply:?}");
    }
}

#[test]
fn other_computers_do_not_reach_it() {
    let server = start(MAP);
    // Another address of this computer's loopback network is not the one that it listens at.
    let other = std::net::TcpStream::connect(("127.0.0.2", server.port));
    assert!(other.is_err());
}
