//! A server that runs in this test, and requests to it.
use desk::formats::value::{self, FILE, Is, Value};
use desk::serve::plan::World;
use desk::serve::server::Server;
use desk::source::Source;
use std::io::{Read, Write};
use std::net::{Shutdown, TcpStream};
use std::thread;
use std::time::Duration;

/// The map of the tutorial, with a second floor.
pub const MAP: &str = "\
# Floor 2, north wing.
shape | wall        | @2 0 5000 12000 5000
shape | linen-store | @2 3000 1000 4200 1000
      +                  4200 1800 3000 1800    # the side of the door
shape | bed         | @2 6000 3200 8000 3200 8000 4100 6000 4100
shape | post        | @3 0 0
outline | cart | 0 0 600 0 600 900 0 900
clearance | linen-store | wall
width | linen-store
";

/// A running server.
pub struct Running {
    pub port: u16,
    pub token: String,
}

/// What a server answered.
#[derive(Debug)]
pub struct Reply {
    pub code: u16,
    pub head: String,
    pub body: String,
}

/// Starts a server on a free port. It ends with the test.
pub fn start(map: &str) -> Running {
    let source = Source {
        name: "some/folder/map.txt".into(),
        bytes: map.as_bytes().to_vec(),
    };
    let server = Server::bind(0, World::new(source)).expect("a free port");
    let address = server.address();
    let rest = address.strip_prefix("http://127.0.0.1:").expect("loopback");
    let (port, token) = rest.split_once('/').expect("a token");
    let running = Running {
        port: port.parse().expect("a port"),
        token: token.trim_end_matches('/').to_string(),
    };
    thread::spawn(move || server.run());
    running
}

impl Running {
    pub fn host(&self) -> String {
        format!("127.0.0.1:{}", self.port)
    }

    pub fn connect(&self) -> TcpStream {
        let stream = TcpStream::connect(("127.0.0.1", self.port)).expect("the server");
        let time = Some(Duration::from_secs(20));
        stream.set_read_timeout(time).expect("a timeout");
        stream
    }

    /// Sends bytes, and returns all that comes back; nothing if the connection is closed without an answer.
    pub fn raw(&self, bytes: &[u8]) -> Option<Reply> {
        let mut stream = self.connect();
        // The server may answer and close before it has read all.
        let _ = stream.write_all(bytes);
        let _ = stream.shutdown(Shutdown::Write);
        reply(&mut stream)
    }

    /// Sends a head with lines of its own.
    pub fn head(&self, first: &str, headers: &[&str]) -> Reply {
        let lines: Vec<&str> = [first].iter().chain(headers).copied().collect();
        self.raw(format!("{}\r\n\r\n", lines.join("\r\n")).as_bytes())
            .expect("an answer")
    }

    /// Fetches a file of the page.
    pub fn get(&self, path: &str) -> Reply {
        let (token, host) = (&self.token, self.host());
        self.head(
            &format!("GET /{token}/{path} HTTP/1.1"),
            &[&format!("Host: {host}")],
        )
    }

    /// Asks a question.
    pub fn post(&self, path: &str, body: &str) -> Reply {
        self.post_with(path, body, "")
    }

    /// Asks a question with headers of its own.
    pub fn post_with(&self, path: &str, body: &str, headers: &str) -> Reply {
        let (token, host, length) = (&self.token, self.host(), body.len());
        let request = format!(
            "POST /{token}/{path} HTTP/1.1\r\nHost: {host}\r\nContent-Type: application/json\r\n\
             Content-Length: {length}\r\n{headers}\r\n{body}"
        );
        self.raw(request.as_bytes()).expect("an answer")
    }

    /// Asks a question that is answered.
    pub fn asked(&self, path: &str, body: &str) -> Value {
        let reply = self.post(path, body);
        assert_eq!(reply.code, 200, "{path} {body}: {reply:?}");
        value::read(&reply.body, FILE).expect("JSON")
    }
}

/// Reads an answer to its end.
pub fn reply(stream: &mut TcpStream) -> Option<Reply> {
    let mut bytes = Vec::new();
    let _ = stream.read_to_end(&mut bytes);
    let text = String::from_utf8(bytes).expect("text");
    let (head, body) = text.split_once("\r\n\r\n")?;
    let code = head.split(' ').nth(1).expect("a number");
    Some(Reply {
        code: code.parse().expect("a number"),
        head: head.to_string(),
        body: body.to_string(),
    })
}

/// The member of an object.
pub fn member<'a>(value: &'a Value, key: &str) -> &'a Value {
    let found = value.get(key);
    found.unwrap_or_else(|| panic!("{value:?} has no {key}"))
}

/// The values of a list.
pub fn list(value: &Value) -> &[Value] {
    let found = value.list();
    found.unwrap_or_else(|| panic!("{value:?} is no list"))
}

/// The text of a member.
pub fn text<'a>(value: &'a Value, key: &str) -> &'a str {
    let found = member(value, key).text();
    found.unwrap_or_else(|| panic!("{value:?} has no text {key}"))
}

/// A number.
pub fn number(number: i64) -> Value {
    on_first_line(Is::Number(number.to_string()))
}

/// Yes or no.
pub fn yes(is_so: bool) -> Value {
    on_first_line(Is::Bool(is_so))
}

/// Corners.
pub fn corners(list: &[[i64; 2]]) -> Value {
    let corner = |corner: &[i64; 2]| on_first_line(Is::List(corner.map(number).to_vec()));
    on_first_line(Is::List(list.iter().map(corner).collect()))
}

/// A value of an answer, which has one line.
fn on_first_line(is: Is) -> Value {
    Value { is, line: 1 }
}
