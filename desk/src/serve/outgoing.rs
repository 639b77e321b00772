//! Answers of HTTP, and why a request gets none.
use crate::json::Json;
use std::borrow::Cow;

/// The numbers of HTTP that are used here.
#[derive(Clone, Copy, Debug, PartialEq, Eq, Hash)]
pub enum Code {
    /// 200: answered.
    Fine,
    /// 400: the request cannot be read, or asks for what is not there.
    Bad,
    /// 403: it comes from elsewhere, or lacks the token.
    Forbidden,
    /// 404: there is no such address.
    Missing,
    /// 405: the address is there, but not for this method.
    Method,
    /// 408: it took too long.
    Late,
    /// 413: its body is too large.
    Large,
    /// 431: its head is too large.
    Head,
    /// 500: a defect of the program.
    Broken,
}

/// Why a request is not answered.
#[derive(Clone, Debug, PartialEq, Eq)]
pub struct Bad {
    /// The number.
    pub code: Code,
    /// The reason, in words.
    pub reason: Cow<'static, str>,
}

/// What is sent back.
#[derive(Clone, Debug, PartialEq, Eq)]
pub struct Response {
    /// The number.
    pub code: Code,
    /// What the body is.
    pub kind: &'static str,
    /// The body.
    pub body: Cow<'static, [u8]>,
}

/// What JSON is called.
pub const JSON: &str = "application/json; charset=utf-8";

/// Headers of every answer. The page loads from here only, is in no frame, and is kept nowhere.
const ALWAYS: &str = "\
Content-Security-Policy: default-src 'none'; script-src 'self'; style-src 'self'; img-src 'self'; \
connect-src 'self'; base-uri 'none'; form-action 'none'; frame-ancestors 'none'\r\n\
X-Content-Type-Options: nosniff\r\n\
X-Frame-Options: DENY\r\n\
Referrer-Policy: no-referrer\r\n\
Cross-Origin-Resource-Policy: same-origin\r\n\
Cross-Origin-Opener-Policy: same-origin\r\n\
Cache-Control: no-store\r\n\
Connection: close\r\n";

impl Code {
    /// Returns its number and its words.
    #[must_use]
    pub fn line(self) -> (u16, &'static str) {
        match self {
            Code::Fine => (200, "OK"),
            Code::Bad => (400, "Bad Request"),
            Code::Forbidden => (403, "Forbidden"),
            Code::Missing => (404, "Not Found"),
            Code::Method => (405, "Method Not Allowed"),
            Code::Late => (408, "Request Timeout"),
            Code::Large => (413, "Content Too Large"),
            Code::Head => (431, "Request Header Fields Too Large"),
            Code::Broken => (500, "Internal Server Error"),
        }
    }
}

impl Bad {
    /// A reason with its number.
    #[must_use]
    pub fn new(code: Code, reason: impl Into<Cow<'static, str>>) -> Bad {
        let reason = reason.into();
        Bad { code, reason }
    }

    /// A request that cannot be read, or asks for what is not there.
    #[must_use]
    pub fn request(reason: impl Into<Cow<'static, str>>) -> Bad {
        Bad::new(Code::Bad, reason)
    }
}

impl From<Bad> for Response {
    fn from(Bad { code, reason }: Bad) -> Response {
        let object = Json::Object(vec![("error", reason.into_owned().into())]);
        Response {
            code,
            ..Response::json(&object)
        }
    }
}

impl Response {
    /// An answer in JSON.
    #[must_use]
    pub fn json(value: &Json) -> Response {
        Response {
            code: Code::Fine,
            kind: JSON,
            body: value.text().into_bytes().into(),
        }
    }

    /// Returns all bytes of it.
    #[must_use]
    pub fn bytes(&self) -> Vec<u8> {
        let (number, words) = self.code.line();
        let length = self.body.len();
        // Both methods that are known, wherever one of them is not allowed.
        let allow = match self.code {
            Code::Method => "Allow: GET, POST\r\n",
            _ => "",
        };
        let head = format!(
            "HTTP/1.1 {number} {words}\r\nContent-Type: {}\r\nContent-Length: {length}\r\n{allow}{ALWAYS}\r\n",
            self.kind
        );
        [head.as_bytes(), &self.body].concat()
    }
}
