//! The head of a request, read strictly: what is not plainly HTTP/1.1 is refused.
use super::bounds;
use super::outgoing::{Bad, Code};

/// What may be done with an address.
#[derive(Clone, Copy, Debug, PartialEq, Eq)]
pub enum Method {
    /// A page is fetched.
    Get,
    /// A question is asked.
    Post,
}

/// The head of a request, taken apart.
#[derive(Clone, Debug, PartialEq, Eq)]
pub struct Head {
    /// Its method.
    pub method: Method,
    /// Its address, from the first slash on.
    pub target: String,
    /// Its headers in order, with small letters.
    headers: Vec<(String, String)>,
}

impl Head {
    /// Reads a head, without the empty line at its end.
    ///
    /// # Errors
    /// Why it is none: 400, 405 or 431.
    pub fn read(bytes: &[u8]) -> Result<Head, Bad> {
        let text = plain(bytes)?;
        let mut lines = text.split("\r\n");
        let (method, target) = first(lines.next().unwrap_or_default())?;
        let mut headers = Vec::new();
        for line in lines {
            if headers.len() == bounds::HEADERS {
                return Err(Bad::new(Code::Head, "the request has too many headers"));
            }
            headers.push(header(line)?);
        }
        Ok(Head {
            method,
            target,
            headers,
        })
    }

    /// Returns the value of a header that may be there once.
    ///
    /// # Errors
    /// It is there twice: 400.
    pub fn header(&self, name: &str) -> Result<Option<&str>, Bad> {
        let mut found = self.headers.iter().filter(|(own, _)| own == name);
        let value = found.next().map(|(_, value)| value.as_str());
        match found.next() {
            Some(_) => Err(Bad::request(format!("the header {name} is there twice"))),
            None => Ok(value),
        }
    }

    /// Returns how long the body is.
    ///
    /// # Errors
    /// It is too long, 413, or its length is not said plainly, 400.
    pub fn length(&self) -> Result<usize, Bad> {
        if self.header("transfer-encoding")?.is_some() {
            let why = "the body needs a Content-Length, and no Transfer-Encoding";
            return Err(Bad::request(why));
        }
        let given = self.header("content-length")?;
        let length = given.map(length_of).transpose()?;
        match (self.method, length) {
            (Method::Get, None | Some(0)) => Ok(0),
            (Method::Get, Some(_)) => Err(Bad::request("a page is fetched without a body")),
            (Method::Post, Some(length)) if length > bounds::BODY => {
                Err(Bad::new(Code::Large, "the body is too large"))
            }
            (Method::Post, Some(length)) => Ok(length),
            (Method::Post, None) => Err(Bad::request("a question needs a Content-Length")),
        }
    }
}

/// Digits only. What is too long to be read is too large as well.
fn length_of(text: &str) -> Result<usize, Bad> {
    if text.is_empty() || !text.bytes().all(|byte| byte.is_ascii_digit()) {
        return Err(Bad::request("the Content-Length is no number"));
    }
    Ok(text.parse().unwrap_or(usize::MAX))
}

/// A text of visible letters, blanks and tabs in lines that are not too long.
fn plain(bytes: &[u8]) -> Result<&str, Bad> {
    let is_plain = |byte: u8| matches!(byte, b'\t' | b' '..=b'~');
    for line in bytes.split(|&byte| byte == b'\n') {
        if line.len() > bounds::LINE {
            return Err(Bad::new(Code::Head, "a line of the head is too long"));
        }
    }
    let text = std::str::from_utf8(bytes).ok();
    let text = text.filter(|text| {
        let lines = text.split("\r\n");
        lines.flat_map(str::bytes).all(is_plain)
    });
    text.ok_or_else(|| Bad::request("the head has signs that no head has"))
}

/// The method, the address and the version, with one blank between them.
fn first(line: &str) -> Result<(Method, String), Bad> {
    let wrong = || Bad::request("the request's first line is not METHOD ADDRESS HTTP/1.1");
    let parts: Vec<&str> = line.split(' ').collect();
    let [method, target, version] = *parts.as_slice() else {
        return Err(wrong());
    };
    if version != "HTTP/1.1" || !is_token(method) {
        return Err(wrong());
    }
    if target.len() > bounds::TARGET {
        return Err(Bad::new(Code::Head, "the address is too long"));
    }
    if !target.starts_with('/') || !target.bytes().all(is_of_address) {
        let why = "the address has signs that no address here has";
        return Err(Bad::request(why));
    }
    let method = match method {
        "GET" => Method::Get,
        "POST" => Method::Post,
        _ => return Err(Bad::new(Code::Method, "only GET and POST are known")),
    };
    Ok((method, target.to_string()))
}

/// Addresses here are plain: there is nothing to decode.
fn is_of_address(byte: u8) -> bool {
    byte.is_ascii_alphanumeric() || matches!(byte, b'/' | b'.' | b'-' | b'_')
}

/// A name, a colon and a value. A line that continues another begins with a blank, which is no name.
fn header(line: &str) -> Result<(String, String), Bad> {
    let wrong = || Bad::request("a header is not NAME: VALUE");
    let (name, value) = line.split_once(':').ok_or_else(wrong)?;
    if !is_token(name) {
        return Err(wrong());
    }
    let value = value.trim_matches([' ', '\t']);
    Ok((name.to_ascii_lowercase(), value.to_string()))
}

/// Whether a text is a token of RFC 9110.
fn is_token(text: &str) -> bool {
    let is_of_token = |byte: u8| byte.is_ascii_alphanumeric() || b"!#$%&'*+-.^_`|~".contains(&byte);
    !text.is_empty() && text.bytes().all(is_of_token)
}
