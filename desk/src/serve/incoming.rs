//! Requests, read from a connection within a size and a time.
use super::bounds;
use super::head::Head;
use super::outgoing::{Bad, Code};
use std::io::{self, ErrorKind, Read, Write};
use std::net::{Shutdown, TcpStream};
use std::time::{Duration, Instant};

/// A request.
#[derive(Clone, Debug, PartialEq, Eq)]
pub struct Request {
    /// Its head.
    pub head: Head,
    /// Its body.
    pub body: Vec<u8>,
}

/// A source of bytes that ends in time.
pub trait Timed {
    /// Reads some bytes, as `Read` does, and gives up at the deadline.
    ///
    /// # Errors
    /// Those of the source; `TimedOut` or `WouldBlock` at the deadline.
    fn some(&mut self, to: &mut [u8], deadline: Instant) -> io::Result<usize>;
}

impl Timed for TcpStream {
    fn some(&mut self, to: &mut [u8], deadline: Instant) -> io::Result<usize> {
        self.set_read_timeout(Some(left(deadline)?))?;
        self.read(to)
    }
}

/// The time that is left.
fn left(deadline: Instant) -> io::Result<Duration> {
    let left = deadline.saturating_duration_since(Instant::now());
    if left.is_zero() {
        return Err(ErrorKind::TimedOut.into());
    }
    Ok(left)
}

/// Reads a request; nothing if the connection ends before it begins, or breaks.
///
/// # Errors
/// Why it cannot be read: 400, 405, 408, 413 or 431.
pub fn read(from: &mut impl Timed, deadline: Instant) -> Result<Option<Request>, Bad> {
    let mut bytes = Vec::new();
    let end = loop {
        if let Some(end) = end_of_head(&bytes) {
            break end;
        }
        if bytes.len() >= bounds::HEAD {
            return Err(large_head());
        }
        match more(from, &mut bytes, deadline)? {
            More::Some => {}
            More::End if bytes.is_empty() => return Ok(None),
            More::End => return Err(Bad::request("the request ends in its head")),
            More::Broken => return Ok(None),
        }
    };
    if end + 4 > bounds::HEAD {
        return Err(large_head());
    }
    let head = Head::read(bytes.get(..end).unwrap_or_default())?;
    let body = bytes.split_off((end + 4).min(bytes.len()));
    Ok(body_of(from, &head, body, deadline)?.map(|body| Request { head, body }))
}

fn large_head() -> Bad {
    Bad::new(Code::Head, "the head of the request is too large")
}

/// The rest of a body, of which some bytes are read.
fn body_of(
    from: &mut impl Timed,
    head: &Head,
    mut body: Vec<u8>,
    deadline: Instant,
) -> Result<Option<Vec<u8>>, Bad> {
    let length = head.length()?;
    while body.len() < length {
        match more(from, &mut body, deadline)? {
            More::Some => {}
            More::End => return Err(Bad::request("the request ends in its body")),
            More::Broken => return Ok(None),
        }
    }
    if body.len() > length {
        return Err(Bad::request("the body is longer than its Content-Length"));
    }
    Ok(Some(body))
}

enum More {
    Some,
    End,
    Broken,
}

/// Reads some more bytes.
fn more(from: &mut impl Timed, bytes: &mut Vec<u8>, deadline: Instant) -> Result<More, Bad> {
    let mut some = [0; 4096];
    match from.some(&mut some, deadline) {
        Ok(0) => Ok(More::End),
        Ok(count) => {
            bytes.extend(some.iter().take(count));
            Ok(More::Some)
        }
        Err(error) => match error.kind() {
            ErrorKind::Interrupted => Ok(More::Some),
            ErrorKind::TimedOut | ErrorKind::WouldBlock => {
                Err(Bad::new(Code::Late, "the request took too long"))
            }
            _ => Ok(More::Broken),
        },
    }
}

/// Where the empty line after a head is.
fn end_of_head(bytes: &[u8]) -> Option<usize> {
    bytes.windows(4).position(|four| four == b"\r\n\r\n")
}

/// Writes an answer in time and closes the connection. What the other side still sends is read and dropped for a while:
/// otherwise the system would throw the answer away.
///
/// # Errors
/// The connection breaks or is too slow. Nobody is left to be told.
pub fn answer(stream: &mut TcpStream, bytes: &[u8]) -> io::Result<()> {
    let deadline = Instant::now() + bounds::TIME;
    let mut rest = bytes;
    while !rest.is_empty() {
        stream.set_write_timeout(Some(left(deadline)?))?;
        let count = stream.write(rest)?;
        if count == 0 {
            return Err(ErrorKind::WriteZero.into());
        }
        rest = rest.get(count..).unwrap_or_default();
    }
    stream.shutdown(Shutdown::Write)?;
    let deadline = Instant::now() + bounds::FAREWELL;
    let mut dropped = [0; 4096];
    while stream.some(&mut dropped, deadline)? > 0 {}
    Ok(())
}
