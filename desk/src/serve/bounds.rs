//! What a request may take: bytes, headers and time.
use crate::formats::value::Bounds;
use std::time::Duration;

/// The most bytes of a request's head, its end included.
pub const HEAD: usize = 16 << 10;

/// The most headers.
pub const HEADERS: usize = 64;

/// The most bytes of a header's line, and of the request's own.
pub const LINE: usize = 4 << 10;

/// The most bytes of an address.
pub const TARGET: usize = 128;

/// The most bytes of a body.
pub const BODY: usize = 1 << 20;

/// How much the JSON of a body may have.
pub const JSON: Bounds = Bounds { depth: 8, keys: 32 };

/// The most places of a drive.
pub const PLACES: usize = 64;

/// The most shapes that a request changes.
pub const CHANGES: usize = 256;

/// How long a connection may take to send its request, and then to take the answer.
pub const TIME: Duration = Duration::from_secs(5);

/// How long a closed connection is read on, so that its answer is not lost.
pub const FAREWELL: Duration = Duration::from_millis(500);

/// How many connections are served at a time. The others wait in the system's queue.
pub const WORKERS: usize = 16;
