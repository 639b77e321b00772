//! The secret of an address.
use std::fs::File;
use std::io::{self, Read};

/// How many random bytes there are.
const BYTES: usize = 16;

/// A secret that is part of every address of one run. It is not printed by `Debug`.
pub struct Token(String);

impl Token {
    /// Draws one from the system's source.
    ///
    /// # Errors
    /// The source cannot be read. Nothing weaker is used instead.
    pub fn draw() -> io::Result<Token> {
        let mut bytes = [0; BYTES];
        File::open("/dev/urandom")?.read_exact(&mut bytes)?;
        let digits = bytes.iter().map(|byte| format!("{byte:02x}"));
        Ok(Token(digits.collect()))
    }

    /// Returns its text, for the address.
    #[must_use]
    pub fn as_str(&self) -> &str {
        &self.0
    }

    /// Returns whether a text is the token. The time that it takes depends on no byte of the token: all are compared.
    #[must_use]
    pub fn is(&self, text: &str) -> bool {
        let pairs = self.0.bytes().zip(text.bytes());
        let differs = pairs.fold(0, |differs, (own, other)| differs | (own ^ other));
        std::hint::black_box(differs) == 0 && self.0.len() == text.len()
    }
}

impl std::fmt::Debug for Token {
    fn fmt(&self, f: &mut std::fmt::Formatter<'_>) -> std::fmt::Result {
        f.write_str("Token")
    }
}
