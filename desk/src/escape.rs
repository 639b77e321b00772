//! Text of a user, made safe to print.
use std::fmt::Write;

/// The most characters that are echoed of a word.
const MOST_SHOWN: usize = 48;

/// Returns the text with control characters and invisible ones escaped, as `\u{1b}`.
///
/// ```
/// assert_eq!(desk::escape::escaped("a\u{1b}[31m"), "a\\u{1b}[31m");
/// ```
#[must_use]
pub fn escaped(text: &str) -> String {
    let mut safe = String::with_capacity(text.len());
    for c in text.chars() {
        if c.is_control() || is_invisible(c) {
            // Writing to a string cannot fail.
            let _ = write!(safe, "{}", c.escape_unicode());
        } else {
            safe.push(c);
        }
    }
    safe
}

/// Returns a word of a user in backticks, escaped, and shortened if it is long.
///
/// ```
/// assert_eq!(desk::escape::quoted("linnen-store"), "`linnen-store`");
/// ```
#[must_use]
pub fn quoted(text: &str) -> String {
    let short: String = text.chars().take(MOST_SHOWN).collect();
    let rest = if short.len() < text.len() { ".." } else { "" };
    format!("`{}{rest}`", escaped(&short))
}

/// Whether a character changes what others look like, or looks like a space or like nothing.
fn is_invisible(c: char) -> bool {
    matches!(
        c,
        '\u{a0}' | '\u{ad}' | '\u{61c}' | '\u{180e}' | '\u{2000}'..='\u{200f}' | '\u{2028}'..='\u{202f}'
            | '\u{205f}'..='\u{206f}' | '\u{3000}' | '\u{feff}' | '\u{fff9}'..='\u{fffb}'
            | '\u{e0000}'..='\u{e007f}'
    )
}
