//! Words, each read as a value.
use crate::fault::Fault;
use crate::fields::Unread;
use crate::given::Given;
use crate::lines::Word;
use crate::name::Name;
use crate::question::Call;
use crate::unit::{Inexact, Unit};

/// Returns whether a word is meant as a number or a floor, and not as a name.
#[must_use]
pub fn is_numeric(text: &str) -> bool {
    let digits = text.trim_start_matches(['-', '+', '@', '.']);
    let only = |c: char| c.is_ascii_digit() || matches!(c, '.' | ',' | '-' | '+' | '@');
    text.starts_with('@') || digits.chars().all(only)
}

/// Reads numbers of a unit after their floor; without one it is `unsaid`.
///
/// # Errors
/// It is none.
pub fn list(words: &[Word<'_>], unsaid: Option<u16>, unit: Option<Unit>) -> Result<Given, Unread> {
    let (floor, numbers) = match words {
        [first, rest @ ..] if first.text.starts_with('@') => (Some(floor(first)?), rest),
        all => (unsaid, all),
    };
    let numbers = numbers.iter().map(|word| length(word, unit));
    let numbers: Result<Vec<i32>, Unread> = numbers.collect();
    Ok(Given {
        name: None,
        numbers: numbers?.into(),
        floor,
    })
}

/// Reads a length exactly, as whole millimetres. Without a unit none can be read.
///
/// # Errors
/// It is none.
pub fn length(word: &Word<'_>, unit: Option<Unit>) -> Result<i32, Unread> {
    let found = || word.text.to_string();
    if word.text.starts_with('@') {
        return Err(Unread::at(word, Fault::MisplacedFloor { found: found() }));
    }
    let unit = unit.ok_or_else(|| Unread::at(word, Fault::NoUnit))?;
    unit.millimetres(word.text).map_err(|why| match why {
        Inexact::NotANumber => Unread::at(word, not_a_number(word.text)),
        Inexact::Large => Unread::at(word, Fault::LargeNumber { found: found() }),
        Inexact::NotWhole => Unread::NotWhole {
            line: word.line,
            found: found(),
            unit,
        },
    })
}

/// Reads a floor: its sign, and a number from 0 to 65,535 as corners are written, so `@-0` is floor 0.
///
/// # Errors
/// It is none.
pub fn floor(word: &Word<'_>) -> Result<u16, Unread> {
    let text = word.text.strip_prefix('@').unwrap_or_default();
    let line = word.line;
    let floor = number(&Word { text, line }).ok();
    let found = || word.text.to_string();
    floor
        .and_then(|floor| floor.try_into().ok())
        .ok_or_else(|| Unread::at(word, Fault::NotAFloor { found: found() }))
}

/// Reads a whole number of 32 bits, with a minus or without.
///
/// # Errors
/// It is none.
pub fn number(word: &Word<'_>) -> Result<i32, Unread> {
    let found = || word.text.to_string();
    if word.text.starts_with('@') {
        return Err(Unread::at(word, Fault::MisplacedFloor { found: found() }));
    }
    let digits = word.text.strip_prefix('-').unwrap_or(word.text);
    if digits.is_empty() || !digits.bytes().all(|byte| byte.is_ascii_digit()) {
        return Err(Unread::at(word, not_a_number(word.text)));
    }
    let number = word.text.parse();
    number.map_err(|_| Unread::at(word, Fault::LargeNumber { found: found() }))
}

/// Why a word is no number.
fn not_a_number(text: &str) -> Fault {
    let found = text.to_string();
    if !is_numeric(text) && Name::read(text).is_ok() {
        return Fault::NameAmongNumbers { found };
    }
    Fault::NotANumber { found }
}

/// Reads a whole number of 31 bits that is not negative.
///
/// # Errors
/// It is none.
pub fn count(word: &Word<'_>) -> Result<usize, Unread> {
    let count = number(word)?.try_into();
    count.map_err(|_| Unread::at(word, Fault::not_a("a count", word.text)))
}

/// Reads a call of a sum in parts.
///
/// # Errors
/// It is none.
pub fn call(word: &Word<'_>) -> Result<Call, Unread> {
    let wrong = || Unread::at(word, Fault::not_a("a call, such as 2:4", word.text));
    let (corners, room) = word.text.split_once(':').ok_or_else(wrong)?;
    let part = |text| {
        let line = word.line;
        count(&Word { text, line }).map_err(|_| wrong())
    };
    Ok(Call {
        corners: part(corners)?,
        room: part(room)?,
    })
}

/// Returns the byte of two hexadecimal digits; nothing for other text.
#[must_use]
pub fn byte(digits: &[u8]) -> Option<u8> {
    let [high, low] = *digits else { return None };
    let digit = |byte: u8| char::from(byte).to_digit(16);
    let byte = (digit(high)? << 4) | digit(low)?;
    byte.try_into().ok()
}

/// Returns the double of 16 hexadecimal digits after `0x`; nothing for other text.
#[must_use]
pub fn double(text: &str) -> Option<f64> {
    let digits = text
        .strip_prefix("0x")
        .filter(|digits| digits.len() == 16)?;
    let hexadecimal = digits.bytes().all(|byte| byte.is_ascii_hexdigit());
    let bits = u64::from_str_radix(digits, 16).ok().filter(|_| hexadecimal);
    bits.map(f64::from_bits)
}
