//! Words of a text, and what one word can be. A text is bytes: a line may hold anything.
use cocklesway::Reading;

/// Tabs and carriage returns count as spaces; no other character does.
pub fn is_space(byte: &u8) -> bool {
    matches!(byte, b' ' | b'\t' | b'\r')
}

/// Returns what is between spaces.
pub fn words(text: &[u8]) -> impl Iterator<Item = &[u8]> {
    text.split(is_space).filter(|word| !word.is_empty())
}

/// Returns the text without the spaces around it.
pub fn trimmed(text: &[u8]) -> &[u8] {
    let from = text.iter().position(|byte| !is_space(byte));
    let last = text.iter().rposition(|byte| !is_space(byte));
    match (from, last) {
        (Some(from), Some(last)) => &text[from..=last],
        _ => &[],
    }
}

/// Digits, with a minus before them or none.
pub fn number(word: &[u8]) -> Option<i32> {
    let text = str::from_utf8(word).ok()?;
    let parsed = text.parse().ok();
    parsed.filter(|_| !text.starts_with('+'))
}

/// Digits alone.
pub fn digits(word: &[u8]) -> Option<u32> {
    let all = word.iter().all(u8::is_ascii_digit);
    str::from_utf8(word).ok().filter(|_| all)?.parse().ok()
}

/// An at sign and a number of 16 bits.
pub fn floor(word: &[u8]) -> Option<u16> {
    number(word.strip_prefix(b"@")?)?.try_into().ok()
}

/// Two runs of digits, with a colon between them.
pub fn pair(word: &[u8]) -> Option<[&[u8]; 2]> {
    let halves: Vec<&[u8]> = word.split(|&byte| byte == b':').collect();
    let is_digits = |half: &&[u8]| !half.is_empty() && half.iter().all(u8::is_ascii_digit);
    let pair: [&[u8]; 2] = halves.try_into().ok()?;
    pair.iter().all(is_digits).then_some(pair)
}

/// Pairs of hexadecimal digits, with spaces between pairs or without.
pub fn bytes(text: &[u8]) -> Option<Vec<u8>> {
    let pairs = words(text).flat_map(|word| word.chunks(2));
    pairs
        .map(|pair| hexadecimal(pair, 2)?.try_into().ok())
        .collect()
}

/// `mm` or `e8`, then `0x` and 16 hexadecimal digits.
pub fn reading(text: &[u8]) -> Option<Reading> {
    let [unit, bits] = words(text).collect::<Vec<_>>().try_into().ok()?;
    let double = f64::from_bits(hexadecimal(bits.strip_prefix(b"0x")?, 16)?);
    match unit {
        b"mm" => Some(Reading::Millimetres(double)),
        b"e8" => Some(Reading::Eighths(double)),
        _ => None,
    }
}

/// Reads `count` hexadecimal digits.
fn hexadecimal(word: &[u8], count: usize) -> Option<u64> {
    let all = word.len() == count && word.iter().all(u8::is_ascii_hexdigit);
    let text = str::from_utf8(word).ok().filter(|_| all)?;
    u64::from_str_radix(text, 16).ok()
}
