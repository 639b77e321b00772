//! The numbers of a sentence.

/// Returns the numbers of a sentence in order; metres as millimetres, areas as twice their square millimetres.
pub fn numbers(sentence: &str) -> Vec<i128> {
    let bytes = sentence.as_bytes();
    let mut numbers = Vec::new();
    let mut at = 0;
    while at < bytes.len() {
        if !bytes[at].is_ascii_digit() {
            at += 1;
            continue;
        }
        let start = at;
        while at < bytes.len() && (bytes[at].is_ascii_digit() || is_point(bytes, at)) {
            at += 1;
        }
        let is_negative = start > 0
            && bytes[start - 1] == b'-'
            && !(start > 1 && bytes[start - 2].is_ascii_alphanumeric());
        numbers.push(value(&sentence[start..at], &sentence[at..], is_negative));
    }
    numbers
}

/// Whether there is a decimal point: one between digits.
fn is_point(bytes: &[u8], at: usize) -> bool {
    bytes[at] == b'.' && bytes.get(at + 1).is_some_and(u8::is_ascii_digit)
}

fn value(text: &str, after: &str, is_negative: bool) -> i128 {
    let (whole, decimals) = text.split_once('.').unwrap_or((text, ""));
    if after.starts_with(" m²") {
        return halves(whole, decimals, 7) / 5;
    }
    if after.starts_with(" mm²") {
        return halves(whole, decimals, 1) / 5;
    }
    let in_metres = after.starts_with(" m") && !after.starts_with(" mm");
    assert!(
        decimals.len() <= 3 && (in_metres || decimals.is_empty()),
        "decimals of {text}"
    );
    let whole: i128 = whole.parse().expect("digits");
    let decimals: i128 = format!("{decimals:0<3}").parse().expect("digits");
    let size = if in_metres {
        1000 * whole + decimals
    } else {
        whole
    };
    if is_negative { -size } else { size }
}

/// The number without its point, with the given number of decimals.
fn halves(whole: &str, decimals: &str, places: usize) -> i128 {
    assert!(decimals.len() <= places, "decimals of {whole}.{decimals}");
    format!("{whole}{decimals:0<places$}")
        .parse()
        .expect("digits")
}
