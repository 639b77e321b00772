//! Lines of an input. They are bytes: a line may hold what is no text at all.

pub const MOST_CHARACTERS: usize = 65_536;

/// The lines that want an answer, each with its number in the input, counted from 1. A byte order
/// mark before all of them is passed over, as are empty lines and lines that begin with #.
pub fn questions(input: &[u8]) -> impl Iterator<Item = (usize, &[u8])> {
    let text = input.strip_prefix(b"\xEF\xBB\xBF").unwrap_or(input);
    let lines = text.split(|&byte| byte == b'\n');
    (1..).zip(lines).filter(|(_, line)| !is_passed_over(line))
}

pub fn is_passed_over(line: &[u8]) -> bool {
    line.starts_with(b"#") || line.iter().all(is_space)
}

/// Spaces after the last other character do not count.
pub fn is_too_long(line: &[u8]) -> bool {
    line.iter()
        .skip(MOST_CHARACTERS)
        .any(|byte| !is_space(byte))
}

/// The text without the spaces around it.
pub fn trimmed(text: &[u8]) -> &[u8] {
    let from = text.iter().position(|byte| !is_space(byte));
    let last = text.iter().rposition(|byte| !is_space(byte));
    match (from, last) {
        (Some(from), Some(last)) => &text[from..=last],
        _ => &[],
    }
}

/// The words between spaces.
pub fn words(text: &[u8]) -> impl Iterator<Item = &[u8]> {
    text.split(is_space).filter(|word| !word.is_empty())
}

/// Tabs and carriage returns count as spaces; no other character does.
fn is_space(byte: &u8) -> bool {
    matches!(byte, b' ' | b'\t' | b'\r')
}

#[cfg(test)]
mod tests {
    use super::*;

    fn numbers_of(input: &[u8]) -> Vec<usize> {
        questions(input).map(|(number, _)| number).collect()
    }

    #[test]
    fn some_lines_want_no_answer() {
        assert_eq!(numbers_of(b"a\n\n#b\n #c\n \t\r\nd\r\ne"), [1, 4, 6, 7]);
        assert_eq!(numbers_of(b""), []);
        let long = [&b"#"[..], &[b'x'; MOST_CHARACTERS + 1], b"\nf"].concat();
        assert_eq!(numbers_of(&long), [2]);
    }

    #[test]
    fn byte_order_mark_counts_only_at_the_start() {
        let lines: Vec<_> = questions(b"\xEF\xBB\xBF#a\n\xEF\xBB\xBF#b\n").collect();
        assert_eq!(lines, [(2, &b"\xEF\xBB\xBF#b"[..])]);
    }

    #[test]
    fn length_is_counted_to_the_last_character_that_is_no_space() {
        let longest = [b'x'; MOST_CHARACTERS];
        assert!(!is_too_long(&longest));
        assert!(!is_too_long(&[&longest[..], b" \t\r "].concat()));
        assert!(is_too_long(&[&longest[..], b" \t\r x"].concat()));
    }
}
