//! The fields of a question. A new kind of field is one case of `Field` with its value, and one
//! function that reads it.

use super::given::Given;
use super::lines::{trimmed, words};
use super::unreadable::Unreadable;
use crate::parts::{Call, State};
use crate::plane::{Point, point};
use crate::tablet;

/// How many numbers the fields of a line may hold together.
pub const MOST_NUMBERS: usize = 16_384;

/// How many bytes the output of a host's call may have.
pub const MOST_OUTPUT: usize = 65_536;

#[derive(Clone, Copy, Debug, PartialEq, Eq)]
pub enum Field {
    /// Numbers, and before them a floor: an at sign and its number; 0 if it is left out.
    Shape,
    Direction,
    /// How many numbers the lent output holds; may be left out, with its bar.
    Room,
    Reading,
    Log,
    Name,
    /// How many stores an addition may make; may be left out, with its bar.
    Stores,
    /// The state of a walk.
    Walk,
    /// How many corners a call of a sum in parts may write, and its room.
    Call,
    /// Any bytes, as a log is written.
    Bytes,
    /// The floor of a host's list, from 0 to the most that 32 bits hold.
    Floor,
    /// How many bytes the output of a host's call holds.
    Output,
    /// Any calls, each as one word: the two numbers with a colon between them.
    Calls,
    /// A name that is left out; nothing if nobody is.
    But,
    /// The same, and the field may be left out.
    Excepted,
    /// A position, which is a count.
    Position,
}

#[derive(Clone, Debug, PartialEq, Eq)]
pub enum Value {
    /// The list of a shape, not yet judged, and its floor.
    Shape(Vec<i32>, u16),
    Direction(Point),
    Room(usize),
    Reading(tablet::Reading),
    Log(Vec<u8>),
    Name(u16),
    Stores(usize),
    Walk(State),
    Calls(Vec<Call>),
    Bytes(Vec<u8>),
    Floor(u32),
    Output(usize),
    But(Option<u16>),
    Position(usize),
}

impl Field {
    fn may_be_left_out(self) -> bool {
        matches!(self, Field::Room | Field::Stores | Field::Excepted)
    }

    fn read(self, text: &[u8], numbers: &mut Numbers) -> Result<Value, Unreadable> {
        match self {
            Field::Shape => numbers.read_shape(text),
            Field::Direction => direction(&numbers.read(text)?),
            Field::Room => count(&numbers.read(text)?).map(Value::Room),
            Field::Reading => reading(text).ok_or(Unreadable::NotAReading),
            Field::Log => bytes(text).map(Value::Log).ok_or(Unreadable::NotBytes),
            Field::Name => name(&numbers.read(text)?).map(Value::Name),
            Field::But | Field::Excepted => but(&numbers.read(text)?).map(Value::But),
            Field::Position => count(&numbers.read(text)?).map(Value::Position),
            Field::Stores => count(&numbers.read(text)?).map(Value::Stores),
            Field::Walk => walk(&numbers.read(text)?),
            Field::Call => call(&numbers.read(text)?).map(|call| Value::Calls(vec![call])),
            Field::Calls => numbers.read_calls(text).map(Value::Calls),
            Field::Bytes => bytes(text).map(Value::Bytes).ok_or(Unreadable::NotBytes),
            Field::Floor => digits(text).map(Value::Floor).ok_or(Unreadable::NotAFloor),
            Field::Output => output(text).map(Value::Output).ok_or(Unreadable::NotACount),
        }
    }
}

/// Reads the texts of a line's fields: first their count is settled, then all are read.
pub fn read(fields: &[Field], texts: &[&[u8]]) -> Result<Given, Unreadable> {
    check_count(fields, texts.len())?;
    let mut numbers = Numbers { left: MOST_NUMBERS };
    let read = |(field, text): (&Field, &&[u8])| field.read(text, &mut numbers);
    let values: Vec<_> = fields.iter().zip(texts).map(read).collect();
    let faults = || values.iter().filter_map(|value| value.as_ref().err());
    match faults().find(|fault| fault.is_in_text()) {
        Some(&fault) => Err(fault),
        None => values.into_iter().collect::<Result<_, _>>().map(Given),
    }
}

fn check_count(fields: &[Field], count: usize) -> Result<(), Unreadable> {
    if count > fields.len() {
        return Err(Unreadable::TooManyFields);
    }
    if !fields[count..].iter().all(|field| field.may_be_left_out()) {
        return Err(Unreadable::MissingField);
    }
    Ok(())
}

fn direction(list: &[i32]) -> Result<Value, Unreadable> {
    match *list {
        [u, v] => Ok(Value::Direction(point(i64::from(u), i64::from(v)))),
        _ => Err(Unreadable::WrongCount),
    }
}

fn count(list: &[i32]) -> Result<usize, Unreadable> {
    match *list {
        [count] => usize::try_from(count).map_err(|_| Unreadable::NotACount),
        _ => Err(Unreadable::WrongCount),
    }
}

fn name(list: &[i32]) -> Result<u16, Unreadable> {
    match *list {
        [name] => u16::try_from(name).map_err(|_| Unreadable::NotAName),
        _ => Err(Unreadable::WrongCount),
    }
}

fn but(list: &[i32]) -> Result<Option<u16>, Unreadable> {
    if list.is_empty() {
        return Ok(None);
    }
    name(list).map(Some)
}

/// Pairs of hexadecimal digits; spaces may separate pairs.
pub fn bytes(text: &[u8]) -> Option<Vec<u8>> {
    let pairs = words(text).flat_map(|word| word.chunks(2));
    pairs.map(byte).collect()
}

fn byte(pair: &[u8]) -> Option<u8> {
    if pair.len() != 2 || !pair.iter().all(u8::is_ascii_hexdigit) {
        return None;
    }
    u8::from_str_radix(str::from_utf8(pair).ok()?, 16).ok()
}

/// One word of digits, a number of 32 bits without a sign.
fn digits(text: &[u8]) -> Option<u32> {
    let word = trimmed(text);
    let digits = word.iter().all(u8::is_ascii_digit);
    str::from_utf8(word).ok().filter(|_| digits)?.parse().ok()
}

fn output(text: &[u8]) -> Option<usize> {
    let bytes = usize::try_from(digits(text)?).ok()?;
    (bytes <= MOST_OUTPUT).then_some(bytes)
}

fn walk(list: &[i32]) -> Result<Value, Unreadable> {
    let &[i, j, over] = list else {
        return Err(Unreadable::WrongCount);
    };
    match (usize::try_from(i), usize::try_from(j), over) {
        (Ok(i), Ok(j), 0 | 1) => Ok(Value::Walk(State {
            i,
            j,
            over: over == 1,
        })),
        _ => Err(Unreadable::NotAWalk),
    }
}

fn call(list: &[i32]) -> Result<Call, Unreadable> {
    let &[k, room] = list else {
        return Err(Unreadable::WrongCount);
    };
    match (usize::try_from(k), usize::try_from(room)) {
        (Ok(k), Ok(room)) => Ok(Call { k, room }),
        _ => Err(Unreadable::NotACount),
    }
}

/// The two numbers of a word, which are digits.
fn pair(word: &[u8]) -> Option<[&[u8]; 2]> {
    let halves: Vec<&[u8]> = word.split(|&byte| byte == b':').collect();
    let digits = |half: &&[u8]| !half.is_empty() && half.iter().all(u8::is_ascii_digit);
    halves
        .try_into()
        .ok()
        .filter(|pair: &[&[u8]; 2]| pair.iter().all(digits))
}

/// `mm` or `e8`, then `0x` and 16 hexadecimal digits.
fn reading(text: &[u8]) -> Option<Value> {
    let [unit, bits] = words(text).collect::<Vec<_>>().try_into().ok()?;
    let eighths = match unit {
        b"mm" => false,
        b"e8" => true,
        _ => return None,
    };
    let digits = bits
        .strip_prefix(b"0x")
        .filter(|digits| digits.len() == 16)?;
    if !digits.iter().all(u8::is_ascii_hexdigit) {
        return None;
    }
    let bits = u64::from_str_radix(str::from_utf8(digits).ok()?, 16).ok()?;
    Some(Value::Reading(tablet::Reading { eighths, bits }))
}

/// Reads numbers, as long as the line may hold more of them.
struct Numbers {
    left: usize,
}

impl Numbers {
    fn read(&mut self, text: &[u8]) -> Result<Vec<i32>, Unreadable> {
        words(text).map(|word| self.read_one(word)).collect()
    }

    /// The floor is no number of the line.
    fn read_shape(&mut self, text: &[u8]) -> Result<Value, Unreadable> {
        let mut words = words(text).peekable();
        let floor = match words.next_if(|word| word.starts_with(b"@")) {
            Some(word) => floor(word).ok_or(Unreadable::NotAFloor)?,
            None => 0,
        };
        let list: Result<_, _> = words.map(|word| self.read_one(word)).collect();
        Ok(Value::Shape(list?, floor))
    }

    /// The form of all is looked at before the first is read.
    fn read_calls(&mut self, text: &[u8]) -> Result<Vec<Call>, Unreadable> {
        let pairs: Option<Vec<_>> = words(text).map(pair).collect();
        let read = |[k, room]: [&[u8]; 2]| call(&[self.read_one(k)?, self.read_one(room)?]);
        pairs
            .ok_or(Unreadable::NotACall)?
            .into_iter()
            .map(read)
            .collect()
    }

    fn read_one(&mut self, word: &[u8]) -> Result<i32, Unreadable> {
        let number = number(word).ok_or(Unreadable::NotANumber)?;
        self.left = self.left.checked_sub(1).ok_or(Unreadable::TooManyNumbers)?;
        Ok(number)
    }
}

/// An at sign and a number of 16 bits.
fn floor(word: &[u8]) -> Option<u16> {
    let number = number(word.strip_prefix(b"@")?)?;
    u16::try_from(number).ok()
}

/// Digits, with a minus before them or none: Rust itself would also take a plus.
fn number(word: &[u8]) -> Option<i32> {
    let text = str::from_utf8(word).ok()?;
    if text.starts_with('+') {
        return None;
    }
    text.parse().ok()
}

#[cfg(test)]
mod tests {
    use super::*;

    #[test]
    fn numbers_are_digits_with_at_most_a_minus() {
        let good = [
            ("-0", 0),
            ("007", 7),
            ("2147483647", i32::MAX),
            ("-2147483648", i32::MIN),
        ];
        for (word, value) in good {
            assert_eq!(number(word.as_bytes()), Some(value), "{word}");
        }
        for word in [
            "",
            "-",
            "+5",
            "--5",
            "5-",
            "1.5",
            "2147483648",
            "-2147483649",
            "\u{665}",
        ] {
            assert_eq!(number(word.as_bytes()), None, "{word}");
        }
        assert_eq!(number(b"5\xFF"), None);
    }

    #[test]
    fn a_floor_is_the_first_word_of_a_shape() {
        let shape = |text: &str| {
            let given = read(&[Field::Shape], &[text.as_bytes()])?;
            Ok(given.0.into_iter().next().expect("one field"))
        };
        let on = |list: &[i32], floor| Ok(Value::Shape(list.to_vec(), floor));
        assert_eq!(shape(" @65535\t1 -1"), on(&[1, -1], 65_535));
        assert_eq!(shape("@007"), on(&[], 7));
        assert_eq!(shape("1 -1"), on(&[1, -1], 0));
        for text in ["@ 1 -1", "@65536 1 -1", "@-1 x", "@1@1", "@+1", "@1.0"] {
            assert_eq!(shape(text), Err(Unreadable::NotAFloor), "{text}");
        }
        for text in ["1 -1 @1", "@1 @1 1 -1", "1@1 1 -1", "-@1"] {
            assert_eq!(shape(text), Err(Unreadable::NotANumber), "{text}");
        }
    }

    #[test]
    fn faults_of_the_text_come_first() {
        let fields = [Field::Direction, Field::Room];
        let fault = |texts: [&[u8]; 2]| read(&fields, &texts).expect_err("a fault");
        assert_eq!(fault([b"1", b"x"]), Unreadable::NotANumber);
        assert_eq!(fault([b"1", b"-1"]), Unreadable::WrongCount);
        assert_eq!(fault([b"1 2", b"-1"]), Unreadable::NotACount);
    }

    #[test]
    fn bytes_are_pairs_of_digits() {
        assert_eq!(bytes(b" "), Some(vec![]));
        assert_eq!(bytes(b"0d00\t5a "), Some(vec![13, 0, 90]));
        assert_eq!(bytes(b"0D 005A"), Some(vec![13, 0, 90]));
        for text in ["0", "0D0", "0 D", "0x0D", "+5", "5G", "0D,00"] {
            assert_eq!(bytes(text.as_bytes()), None, "{text}");
        }
    }

    #[test]
    fn the_first_fault_of_the_text_is_told() {
        let many = " 0".repeat(MOST_NUMBERS);
        let fault = |text: &str| read(&[Field::Shape], &[text.as_bytes()]).err();
        assert_eq!(fault(&many), None);
        assert_eq!(
            fault(&(many.clone() + " 0 x")),
            Some(Unreadable::TooManyNumbers)
        );
        assert_eq!(fault(&(many + " x 0")), Some(Unreadable::NotANumber));
    }
}
