//! Replies taken apart, whatever numbers they hold, and the words of refusals.
#![allow(clippy::expect_used)]
extern crate std;

use crate::archive::Reply;
use crate::reply::{coordinate, narrow, position};
use crate::{Axis, Refusal, Shape, Which};
use std::string::{String, ToString};

const MOST: u64 = u64::MAX;

fn refused(number: u64, carried: [u64; 3]) -> Reply {
    Reply {
        number,
        carried,
        count: 0,
        values: [0; 9],
    }
}

fn answered(values: [u64; 9]) -> Reply {
    Reply {
        values,
        ..refused(0, [0; 3])
    }
}

#[test]
fn numbers_that_do_not_fit_are_held_to_the_nearest() {
    assert_eq!((position(7), position(MOST)), (7, usize::MAX));
    assert_eq!((narrow(7), narrow(MOST)), (7, u32::MAX));
    let signed = |value: i64| coordinate(value.cast_unsigned());
    assert_eq!(signed(-1), -1);
    assert_eq!([i64::MIN, i64::MAX].map(signed), [i32::MIN, i32::MAX]);
}

#[test]
fn a_shape_is_as_much_of_the_output_as_was_written() {
    let out = [[1, 2], [3, 4]];
    let written = |count| answered([count, 5, 0, 0, 0, 0, 0, 0, 0]).written(&out);
    assert_eq!(written(1), Ok(Shape::new(&out[..1], 5)));
    assert_eq!(written(2), Ok(Shape::new(&out, 5)));
    assert_eq!(written(MOST), Ok(Shape::new(&out, 5)));
}

#[test]
fn every_number_is_some_refusal() {
    for number in (1..40).chain([MOST]) {
        for carried in [[1, 2, 3], [2, 0, 0], [0; 3], [MOST; 3]] {
            let refusal = refused(number, carried)
                .values()
                .expect_err("it is refused");
            assert_eq!(refusal.number(), number);
            let unread = Refusal::of_reading(number, carried);
            let of_ring = refusal.of_ring();
            assert_eq!((unread.number(), of_ring.number()), (number, number));
            for refusal in [refusal, unread, of_ring] {
                let words = refusal.to_string();
                assert!(
                    words.starts_with(&std::format!("refused {number}: ")),
                    "{words}"
                );
            }
        }
    }
}

/// What is said of a refusal, after its number.
fn words(number: u64, carried: [u64; 3]) -> String {
    let words = Refusal::of(number, carried).to_string();
    let (_, words) = words.split_once(": ").expect("the number comes first");
    words.to_string()
}

#[test]
fn words_say_what_is_carried() {
    let none = [0; 3];
    assert_eq!(
        words(4, [1, 0, 1]),
        "the two corners of the first list are equal"
    );
    assert_eq!(
        words(4, [2, 0, 3]),
        "corner 3 of the second list is not strictly left of its edge 0"
    );
    assert_eq!(
        words(1, [2, 0, 0]),
        "the second list is empty, or its last corner is not whole"
    );
    assert_eq!(words(8, none), "the output is too small for the answer");
    assert_eq!(words(21, none), "this package does not know the number");
    let far = Refusal::FarReading { axis: Axis::Y }.to_string();
    assert_eq!(far, "refused 3: the reading of y is out of range");
    let bent = Refusal::of(4, [1, 0, 1]).of_ring();
    assert_eq!(bent.shape(), Some(Which::First));
    assert_eq!(
        bent.to_string(),
        "refused 4: the ring turns in at corner 1, after corner 0, or begins to go round again there"
    );
    let damaged = Refusal::Damaged { place: 17 }.to_string();
    assert!(damaged.starts_with("refused 15: the record at byte 17 is of an unknown kind"));
}

/// The header in C says the same of refusals that carry nothing.
#[test]
fn words_are_those_of_the_header() {
    let header = include_str!("../include/cocklesway.h");
    let said = |number| {
        let case = std::format!("case {number}: return \"");
        let (_, rest) = header.split_once(&case)?;
        rest.split_once('"').map(|(words, _)| words)
    };
    for number in [6, 7, 8, 9, 10, 11, 12, 13, 14, 16, 19, 20] {
        assert_eq!(said(number), Some(&*words(number, [0; 3])), "{number}");
    }
    for number in 0..21 {
        assert!(said(number).is_some(), "{number}");
    }
    assert_eq!(said(21), None);
}

#[test]
fn a_refusal_is_an_error() {
    let refusal = Refusal::Start {
        shape: Which::First,
    };
    let error: &dyn core::error::Error = &refusal;
    assert!(error.source().is_none());
}
