//! A controller without std. It does not link if a question can panic: nothing defines `a_question_panics`.
#![no_std]
#![no_main]
use cocklesway::{Book, Reading, Shape, Walk, bytes};
use core::hint::black_box;
use core::panic::PanicInfo;

#[link(name = "c")]
unsafe extern "C" {
    fn a_question_panics() -> !;
}

#[panic_handler]
fn panic(_: &PanicInfo) -> ! {
    // SAFETY: it is never linked.
    unsafe { a_question_panics() }
}

#[unsafe(no_mangle)]
extern "C" fn main() -> i32 {
    let corners = black_box([[0, 0], [2, 0], [2, 2], [0, 2]]);
    let (a, b) = black_box((Shape::new(&corners, 3), Shape::of_numbers(&[5, 1], 3)));
    ask_of_one(a);
    ask_of_two(a, b);
    ask_of_bytes(&corners);
    black_box((cocklesway::limits(), cocklesway::version()));
    match cocklesway::judge(a) {
        Ok(answer) => answer.count as i32,
        Err(refusal) => -(refusal.number() as i32),
    }
}

fn ask_of_one(a: Shape) {
    let mut out = [[0; 2]; 64];
    let mut log = [0; 64];
    let mut book = Book::new(&mut log);
    let _ = black_box(cocklesway::judge(a));
    let _ = black_box(cocklesway::furthest(a, black_box([1, 0])));
    let _ = black_box(cocklesway::length(a));
    let _ = black_box(cocklesway::width(a));
    let _ = black_box(cocklesway::area(a));
    let _ = black_box(cocklesway::least_box(a));
    let _ = black_box(cocklesway::mirror(a, &mut out));
    let _ = black_box(cocklesway::sweep(a, &mut out));
    let _ = black_box(cocklesway::ring(a, &mut out));
    let _ = black_box(book.add(7, a, black_box(99)));
    let _ = black_box(book.read(7, &mut out));
    let _ = black_box(book.entry(black_box(0), &mut out));
    let _ = black_box(book.nearest(a, black_box(None))).map(|answer| black_box(answer.rounded()));
    let _ = black_box(book.gap(a)).map(|answer| black_box(answer.rounded()));
    let _ = black_box(book.contact(a, black_box([0, 0]), black_box([9, 9])));
    let _ = black_box(book.pack_into(&mut [0; 64], black_box(None), black_box(99)));
    let (x, y) = black_box((Reading::Millimetres(1.0), Reading::Eighths(8.0)));
    let _ = black_box(cocklesway::tablet(x, y));
}

fn ask_of_two(a: Shape, b: Shape) {
    let mut out = [[0; 2]; 64];
    let _ = black_box(cocklesway::sum(a, b, &mut out));
    let _ = black_box(cocklesway::merge(a, b, &mut out));
    let _ = black_box(cocklesway::grow(a, b, &mut out));
    let _ = black_box(cocklesway::relation(a, b));
    let _ = black_box(cocklesway::inside(a, b));
    let _ = black_box(cocklesway::offer(a, b, black_box([1, 0])));
    let _ = black_box(cocklesway::find(a, b));
    let _ = black_box(cocklesway::clearance(a, b)).map(|answer| black_box(answer.rounded()));
    let _ = black_box(cocklesway::greatest(a, b));
    let _ = black_box(cocklesway::excess(a, b)).map(|answer| black_box(answer.up()));
    let _ = black_box(cocklesway::passage(a, b, a)).map(|answer| black_box(answer.way));
    let _ = black_box(cocklesway::tangents(a, b));
    let _ = black_box(cocklesway::contact(a, b, black_box([0, 0]), black_box([9, 9])));
    let _ = black_box(Walk::begin(a, b));
    let walk = black_box(Walk::at(1, 0, false));
    let _ = black_box(walk.part(a, b, black_box(2), &mut out));
}

fn ask_of_bytes(corners: &[[i32; 2]]) {
    let from = black_box([0; 8]);
    let mut out = [0; 64];
    let _ = black_box(bytes::judge(&from, 0).corners());
    let _ = black_box(bytes::sum(&from, 0, &from, 0, &mut out).corners());
    let _ = black_box(bytes::merge(&from, 0, &from, 0, &mut out).corners());
    let _ = black_box(bytes::relation(&from, 0, &from, 0).standing());
    black_box(bytes::corners_of(&out).fold(0, |n, [x, y]| n ^ x ^ y));
    black_box(bytes::of_corners(corners).fold(0, |n, byte| n ^ byte));
}
