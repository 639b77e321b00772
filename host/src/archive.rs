//! The archive's functions. Everything in this package that is unsafe is in this file.
//!
//! A list crosses as a pointer and a count of elements. The functions are proved for all arguments: they have no
//! precondition, read and write lent memory only within its count, keep no pointer, and return for every argument.
#![allow(unsafe_code)]

use crate::Shape;

/// What the archive answers.
#[repr(C)]
#[derive(Clone, Copy, Debug, PartialEq, Eq)]
pub(crate) struct Reply {
    /// 0 if answered, else the refusal's number.
    pub(crate) number: u64,
    /// What a refusal carries.
    pub(crate) carried: [u64; 3],
    /// How many of `values` are meant, or of `carried`; the others are 0.
    pub(crate) count: u64,
    /// An answer's values, the floor last. One below 0 is its two's complement.
    pub(crate) values: [u64; 9],
}

/// The limits, as the archive has them.
#[repr(C)]
#[derive(Clone, Copy)]
pub(crate) struct Limits {
    pub(crate) corners: u64,
    pub(crate) points: u64,
    pub(crate) coordinate: u64,
    pub(crate) part: u64,
    pub(crate) floor: u64,
}

type List = *const i32;
type Output = *mut i32;
type Bytes = *const u8;
type BytesOutput = *mut u8;

/// A question of one list, and one that also writes.
type One = unsafe extern "C" fn(List, usize, u32) -> Reply;
type OneWritten = unsafe extern "C" fn(List, usize, u32, Output, usize) -> Reply;

/// A question of two lists, and one that also writes.
type Two = unsafe extern "C" fn(List, usize, u32, List, usize, u32) -> Reply;
type TwoWritten = unsafe extern "C" fn(List, usize, u32, List, usize, u32, Output, usize) -> Reply;

/// A call of two lists of bytes that also writes.
type BytesWritten =
    unsafe extern "C" fn(Bytes, usize, u32, Bytes, usize, u32, BytesOutput, usize) -> u64;

#[rustfmt::skip]
unsafe extern "C" {
    safe fn cocklesway_version_2() -> u64;
    safe fn cocklesway_limits() -> Limits;
    safe fn cocklesway_tablet(x_eighths: bool, x: f64, y_eighths: bool, y: f64) -> Reply;
    fn cocklesway_judge(list: List, n: usize, floor: u32) -> Reply;
    fn cocklesway_furthest(list: List, n: usize, floor: u32, u: i32, v: i32) -> Reply;
    fn cocklesway_length(list: List, n: usize, floor: u32) -> Reply;
    fn cocklesway_area(list: List, n: usize, floor: u32) -> Reply;
    fn cocklesway_width(list: List, n: usize, floor: u32) -> Reply;
    fn cocklesway_box(list: List, n: usize, floor: u32) -> Reply;
    fn cocklesway_mirror(list: List, n: usize, floor: u32, out: Output, room: usize) -> Reply;
    fn cocklesway_sweep(list: List, n: usize, floor: u32, out: Output, room: usize) -> Reply;
    fn cocklesway_ring(list: List, n: usize, floor: u32, out: Output, room: usize) -> Reply;
    fn cocklesway_sum(a: List, n: usize, f: u32, b: List, m: usize, g: u32, out: Output, room: usize) -> Reply;
    fn cocklesway_merge(a: List, n: usize, f: u32, b: List, m: usize, g: u32, out: Output, room: usize) -> Reply;
    fn cocklesway_grow(a: List, n: usize, f: u32, b: List, m: usize, g: u32, out: Output, room: usize) -> Reply;
    fn cocklesway_begin(a: List, n: usize, f: u32, b: List, m: usize, g: u32) -> Reply;
    fn cocklesway_part(
        a: List, n: usize, f: u32, b: List, m: usize, g: u32,
        first: usize, second: usize, over: bool, k: usize, out: Output, room: usize,
    ) -> Reply;
    fn cocklesway_relation(a: List, n: usize, f: u32, b: List, m: usize, g: u32) -> Reply;
    fn cocklesway_inside(a: List, n: usize, f: u32, b: List, m: usize, g: u32) -> Reply;
    fn cocklesway_offer(a: List, n: usize, f: u32, b: List, m: usize, g: u32, u: i32, v: i32) -> Reply;
    fn cocklesway_find(a: List, n: usize, f: u32, b: List, m: usize, g: u32) -> Reply;
    fn cocklesway_clearance(a: List, n: usize, f: u32, b: List, m: usize, g: u32) -> Reply;
    fn cocklesway_greatest(a: List, n: usize, f: u32, b: List, m: usize, g: u32) -> Reply;
    fn cocklesway_excess(a: List, n: usize, f: u32, b: List, m: usize, g: u32) -> Reply;
    fn cocklesway_tangents(a: List, n: usize, f: u32, b: List, m: usize, g: u32) -> Reply;
    fn cocklesway_passage(
        a: List, n: usize, f: u32, b: List, m: usize, g: u32, c: List, k: usize, h: u32,
    ) -> Reply;
    fn cocklesway_contact(
        obstacle: List, n: usize, f: u32, cart: List, m: usize, g: u32, x: i32, y: i32, u: i32, v: i32,
    ) -> Reply;
    fn cocklesway_log_read(log: Bytes, count: usize, name: u16, out: Output, room: usize) -> Reply;
    fn cocklesway_log_entry(log: Bytes, count: usize, k: usize, out: Output, room: usize) -> Reply;
    fn cocklesway_log_add(
        log: BytesOutput, count: usize, name: u16, floor: u32, list: List, n: usize, allowed: usize,
    ) -> Reply;
    fn cocklesway_log_pack(
        old: Bytes, count: usize, new: BytesOutput, room: usize, but: u32, allowed: usize,
    ) -> Reply;
    fn cocklesway_log_nearest(log: Bytes, count: usize, list: List, n: usize, floor: u32, but: usize) -> Reply;
    fn cocklesway_log_gap(log: Bytes, count: usize, cart: List, n: usize, floor: u32) -> Reply;
    fn cocklesway_log_contact(
        log: Bytes, count: usize, cart: List, n: usize, floor: u32, x: i32, y: i32, u: i32, v: i32,
    ) -> Reply;
    fn cocklesway_judge_bytes(list: Bytes, n: usize, floor: u32) -> u64;
    fn cocklesway_sum_bytes(
        a: Bytes, n: usize, f: u32, b: Bytes, m: usize, g: u32, out: BytesOutput, room: usize,
    ) -> u64;
    fn cocklesway_merge_bytes(
        a: Bytes, n: usize, f: u32, b: Bytes, m: usize, g: u32, out: BytesOutput, room: usize,
    ) -> u64;
    fn cocklesway_relation_bytes(a: Bytes, n: usize, f: u32, b: Bytes, m: usize, g: u32) -> u64;
}

/// An archive of another version has no such symbol, so a program that meets one does not link.
#[used]
static VERSION: extern "C" fn() -> u64 = cocklesway_version_2;

pub(crate) fn version() -> u64 {
    cocklesway_version_2()
}

pub(crate) fn limits() -> Limits {
    cocklesway_limits()
}

pub(crate) fn tablet(x_eighths: bool, x: f64, y_eighths: bool, y: f64) -> Reply {
    cocklesway_tablet(x_eighths, x, y_eighths, y)
}

pub(crate) fn judge(a: Shape<'_>) -> Reply {
    one(cocklesway_judge, a)
}

pub(crate) fn length(a: Shape<'_>) -> Reply {
    one(cocklesway_length, a)
}

pub(crate) fn area(a: Shape<'_>) -> Reply {
    one(cocklesway_area, a)
}

pub(crate) fn width(a: Shape<'_>) -> Reply {
    one(cocklesway_width, a)
}

pub(crate) fn least_box(a: Shape<'_>) -> Reply {
    one(cocklesway_box, a)
}

pub(crate) fn furthest(a: Shape<'_>, [u, v]: [i32; 2]) -> Reply {
    let a = lent(a);
    // SAFETY: the list is a live slice of that length.
    unsafe { cocklesway_furthest(a.list, a.n, a.floor, u, v) }
}

pub(crate) fn mirror(a: Shape<'_>, out: &mut [i32]) -> Reply {
    one_written(cocklesway_mirror, a, out)
}

pub(crate) fn sweep(points: Shape<'_>, out: &mut [i32]) -> Reply {
    one_written(cocklesway_sweep, points, out)
}

pub(crate) fn ring(points: Shape<'_>, out: &mut [i32]) -> Reply {
    one_written(cocklesway_ring, points, out)
}

pub(crate) fn sum(a: Shape<'_>, b: Shape<'_>, out: &mut [i32]) -> Reply {
    two_written(cocklesway_sum, a, b, out)
}

pub(crate) fn merge(a: Shape<'_>, b: Shape<'_>, out: &mut [i32]) -> Reply {
    two_written(cocklesway_merge, a, b, out)
}

pub(crate) fn grow(obstacle: Shape<'_>, cart: Shape<'_>, out: &mut [i32]) -> Reply {
    two_written(cocklesway_grow, obstacle, cart, out)
}

pub(crate) fn begin(a: Shape<'_>, b: Shape<'_>) -> Reply {
    two(cocklesway_begin, a, b)
}

pub(crate) fn part(
    [a, b]: [Shape<'_>; 2],
    [first, second]: [usize; 2],
    over: bool,
    k: usize,
    out: &mut [i32],
) -> Reply {
    let (a, b) = (lent(a), lent(b));
    let (to, room) = (out.as_mut_ptr(), out.len());
    // SAFETY: lists and output are live slices of these lengths, and no other reference reaches the output.
    unsafe {
        cocklesway_part(
            a.list, a.n, a.floor, b.list, b.n, b.floor, first, second, over, k, to, room,
        )
    }
}

pub(crate) fn relation(a: Shape<'_>, b: Shape<'_>) -> Reply {
    two(cocklesway_relation, a, b)
}

pub(crate) fn inside(a: Shape<'_>, b: Shape<'_>) -> Reply {
    two(cocklesway_inside, a, b)
}

pub(crate) fn offer(a: Shape<'_>, b: Shape<'_>, [u, v]: [i32; 2]) -> Reply {
    let (a, b) = (lent(a), lent(b));
    // SAFETY: both lists are live slices of these lengths.
    unsafe { cocklesway_offer(a.list, a.n, a.floor, b.list, b.n, b.floor, u, v) }
}

pub(crate) fn find(a: Shape<'_>, b: Shape<'_>) -> Reply {
    two(cocklesway_find, a, b)
}

pub(crate) fn clearance(a: Shape<'_>, b: Shape<'_>) -> Reply {
    two(cocklesway_clearance, a, b)
}

pub(crate) fn greatest(a: Shape<'_>, b: Shape<'_>) -> Reply {
    two(cocklesway_greatest, a, b)
}

pub(crate) fn excess(new: Shape<'_>, old: Shape<'_>) -> Reply {
    two(cocklesway_excess, new, old)
}

pub(crate) fn tangents(a: Shape<'_>, b: Shape<'_>) -> Reply {
    two(cocklesway_tangents, a, b)
}

pub(crate) fn passage(left: Shape<'_>, right: Shape<'_>, cart: Shape<'_>) -> Reply {
    let (a, b, c) = (lent(left), lent(right), lent(cart));
    // SAFETY: all three lists are live slices of these lengths.
    unsafe {
        cocklesway_passage(
            a.list, a.n, a.floor, b.list, b.n, b.floor, c.list, c.n, c.floor,
        )
    }
}

pub(crate) fn contact(
    obstacle: Shape<'_>,
    cart: Shape<'_>,
    [x, y]: [i32; 2],
    [u, v]: [i32; 2],
) -> Reply {
    let (obstacle, cart) = (lent(obstacle), lent(cart));
    // SAFETY: both lists are live slices of these lengths.
    unsafe {
        cocklesway_contact(
            obstacle.list,
            obstacle.n,
            obstacle.floor,
            cart.list,
            cart.n,
            cart.floor,
            x,
            y,
            u,
            v,
        )
    }
}

pub(crate) fn log_read(log: &[u8], name: u16, out: &mut [i32]) -> Reply {
    let (to, room) = (out.as_mut_ptr(), out.len());
    // SAFETY: log and output are live slices of these lengths, and no other reference reaches the output.
    unsafe { cocklesway_log_read(log.as_ptr(), log.len(), name, to, room) }
}

pub(crate) fn log_entry(log: &[u8], k: usize, out: &mut [i32]) -> Reply {
    let (to, room) = (out.as_mut_ptr(), out.len());
    // SAFETY: log and output are live slices of these lengths, and no other reference reaches the output.
    unsafe { cocklesway_log_entry(log.as_ptr(), log.len(), k, to, room) }
}

pub(crate) fn log_add(log: &mut [u8], name: u16, a: Shape<'_>, allowed: usize) -> Reply {
    let a = lent(a);
    let (to, count) = (log.as_mut_ptr(), log.len());
    // SAFETY: log and list are live slices of these lengths, and no other reference reaches the log.
    unsafe { cocklesway_log_add(to, count, name, a.floor, a.list, a.n, allowed) }
}

pub(crate) fn log_pack(old: &[u8], new: &mut [u8], but: u32, allowed: usize) -> Reply {
    let (to, room) = (new.as_mut_ptr(), new.len());
    // SAFETY: both are live slices of these lengths, and no other reference reaches the new one.
    unsafe { cocklesway_log_pack(old.as_ptr(), old.len(), to, room, but, allowed) }
}

pub(crate) fn log_nearest(log: &[u8], a: Shape<'_>, but: usize) -> Reply {
    let a = lent(a);
    // SAFETY: log and list are live slices of these lengths.
    unsafe { cocklesway_log_nearest(log.as_ptr(), log.len(), a.list, a.n, a.floor, but) }
}

pub(crate) fn log_gap(log: &[u8], cart: Shape<'_>) -> Reply {
    let a = lent(cart);
    // SAFETY: log and list are live slices of these lengths.
    unsafe { cocklesway_log_gap(log.as_ptr(), log.len(), a.list, a.n, a.floor) }
}

pub(crate) fn log_contact(
    log: &[u8],
    cart: Shape<'_>,
    [x, y]: [i32; 2],
    [u, v]: [i32; 2],
) -> Reply {
    let cart = lent(cart);
    // SAFETY: log and list are live slices of these lengths.
    unsafe {
        cocklesway_log_contact(
            log.as_ptr(),
            log.len(),
            cart.list,
            cart.n,
            cart.floor,
            x,
            y,
            u,
            v,
        )
    }
}

pub(crate) fn judge_bytes(list: &[u8], floor: u32) -> u64 {
    // SAFETY: the list is a live slice of that length.
    unsafe { cocklesway_judge_bytes(list.as_ptr(), list.len(), floor) }
}

pub(crate) fn sum_bytes(a: &[u8], f: u32, b: &[u8], g: u32, out: &mut [u8]) -> u64 {
    bytes_written(cocklesway_sum_bytes, a, f, b, g, out)
}

pub(crate) fn merge_bytes(a: &[u8], f: u32, b: &[u8], g: u32, out: &mut [u8]) -> u64 {
    bytes_written(cocklesway_merge_bytes, a, f, b, g, out)
}

pub(crate) fn relation_bytes(a: &[u8], f: u32, b: &[u8], g: u32) -> u64 {
    // SAFETY: both lists are live slices of these lengths.
    unsafe { cocklesway_relation_bytes(a.as_ptr(), a.len(), f, b.as_ptr(), b.len(), g) }
}

/// A list as it crosses: where it begins, how many numbers it has, and its floor.
struct Lent {
    list: List,
    n: usize,
    floor: u32,
}

#[inline]
fn lent(shape: Shape<'_>) -> Lent {
    let numbers = shape.corners.as_flattened();
    Lent {
        list: numbers.as_ptr(),
        n: numbers.len(),
        floor: shape.floor,
    }
}

#[inline]
fn one(call: One, a: Shape<'_>) -> Reply {
    let a = lent(a);
    // SAFETY: `call` is a function of the archive, and the list is a live slice of that length.
    unsafe { call(a.list, a.n, a.floor) }
}

#[inline]
fn one_written(call: OneWritten, a: Shape<'_>, out: &mut [i32]) -> Reply {
    let a = lent(a);
    let (to, room) = (out.as_mut_ptr(), out.len());
    // SAFETY: `call` is a function of the archive. List and output are live slices of these lengths, and no other
    // reference reaches the output.
    unsafe { call(a.list, a.n, a.floor, to, room) }
}

#[inline]
fn two(call: Two, a: Shape<'_>, b: Shape<'_>) -> Reply {
    let (a, b) = (lent(a), lent(b));
    // SAFETY: `call` is a function of the archive, and both lists are live slices of these lengths.
    unsafe { call(a.list, a.n, a.floor, b.list, b.n, b.floor) }
}

#[inline]
fn two_written(call: TwoWritten, a: Shape<'_>, b: Shape<'_>, out: &mut [i32]) -> Reply {
    let (a, b) = (lent(a), lent(b));
    let (to, room) = (out.as_mut_ptr(), out.len());
    // SAFETY: `call` is a function of the archive. Lists and output are live slices of these lengths, and no other
    // reference reaches the output.
    unsafe { call(a.list, a.n, a.floor, b.list, b.n, b.floor, to, room) }
}

#[inline]
fn bytes_written(call: BytesWritten, a: &[u8], f: u32, b: &[u8], g: u32, out: &mut [u8]) -> u64 {
    let (to, room) = (out.as_mut_ptr(), out.len());
    // SAFETY: `call` is a function of the archive. Lists and output are live slices of these lengths, and no other
    // reference reaches the output.
    unsafe { call(a.as_ptr(), a.len(), f, b.as_ptr(), b.len(), g, to, room) }
}
