//! Points of the floor and the few products that document 01 is written in.
//!
//!     turn a b c    positive if c lies to the left of the edge a to b, 0 on its line
//!     value d p     u·x + v·y of the point p in the direction d = (u, v)
//!     cross, dot    the two products of vectors
//!     divisor       the greatest common divisor, by Euclid's remainders; of (0, v) the size of v
//!
//! Coordinates are i64, products i128: nothing here comes near the end of either.

use std::ops::{Add, Mul, Neg, Sub};

/// A point, or the vector from the origin to it.
#[derive(Clone, Copy, Debug, PartialEq, Eq)]
pub struct Point {
    pub x: i64,
    pub y: i64,
}

/// The list of a shape's corners.
pub type Shape = Vec<Point>;

pub fn point(x: i64, y: i64) -> Point {
    Point { x, y }
}

impl Point {
    /// The order in which the standard first corner is the least: by y, then by x.
    pub fn low_then_left(&self) -> (i64, i64) {
        (self.y, self.x)
    }

    /// The vector turned left by a quarter.
    pub fn quarter_turned(self) -> Point {
        point(-self.y, self.x)
    }
}

impl Add for Point {
    type Output = Point;

    fn add(self, other: Point) -> Point {
        point(self.x + other.x, self.y + other.y)
    }
}

impl Sub for Point {
    type Output = Point;

    fn sub(self, other: Point) -> Point {
        point(self.x - other.x, self.y - other.y)
    }
}

impl Neg for Point {
    type Output = Point;

    fn neg(self) -> Point {
        point(-self.x, -self.y)
    }
}

impl Mul<i64> for Point {
    type Output = Point;

    fn mul(self, factor: i64) -> Point {
        point(self.x * factor, self.y * factor)
    }
}

pub fn cross(a: Point, b: Point) -> i128 {
    i128::from(a.x) * i128::from(b.y) - i128::from(a.y) * i128::from(b.x)
}

pub fn dot(a: Point, b: Point) -> i128 {
    i128::from(a.x) * i128::from(b.x) + i128::from(a.y) * i128::from(b.y)
}

pub fn divisor(a: i64, b: i64) -> i64 {
    if b == 0 { a.abs() } else { divisor(b, a % b) }
}

/// (bx-ax)(cy-ay) - (by-ay)(cx-ax)
pub fn turn(a: Point, b: Point, c: Point) -> i128 {
    cross(b - a, c - a)
}

pub fn value(direction: Point, p: Point) -> i128 {
    dot(direction, p)
}

pub fn squared_distance(a: Point, b: Point) -> i128 {
    let d = b - a;
    dot(d, d)
}

/// The two ends of the edge at a position; the last edge goes to the first corner.
pub fn edge_ends(shape: &[Point], edge: usize) -> (Point, Point) {
    (shape[edge], shape[(edge + 1) % shape.len()])
}
